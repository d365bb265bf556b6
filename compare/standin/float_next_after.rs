//! Stands in for the crate `float_next_after`: the neighbouring number, as the standard library has it.
use std::cmp::Ordering;

pub trait NextAfter {
    fn next_after(self, towards: Self) -> Self;
}

macro_rules! next_after {
    ($float:ty) => {
        impl NextAfter for $float {
            fn next_after(self, towards: Self) -> Self {
                match self.partial_cmp(&towards) {
                    Some(Ordering::Less) => self.next_up(),
                    Some(Ordering::Greater) => self.next_down(),
                    Some(Ordering::Equal) => towards,
                    None => <$float>::NAN,
                }
            }
        }
    };
}

next_after!(f32);
next_after!(f64);
