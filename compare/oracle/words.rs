//! The words of a line: numbers as 16 lowercase hex digits of their bits, flags as 0 or 1.
use std::str::SplitWhitespace;

const ORDERED: &str = "ordered-";
const IN_BOTH_MODES: &[&str] = &["cross", "segcmp", "neigh"];

/// The plain function with the same words, if the name is one of the ordered mode.
pub fn plain_twin(name: &str) -> Option<&str> {
    name.strip_prefix(ORDERED).filter(|twin| IN_BOTH_MODES.contains(twin))
}

pub fn number(x: f64) -> String {
    format!("{:016x}", x.to_bits())
}

pub fn numbers(list: &[f64]) -> String {
    list.iter().map(|x| number(*x)).collect::<Vec<_>>().join(" ")
}

/// The words of one call, taken from the left; `None` where the line is no call.
#[derive(Clone)]
pub struct Words<'a>(SplitWhitespace<'a>);

impl<'a> Words<'a> {
    pub fn of(line: &'a str) -> Self {
        Words(line.split_whitespace())
    }

    pub fn word(&mut self) -> Option<&'a str> {
        self.0.next()
    }

    pub fn end(&mut self) -> Option<()> {
        if self.0.next().is_none() {
            Some(())
        } else {
            None
        }
    }

    /// A finite number: no family has another.
    pub fn number(&mut self) -> Option<f64> {
        let word = self.word()?;
        let digits = word.len() == 16 && word.bytes().all(|b| matches!(b, b'0'..=b'9' | b'a'..=b'f'));
        let x = f64::from_bits(u64::from_str_radix(word, 16).ok()?);
        if digits && x.is_finite() {
            Some(x)
        } else {
            None
        }
    }

    pub fn numbers<const N: usize>(&mut self) -> Option<[f64; N]> {
        let mut list = [0.0; N];
        for x in &mut list {
            *x = self.number()?;
        }
        Some(list)
    }

    pub fn flag(&mut self) -> Option<bool> {
        match self.word()? {
            "0" => Some(false),
            "1" => Some(true),
            _ => None,
        }
    }

    pub fn ring(&mut self) -> Option<u32> {
        self.word()?.parse().ok()
    }
}
