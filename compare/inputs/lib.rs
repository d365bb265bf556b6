//! Inputs that find mistakes: the same for every program of the comparison.
pub mod drawings;
pub mod families;
pub mod plans;
pub mod random;
pub mod records;
pub mod sheets;
pub mod texts;

pub type Point = [f64; 2];
/// Two segments, from the first point to the second and from the third to the fourth.
pub type Scene = [Point; 4];
