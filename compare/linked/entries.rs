//! The C entries of the archive, and their answers as values that can be compared.
use inputs::Scene;

#[link(name = "entries", kind = "static")]
extern "C" {
    fn bezorika_orientation(
        ax: f64, ay: f64, bx: f64, by: f64, cx: f64, cy: f64, sign: &mut i64, place: &mut u64,
    ) -> u64;
    fn bezorika_crossing(
        ax: f64, ay: f64, bx: f64, by: f64, cx: f64, cy: f64, dx: f64, dy: f64, kind: &mut u64, corners: &mut [f64; 4],
        place: &mut u64,
    ) -> u64;
    fn bezorika_crossing_ordered(
        ax: f64, ay: f64, bx: f64, by: f64, cx: f64, cy: f64, dx: f64, dy: f64, kind: &mut u64, corners: &mut [f64; 4],
        place: &mut u64,
    ) -> u64;
}

/// One of the two modes.
type Crossing = unsafe extern "C" fn(f64, f64, f64, f64, f64, f64, f64, f64, &mut u64, &mut [f64; 4], &mut u64) -> u64;

/// What was lent; an entry that writes where it should not changes it.
const LENT: f64 = 77.0;
const LENT_PLACE: u64 = 77;

/// A number for none, a point, an overlap or lost; and the corners' bits.
#[derive(Clone, Copy, PartialEq)]
pub struct Crossed {
    kind: u64,
    corners: [u64; 4],
}

impl Crossed {
    /// The Rust's answer: as many points as the kind says, or lost where one is not a number.
    #[inline]
    pub fn at(list: &[f64]) -> Self {
        let mut corners = [LENT.to_bits(); 4];
        if list.iter().any(|x| x.is_nan()) {
            return Crossed { kind: 3, corners };
        }
        for (to, from) in corners.iter_mut().zip(list) {
            *to = from.to_bits();
        }
        Crossed { kind: list.len() as u64 / 2, corners }
    }

    /// A wrong answer: another last digit, or lost for none and none for lost.
    #[inline]
    pub fn another(mut self) -> Self {
        if self.kind == 0 || self.kind == 3 {
            self.kind = 3 - self.kind;
        } else {
            self.corners[1] ^= 1;
        }
        self
    }

    /// Minus zero as zero.
    pub fn zeros_alike(self) -> Self {
        let minus_zero = (-0.0f64).to_bits();
        Crossed { corners: self.corners.map(|bits| if bits == minus_zero { 0 } else { bits }), ..self }
    }
}

/// `None` where it is refused, or the place did not stay as lent.
#[inline]
pub fn orientation([a, b, c, _]: Scene) -> Option<i64> {
    let (mut sign, mut place) = (LENT_PLACE as i64, LENT_PLACE);
    // SAFETY: both references are to numbers of our own.
    let code = unsafe { bezorika_orientation(a[0], a[1], b[0], b[1], c[0], c[1], &mut sign, &mut place) };
    if (code, place) == (0, LENT_PLACE) {
        Some(sign)
    } else {
        None
    }
}

/// With the sign of zero; `None` where it is refused, or the place did not stay as lent.
#[inline]
fn crossed(entry: Crossing, [a, b, c, d]: Scene) -> Option<Crossed> {
    let (mut kind, mut corners, mut place) = (LENT_PLACE, [LENT; 4], LENT_PLACE);
    // SAFETY: the references are to numbers of our own, and there are four corners' places.
    let code = unsafe { entry(a[0], a[1], b[0], b[1], c[0], c[1], d[0], d[1], &mut kind, &mut corners, &mut place) };
    if (code, place) == (0, LENT_PLACE) {
        Some(Crossed { kind, corners: corners.map(f64::to_bits) })
    } else {
        None
    }
}

#[inline]
pub fn crossing(s: Scene) -> Option<Crossed> {
    crossed(bezorika_crossing, s)
}

#[inline]
pub fn crossing_ordered(s: Scene) -> Option<Crossed> {
    crossed(bezorika_crossing_ordered, s)
}
