//! Stands in for the crate `robust`: the sign of (ax-cx)(by-cy)-(ay-cy)(bx-cx), exact for all finite
//! numbers. Only the sign counts: the size of the answer is not that of the published crate.
use std::cmp::Ordering;

#[derive(Clone, Copy)]
pub struct Coord {
    pub x: f64,
    pub y: f64,
}

/// Shewchuk's bound for the plain sum: (3 + 16u)u, with u = 2^-53.
const STAGE_A: f64 = 3.3306690738754716e-16;
/// 2^-900: the error of a product that underflows is nothing beside this one's share of the bound.
const NO_UNDERFLOW: f64 = f64::from_bits((1023 - 900) << 52);

/// Plain floats where their sign is certain, else whole numbers. An overflow fails the bound.
#[inline]
pub fn orient2d(a: Coord, b: Coord, c: Coord) -> f64 {
    let left = (a.x - c.x) * (b.y - c.y);
    let right = (a.y - c.y) * (b.x - c.x);
    let size = left.abs() + right.abs();
    let sum = left - right;
    if size > NO_UNDERFLOW && size < f64::INFINITY && sum.abs() >= STAGE_A * size {
        sum
    } else {
        exact(a, b, c)
    }
}

/// The number as a sign and mantissa * 2^(exponent - 1074).
fn parts(x: f64) -> (bool, u64, usize) {
    let bits = x.to_bits();
    let field = (bits >> 52 & 0x7ff) as usize;
    let hidden = if field == 0 { 0 } else { 1 << 52 };
    (x < 0.0, bits & ((1 << 52) - 1) | hidden, field.max(1) - 1)
}

/// Over whole multiples of the smallest power of two among the six, in as few words as hold them.
#[cold]
fn exact(a: Coord, b: Coord, c: Coord) -> f64 {
    let (mut low, mut high) = (usize::MAX, 0);
    for x in [a.x, a.y, b.x, b.y, c.x, c.y] {
        if x != 0.0 {
            let (_, _, exponent) = parts(x);
            low = low.min(exponent);
            high = high.max(exponent);
        }
    }
    // 53 bits of mantissa, one more for a difference, one for its sign.
    let order = match high.saturating_sub(low) + 55 {
        0..=128 => signs::<2>(a, b, c, low),
        129..=256 => signs::<4>(a, b, c, low),
        _ => signs::<33>(a, b, c, low),
    };
    order as i8 as f64
}

fn signs<const N: usize>(a: Coord, b: Coord, c: Coord, low: usize) -> Ordering {
    let minus = |p: f64, q: f64| difference::<N>(p, q, low);
    let (left_negative, left) = product(minus(a.x, c.x), minus(b.y, c.y));
    let (right_negative, right) = product(minus(a.y, c.y), minus(b.x, c.x));
    match (left_negative, right_negative) {
        (false, true) => Ordering::Greater,
        (true, false) => Ordering::Less,
        (false, false) => compare(&left, &right),
        (true, true) => compare(&right, &left),
    }
}

/// A whole number in two's complement, lowest word first, in units of 2^(low - 1074).
fn whole<const N: usize>(x: f64, low: usize) -> [u64; N] {
    let (negative, mantissa, exponent) = parts(x);
    let mut words = [0; N];
    if mantissa != 0 {
        let (word, bit) = ((exponent - low) / 64, (exponent - low) % 64);
        let wide = (mantissa as u128) << bit;
        words[word] = wide as u64;
        if word + 1 < N {
            words[word + 1] = (wide >> 64) as u64;
        }
    }
    if negative {
        subtract(&[0; N], &words)
    } else {
        words
    }
}

fn subtract<const N: usize>(p: &[u64; N], q: &[u64; N]) -> [u64; N] {
    let mut answer = [0; N];
    let mut borrow = false;
    for i in 0..N {
        let (once, first) = p[i].overflowing_sub(q[i]);
        let (twice, second) = once.overflowing_sub(borrow as u64);
        answer[i] = twice;
        borrow = first || second;
    }
    answer
}

/// p - q as a sign and a size.
fn difference<const N: usize>(p: f64, q: f64, low: usize) -> (bool, [u64; N]) {
    let words = subtract(&whole(p, low), &whole(q, low));
    let negative = words[N - 1] >> 63 == 1;
    (negative, if negative { subtract(&[0; N], &words) } else { words })
}

/// A product as a sign and a size, its lower half first; zero is never negative.
type Product<const N: usize> = (bool, [[u64; N]; 2]);

fn product<const N: usize>(
    (p_negative, p): (bool, [u64; N]),
    (q_negative, q): (bool, [u64; N]),
) -> Product<N> {
    let mut answer = [[0; N]; 2];
    for i in 0..N {
        let mut carry = 0;
        for j in 0..N {
            let word = &mut answer[(i + j) / N][(i + j) % N];
            let sum = p[i] as u128 * q[j] as u128 + *word as u128 + carry as u128;
            *word = sum as u64;
            carry = (sum >> 64) as u64;
        }
        answer[1][i] = carry;
    }
    (p_negative != q_negative && answer != [[0; N]; 2], answer)
}

fn compare<const N: usize>(p: &[[u64; N]; 2], q: &[[u64; N]; 2]) -> Ordering {
    p.as_flattened().iter().rev().cmp(q.as_flattened().iter().rev())
}
