//! Ours, in the place of the published `segment_intersection.rs`: #102's ordered mode around the published function,
//! which stands unchanged in `published`. `compare/build` lays both beside the other published files.
use super::helper;
use geo_types::Coordinate;
use helper::Float;

mod published;
pub use published::LineIntersection;

type Segment<F> = [Coordinate<F>; 2];

/// Minus zero becomes zero, then the ends are put in order, then the segments; only then it is computed.
#[inline]
pub fn intersection<F: Float>(
    a1: Coordinate<F>,
    a2: Coordinate<F>,
    b1: Coordinate<F>,
    b2: Coordinate<F>,
) -> LineIntersection<F> {
    let (a, b) = (ends_in_order(a1, a2), ends_in_order(b1, b2));
    let ([a1, a2], [b1, b2]) = if is_segment_before(b, a) { (b, a) } else { (a, b) };
    published::intersection(a1, a2, b1, b2)
}

/// Minus zero and zero make zero.
#[inline]
fn without_minus_zero<F: Float>(p: Coordinate<F>) -> Coordinate<F> {
    Coordinate { x: p.x + F::zero(), y: p.y + F::zero() }
}

#[inline]
fn ends_in_order<F: Float>(p: Coordinate<F>, q: Coordinate<F>) -> Segment<F> {
    let (p, q) = (without_minus_zero(p), without_minus_zero(q));
    if is_before(q, p) { [q, p] } else { [p, q] }
}

/// By x, then y.
#[inline]
fn is_before<F: Float>(p: Coordinate<F>, q: Coordinate<F>) -> bool {
    p.x < q.x || p.x == q.x && p.y < q.y
}

/// By first end, then second end.
#[inline]
fn is_segment_before<F: Float>(s: Segment<F>, t: Segment<F>) -> bool {
    is_before(s[0], t[0]) || s[0] == t[0] && is_before(s[1], t[1])
}
