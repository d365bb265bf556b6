//! Scenes as valid records: coordinates at most 2^100, left end strictly before its partner.
use crate::{Point, Scene};

/// A segment from its left end to its right end.
pub type Segment = [Point; 2];

fn before(p: Point, q: Point) -> bool {
    p[0] < q[0] || p[0] == q[0] && p[1] < q[1]
}

/// Numbers above 2^100 are taken 924 binary places down, so that no scene is lost.
pub fn within(p: Point) -> Point {
    p.map(|x| if x.abs() > 2f64.powi(100) { x * 2f64.powi(-924) } else { x })
}

/// The segment between two points; where they are equal, the shortest that has one of them as an end.
pub fn segment(p: Point, q: Point) -> Segment {
    let (p, q) = (within(p), within(q));
    if before(p, q) {
        [p, q]
    } else if before(q, p) {
        [q, p]
    } else if p[1] > 0.0 {
        [[p[0], p[1].next_down()], p]
    } else {
        [p, [p[0], p[1].next_up()]]
    }
}

pub fn segments(s: Scene) -> [Segment; 2] {
    [segment(s[0], s[1]), segment(s[2], s[3])]
}
