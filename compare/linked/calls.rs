//! The same calls by the Rust that the module above names, their answers as values that can be compared.
use super::boolean::leaves::{intersection, signed_area, LineIntersection};
use crate::entries::Crossed;
use geo_types::Coordinate;
use inputs::{Point, Scene};

fn coordinate(p: Point) -> Coordinate<f64> {
    Coordinate { x: p[0], y: p[1] }
}

pub fn orientation([a, b, c, _]: Scene) -> Option<i64> {
    let area = signed_area(coordinate(a), coordinate(b), coordinate(c));
    area.partial_cmp(&0.0).map(|order| order as i64)
}

pub fn crossing(s: Scene) -> Option<Crossed> {
    let [a, b, c, d] = s.map(coordinate);
    Some(match intersection(a, b, c, d) {
        LineIntersection::None => Crossed::at(&[]),
        LineIntersection::Point(p) => Crossed::at(&[p.x, p.y]),
        LineIntersection::Overlap(p, q) => Crossed::at(&[p.x, p.y, q.x, q.y]),
    })
}
