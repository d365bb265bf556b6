//! The Rust that the module above names on the same edges: loading, `subdivide`, `connect_edges`.
#[path = "../linked/calls.rs"]
pub mod calls;
#[path = "../runs/events.rs"]
mod events;

use super::boolean;
use boolean::leaves::{connect_edges, subdivide, Contour};
use boolean::Operation;
use events::{bounds, load, Event};
use inputs::sheets::Edge;
use std::collections::BinaryHeap;

pub struct Swept {
    taken: Vec<Event>,
    /// Events hold each other weakly: what still waits is kept.
    _waiting: BinaryHeap<Event>,
}

pub fn sweep(sheet: &[Edge]) -> Swept {
    let events = load(sheet);
    let (subject, clip) = (bounds(&events, true), bounds(&events, false));
    let mut waiting: BinaryHeap<Event> = events.into_iter().collect();
    let taken = subdivide(&mut waiting, &subject, &clip, Operation::Union);
    Swept { taken, _waiting: waiting }
}

pub fn connect(swept: &Swept) -> Vec<Contour<f64>> {
    connect_edges(&swept.taken)
}

/// As the published `boolean_operation` does it: the events are dropped before it returns.
pub fn contours(sheet: &[Edge]) -> Vec<Contour<f64>> {
    connect(&sweep(sheet))
}

/// The corners of each contour, in their order.
pub fn corners(sheet: &[Edge]) -> Vec<Vec<[f64; 2]>> {
    contours(sheet).iter().map(|c| c.points.iter().map(|p| [p.x, p.y]).collect()).collect()
}
