//! Events of the Rust, made from edges, and what a sweep of them is told by.
use super::boolean::leaves::SweepEvent;
use super::boolean::BoundingBox;
use geo_types::Coordinate;
use inputs::sheets::Edge;
use std::collections::HashMap;
use std::rc::{Rc, Weak};

pub type Event = Rc<SweepEvent<f64>>;

/// The number of each event of a list: an event is told by which it is, not by what it holds.
pub struct Numbers(HashMap<*const SweepEvent<f64>, usize>);

impl Numbers {
    pub fn of<'a>(list: impl IntoIterator<Item = &'a Event>) -> Numbers {
        Numbers(list.into_iter().enumerate().map(|(i, event)| (Rc::as_ptr(event), i)).collect())
    }

    pub fn get(&self, event: &Event) -> Option<usize> {
        self.0.get(&Rc::as_ptr(event)).copied()
    }

    /// Whether the event is new, or already has this number.
    pub fn put(&mut self, event: &Event, number: usize) -> bool {
        *self.0.entry(Rc::as_ptr(event)).or_insert(number) == number
    }
}

/// Two events that are each other's partners; the first has the flag `left`.
pub fn partners(from: Coordinate<f64>, to: Coordinate<f64>, left: bool, subject: bool, ring: u32) -> [Event; 2] {
    let first = SweepEvent::new_rc(ring, from, left, Weak::new(), subject, true);
    let second = SweepEvent::new_rc(ring, to, !left, Rc::downgrade(&first), subject, true);
    first.set_other_event(&second);
    [first, second]
}

/// Minus zero is loaded as zero.
fn loaded(p: [f64; 2]) -> Coordinate<f64> {
    Coordinate { x: p[0] + 0.0, y: p[1] + 0.0 }
}

fn is_ahead(p: Coordinate<f64>, q: Coordinate<f64>) -> bool {
    p.x < q.x || p.x == q.x && p.y < q.y
}

/// Edge i becomes events 2i and 2i + 1; the end earlier by x, then y, is left.
pub fn load(sheet: &[Edge]) -> Vec<Event> {
    sheet
        .iter()
        .flat_map(|e| {
            let (from, to) = (loaded(e.from), loaded(e.to));
            partners(from, to, is_ahead(from, to), e.subject, e.ring)
        })
        .collect()
}

/// The box of a layer over all ends; an empty layer's largest x is below every number.
pub fn bounds(events: &[Event], subject: bool) -> BoundingBox<f64> {
    let far = f64::INFINITY;
    let mut found = BoundingBox { min: Coordinate { x: far, y: far }, max: Coordinate { x: -far, y: -far } };
    for p in events.iter().filter(|e| e.is_subject == subject).map(|e| e.point) {
        found.min = Coordinate { x: found.min.x.min(p.x), y: found.min.y.min(p.y) };
        found.max = Coordinate { x: found.max.x.max(p.x), y: found.max.y.max(p.y) };
    }
    found
}

pub fn is(a: &Event, b: &Event) -> bool {
    Rc::ptr_eq(a, b)
}

pub fn mate(event: &Event) -> Event {
    event.get_other_event().expect("every event has a partner")
}
