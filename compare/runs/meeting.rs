//! One call of the published `possible_intersection`, told division by division, and which of them 01 refuses.
use super::boolean::leaves::{intersection, possible_intersection, LineIntersection};
use super::events::{is, mate, Event};
use geo_types::Coordinate;
use std::collections::BinaryHeap;

pub struct Division {
    left: Event,
    pub new_right: Event,
    pub new_left: Event,
    right: Event,
}

pub struct Met {
    pub code: u8,
    /// The divisions made, in their order.
    pub done: Vec<Division>,
    /// The number of a refusal and the record that it tells; what the Rust did after it is taken back.
    pub refused: Option<(u64, Event)>,
}

/// With so many free places.
pub fn meet(a: &Event, b: &Event, free: usize) -> Met {
    if is_lost(a, b) {
        return Met { code: 0, done: vec![], refused: Some((7, a.clone())) };
    }
    let segments = [(a.clone(), mate(a)), (b.clone(), mate(b))];
    let mut queue = BinaryHeap::new();
    let code = possible_intersection(a, b, &mut queue);
    let made = queue.into_vec();
    let [mut done, second] = segments.map(|segment| divisions(&segment, &made));
    // Of two that overlap the one that starts first is cut first.
    if code == 3 && b.is_before(a) {
        done.splice(0..0, second);
    } else {
        done.extend(second);
    }
    let refusal = |(i, division): (usize, &Division)| {
        let number = if division.is_refused() { 7 } else { 6 };
        (number == 7 || 2 * i + 2 > free).then(|| (i, number, division.left.clone()))
    };
    let refused = done.iter().enumerate().find_map(refusal).map(|(i, number, record)| {
        done.drain(i..).rev().for_each(Division::take_back);
        (number, record)
    });
    Met { code, done, refused }
}

fn is_lost(a: &Event, b: &Event) -> bool {
    let is_nan = |p: Coordinate<f64>| p.x.is_nan() || p.y.is_nan();
    match intersection(a.point, mate(a).point, b.point, mate(b).point) {
        LineIntersection::None => false,
        LineIntersection::Point(p) => is_nan(p),
        LineIntersection::Overlap(p, q) => is_nan(p) || is_nan(q),
    }
}

/// The divisions of a segment that was from `left` to `right`, by what these two are linked to now.
fn divisions((left, right): &(Event, Event), made: &[Event]) -> Vec<Division> {
    let (first, last) = (mate(left), mate(right));
    if is(&first, right) {
        return vec![];
    }
    let division = |left: &Event, new_right: Event, new_left: Event| Division {
        left: left.clone(),
        new_right,
        new_left,
        right: right.clone(),
    };
    // Cut twice: the first cut's new left end lies at the first cut, and its partner is new too.
    let is_made = |event: &Event| made.iter().any(|m| is(m, event));
    let is_between = |event: &&Event| {
        !is(event, &first) && !is(event, &last) && event.point == first.point && is_made(&mate(event))
    };
    let between = made.iter().filter(is_between).max_by_key(|event| event.is_left());
    match between {
        None => vec![division(left, first, last)],
        Some(event) => vec![division(left, first, event.clone()), division(event, mate(event), last)],
    }
}

impl Division {
    /// Refusal 7, the cut as it is after the move.
    fn is_refused(&self) -> bool {
        let (left, cut, right) = (self.left.point, self.new_right.point, self.right.point);
        let limit = 2f64.powi(100);
        !self.left.is_left()
            || cut == left
            || cut == right
            || !(left.x <= cut.x && cut.x <= right.x && cut.x.abs() <= limit && cut.y.abs() <= limit)
    }

    /// The segment as it was before it; of two divisions of one segment the later is taken back first.
    fn take_back(self) {
        self.left.set_other_event(&self.right);
        self.right.set_other_event(&self.left);
        self.right.set_left(!self.left.is_left());
    }
}
