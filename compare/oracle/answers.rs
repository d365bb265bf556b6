//! Answers by the Rust that the module above names. Each function takes the words after its name.
use super::boolean::leaves::{
    compare_segments, compute_fields, divide_segment, intersection, possible_intersection, signed_area,
    EdgeType, LineIntersection, NextAfter, ResultTransition, SweepEvent,
};
use super::boolean::Operation;
use crate::words::{number, Words};
use geo_types::Coordinate;
use std::cmp::Ordering;
use std::collections::BinaryHeap;
use std::panic::{catch_unwind, AssertUnwindSafe};
use std::rc::{Rc, Weak};

type Event = Rc<SweepEvent<f64>>;

pub fn answer(function: &str, words: Words) -> String {
    let called = catch_unwind(AssertUnwindSafe(|| match function {
        "cross" => cross(words),
        "orient" => orient(words),
        "before" => before(words),
        "segcmp" => segcmp(words),
        "class" => class(words),
        "divide" => divide(words),
        "neigh" => neigh(words),
        "nextup" => nextup(words),
        _ => None,
    }));
    match called {
        Err(_) => "panicked".to_string(),
        Ok(None) => "malformed".to_string(),
        Ok(Some(answer)) => answer,
    }
}

fn point(x: f64, y: f64) -> Coordinate<f64> {
    Coordinate { x, y }
}

fn is_lost(p: Coordinate<f64>) -> bool {
    p.x.is_nan() || p.y.is_nan()
}

fn corner(p: Coordinate<f64>) -> String {
    format!("{} {}", number(p.x), number(p.y))
}

fn cross(mut words: Words) -> Option<String> {
    let [ax, ay, bx, by, cx, cy, dx, dy] = words.numbers()?;
    words.end()?;
    Some(match intersection(point(ax, ay), point(bx, by), point(cx, cy), point(dx, dy)) {
        LineIntersection::None => "none".to_string(),
        LineIntersection::Point(p) if is_lost(p) => "lost".to_string(),
        LineIntersection::Overlap(p, q) if is_lost(p) || is_lost(q) => "lost".to_string(),
        LineIntersection::Point(p) => format!("point {}", corner(p)),
        LineIntersection::Overlap(p, q) => format!("overlap {} {}", corner(p), corner(q)),
    })
}

fn orient(mut words: Words) -> Option<String> {
    let [ax, ay, bx, by, cx, cy] = words.numbers()?;
    words.end()?;
    let area = signed_area(point(ax, ay), point(bx, by), point(cx, cy));
    Some((area.partial_cmp(&0.0)? as i8).to_string())
}

fn nextup(mut words: Words) -> Option<String> {
    let x = words.number()?;
    words.end()?;
    Some(number(x.nextafter(true)))
}

/// Two events that are each other's partners; the first has the flag `left`.
fn partners(
    from: Coordinate<f64>,
    to: Coordinate<f64>,
    left: bool,
    subject: bool,
    ring: u32,
) -> (Event, Event) {
    let first = SweepEvent::new_rc(ring, from, left, Weak::new(), subject, true);
    let second = SweepEvent::new_rc(ring, to, !left, Rc::downgrade(&first), subject, true);
    first.set_other_event(&second);
    (first, second)
}

fn event(words: &mut Words) -> Option<(Event, Event)> {
    let [px, py, qx, qy] = words.numbers()?;
    let (left, subject) = (words.flag()?, words.flag()?);
    Some(partners(point(px, py), point(qx, qy), left, subject, 0))
}

fn before(mut words: Words) -> Option<String> {
    let (first, _partner) = event(&mut words)?;
    let (second, _other_partner) = event(&mut words)?;
    words.end()?;
    Some(format!("{} {}", first.is_before(&second) as u8, second.is_before(&first) as u8))
}

fn left_record(words: &mut Words) -> Option<(Event, Event)> {
    let [lx, ly, rx, ry] = words.numbers()?;
    let (subject, ring) = (words.flag()?, words.ring()?);
    Some(partners(point(lx, ly), point(rx, ry), true, subject, ring))
}

fn segcmp(mut words: Words) -> Option<String> {
    let (first, _right) = left_record(&mut words)?;
    let mut ahead = words.clone();
    let order = if ahead.word()? == "same" {
        ahead.end()?;
        compare_segments(&first, &first)
    } else {
        let (second, _other_right) = left_record(&mut words)?;
        words.end()?;
        compare_segments(&first, &second)
    };
    let word = match order {
        Ordering::Less => "less",
        Ordering::Equal => "equal",
        Ordering::Greater => "greater",
    };
    Some(word.to_string())
}

fn operation(word: &str) -> Option<Operation> {
    Some(match word {
        "intersection" => Operation::Intersection,
        "union" => Operation::Union,
        "difference" => Operation::Difference,
        "xor" => Operation::Xor,
        _ => return None,
    })
}

const EDGE_TYPES: [(&str, EdgeType); 4] = [
    ("normal", EdgeType::Normal),
    ("non", EdgeType::NonContributing),
    ("same", EdgeType::SameTransition),
    ("different", EdgeType::DifferentTransition),
];

const TRANSITIONS: [(&str, ResultTransition); 3] = [
    ("none", ResultTransition::None),
    ("inout", ResultTransition::InOut),
    ("outin", ResultTransition::OutIn),
];

fn value_of<T: Copy>(list: &[(&str, T)], word: &str) -> Option<T> {
    list.iter().find(|(name, _)| *name == word).map(|(_, value)| *value)
}

fn word_of<T: PartialEq>(list: &[(&'static str, T)], value: T) -> &'static str {
    list.iter().find(|(_, v)| *v == value).map(|(name, _)| *name).expect("every value has a word")
}

fn class(mut words: Words) -> Option<String> {
    let operation = operation(words.word()?)?;
    let subject = words.flag()?;
    let edge_type = value_of(&EDGE_TYPES, words.word()?)?;
    let slanted = |subject| partners(point(0.0, 0.0), point(1.0, 1.0), true, subject, 0);
    let (event, _right) = slanted(subject);
    event.set_edge_type(edge_type);
    // A link left from an earlier computation must not stay.
    let (stale, _stale_right) = slanted(true);
    event.set_prev_in_result(&stale);
    let (prevprev, _prevprev_right) = slanted(true);

    let mut ahead = words.clone();
    let below = if ahead.word()? == "-" {
        ahead.end()?;
        compute_fields(&event, None, operation);
        None
    } else {
        let (prev_subject, vertical) = (words.flag()?, words.flag()?);
        let (in_out, other_in_out) = (words.flag()?, words.flag()?);
        let transition = value_of(&TRANSITIONS, words.word()?)?;
        let linked = words.flag()?;
        words.end()?;
        let x = if vertical { 0.0 } else { 1.0 };
        let (prev, prev_right) = partners(point(0.0, -1.0), point(x, 1.0), true, prev_subject, 0);
        prev.set_in_out(in_out, other_in_out);
        prev.set_result_transition(transition);
        if linked {
            prev.set_prev_in_result(&prevprev);
        }
        compute_fields(&event, Some(&prev), operation);
        Some((prev, prev_right))
    };

    let link = match event.get_prev_in_result() {
        None => "-",
        Some(found) if below.is_some_and(|(prev, _)| Rc::ptr_eq(&found, &prev)) => "prev",
        Some(found) if Rc::ptr_eq(&found, &prevprev) => "prevprev",
        Some(_) => "stale",
    };
    Some(format!(
        "{} {} {} {link}",
        event.is_in_out() as u8,
        event.is_other_in_out() as u8,
        word_of(&TRANSITIONS, event.get_result_transition())
    ))
}

fn end(event: &Event) -> String {
    format!("{} {}", corner(event.point), event.is_left() as u8)
}

fn divide(mut words: Words) -> Option<String> {
    let [lx, ly, rx, ry, x, y] = words.numbers()?;
    let (subject, ring) = (words.flag()?, words.ring()?);
    words.end()?;
    let (left, right) = partners(point(lx, ly), point(rx, ry), true, subject, ring);
    let mut queue = BinaryHeap::new();
    divide_segment(&left, point(x, y), &mut queue);
    let (new_right, new_left) = (left.get_other_event()?, right.get_other_event()?);
    Some(format!("r {} l {} old {}", end(&new_right), end(&new_left), right.is_left() as u8))
}

fn neighbour(words: &mut Words) -> Option<(Event, Event)> {
    let (left, right) = left_record(words)?;
    left.set_in_out(words.flag()?, false);
    Some((left, right))
}

fn neigh(mut words: Words) -> Option<String> {
    let first = neighbour(&mut words)?;
    let second = neighbour(&mut words)?;
    words.end()?;
    let mut queue = BinaryHeap::new();
    let code = possible_intersection(&first.0, &second.0, &mut queue);
    let made = queue.into_vec();
    let chains = [&first, &second].map(|segment| chain(segment, &made));
    if chains.iter().flatten().any(|event| is_lost(event.point)) {
        return Some("lost".to_string());
    }
    let ends = chains.map(|chain| chain.iter().map(end).collect::<Vec<_>>().join(" "));
    Some(format!(
        "code {code} {} {} new {} chain {} chain {}",
        word_of(&EDGE_TYPES, first.0.get_edge_type()),
        word_of(&EDGE_TYPES, second.0.get_edge_type()),
        made.len(),
        ends[0],
        ends[1]
    ))
}

/// The events of a segment from its left end on. A first division leaves its left end with a new
/// partner and its right end with another; a second one leaves two new events between these.
fn chain((left, right): &(Event, Event), made: &[Event]) -> Vec<Event> {
    let (Some(after_left), Some(before_right)) = (left.get_other_event(), right.get_other_event()) else {
        return vec![];
    };
    if Rc::ptr_eq(&after_left, right) {
        return vec![left.clone(), right.clone()];
    }
    let between = made.iter().find(|event| {
        let partner = event.get_other_event();
        event.point == after_left.point
            && !Rc::ptr_eq(event, &after_left)
            && !Rc::ptr_eq(event, &before_right)
            && partner.is_some_and(|p| made.iter().any(|m| Rc::ptr_eq(m, &p)))
    });
    let mut events = vec![left.clone(), after_left];
    events.extend(between.cloned());
    events.extend(between.and_then(|event| event.get_other_event()));
    events.extend([before_right, right.clone()]);
    events
}
