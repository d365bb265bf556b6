//! The sweep beside the Rust's `subdivide`, and beside 01's rules over its leaves, on the same edges.
use super::boolean::leaves::{subdivide, EdgeType, ResultTransition};
use super::boolean::Operation;
use super::clean::Run;
use super::entries::{Record, Swept};
use super::events::{bounds, load, mate, Event, Numbers};
use inputs::sheets::Edge;
use std::collections::BinaryHeap;

/// The Rust's run: the events taken, and those that still wait after an early stop.
pub struct Theirs {
    pub taken: Vec<Event>,
    pub divisions: usize,
    rest: Vec<Event>,
}

pub fn by_the_rust(sheet: &[Edge], operation: Operation) -> Theirs {
    let events = load(sheet);
    let (subject, clip) = (bounds(&events, true), bounds(&events, false));
    let mut queue: BinaryHeap<Event> = events.into_iter().collect();
    let taken = subdivide(&mut queue, &subject, &clip, operation);
    let divisions = (taken.len() + queue.len()) / 2 - sheet.len();
    Theirs { taken, divisions, rest: queue.into_vec() }
}

pub fn edge_type_number(t: EdgeType) -> u32 {
    match t {
        EdgeType::Normal => 0,
        EdgeType::NonContributing => 1,
        EdgeType::SameTransition => 2,
        EdgeType::DifferentTransition => 3,
    }
}

pub fn transition_number(t: ResultTransition) -> u32 {
    match t {
        ResultTransition::None => 0,
        ResultTransition::InOut => 1,
        ResultTransition::OutIn => 2,
    }
}

pub fn contour_number(event: &Event) -> Option<u32> {
    event.get_output_contour_id().try_into().ok()
}

/// An event as a record; none where its partner or below link has no number.
fn record(event: &Event, numbers: &Numbers) -> Option<Record> {
    let below = match event.get_prev_in_result() {
        None => None,
        Some(below) => Some(numbers.get(&below)?),
    };
    Some(Record {
        point: [event.point.x, event.point.y],
        left: event.is_left(),
        subject: event.is_subject,
        ring: event.contour_id,
        partner: numbers.get(&mate(event))?,
        below,
        edge_type: edge_type_number(event.get_edge_type()),
        transition: transition_number(event.get_result_transition()),
        in_out: event.is_in_out(),
        other_in_out: event.is_other_in_out(),
        contour: contour_number(event),
    })
}

/// By the rules every event has its number: all is equal, and so is a refusal, and what was done before it.
pub fn is_the_rules(run: &Run, swept: &Swept) -> bool {
    let numbers = Numbers::of(&run.all);
    run.refused == swept.refused
        && run.tied == swept.tied
        && run.divisions == swept.divisions
        && run.all.len() == swept.used
        && run.taken.iter().map(|event| numbers.get(event)).eq(swept.taken.iter().map(|r| Some(*r as usize)))
        && run.all.iter().zip(swept.pool.records()).all(|(event, ours)| record(event, &numbers) == Some(ours))
}

/// The Rust's events have no numbers: those taken have that of ours at the same place of the list, and from these on
/// partners and below links lead to each other. What no link leads to, after an early stop, is equal by value.
pub fn is_the_rusts(theirs: &Theirs, swept: &Swept) -> bool {
    let told = theirs.taken.len() == swept.taken.len()
        && theirs.divisions == swept.divisions
        && theirs.taken.len() + theirs.rest.len() == swept.used;
    told && matched(theirs, swept).is_some_and(|(numbers, events)| {
        let is_one = |(event, ours): (&Option<Event>, Record)| match event {
            Some(event) => record(event, &numbers) == Some(ours),
            None => true,
        };
        events.iter().zip(swept.pool.records()).all(is_one) && rest_of_theirs(theirs, &numbers) == rest_of_ours(swept, &events)
    })
}

/// Our number of each event that a link leads to, and the event of each number; none where two have one.
fn matched(theirs: &Theirs, swept: &Swept) -> Option<(Numbers, Vec<Option<Event>>)> {
    let mut numbers = Numbers::of([]);
    let mut events = vec![None; swept.used];
    let mut pairs: Vec<(Event, usize)> =
        theirs.taken.iter().cloned().zip(swept.taken.iter().map(|r| *r as usize)).collect();
    while let Some((event, r)) = pairs.pop() {
        if !numbers.put(&event, r) {
            return None;
        }
        match events.get_mut(r)? {
            Some(known) if super::events::is(known, &event) => continue,
            Some(_) => return None,
            free => *free = Some(event.clone()),
        }
        let ours = swept.pool.record(r);
        pairs.push((mate(&event), ours.partner));
        match (event.get_prev_in_result(), ours.below) {
            (None, None) => (),
            (Some(below), Some(number)) => pairs.push((below, number)),
            _ => return None,
        }
    }
    Some((numbers, events))
}

/// A record by value: its point and its partner's, and all else that is no link.
type Value = ([u64; 4], [bool; 5], [u32; 3], Option<u32>);

fn value(r: &Record, partner: [f64; 2]) -> Value {
    let numbers = [r.point[0], r.point[1], partner[0], partner[1]];
    let flags = [r.left, r.subject, r.in_out, r.other_in_out, r.below.is_some()];
    (numbers.map(|x| (x + 0.0).to_bits()), flags, [r.ring, r.edge_type, r.transition], r.contour)
}

fn rest_of_theirs(theirs: &Theirs, numbers: &Numbers) -> Vec<Value> {
    let free: Vec<&Event> = theirs.rest.iter().filter(|event| numbers.get(event).is_none()).collect();
    // Their partners and below links are among themselves, if anywhere.
    let among = Numbers::of(free.iter().copied());
    let end = |event: &&Event| {
        let partner = mate(event).point;
        record(event, &among).map(|r| value(&r, [partner.x, partner.y]))
    };
    sorted(free.iter().filter_map(end).collect())
}

fn rest_of_ours(swept: &Swept, events: &[Option<Event>]) -> Vec<Value> {
    let free = swept.pool.records().zip(events).filter(|(_, event)| event.is_none());
    let end = |(r, _): (Record, _)| value(&r, swept.pool.points.get(r.partner).copied().unwrap_or([f64::NAN; 2]));
    sorted(free.map(end).collect())
}

fn sorted(mut list: Vec<Value>) -> Vec<Value> {
    list.sort();
    list
}
