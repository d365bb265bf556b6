//! Connection beside the Rust's `connect_edges`, on the same list.
use super::boolean::leaves::{connect_edges, Contour};
use super::entries::{Connected, Pool, Refused};
use super::events::{mate, Event, Numbers};
use super::sweep::{contour_number, edge_type_number, transition_number};
use inputs::random::Random;
use std::panic::{catch_unwind, AssertUnwindSafe};

/// What the Rust makes of a list, and where 01 refuses it; each event then holds its contour number.
pub struct Theirs {
    /// Where a contour's start is refused, those finished before it.
    pub contours: Vec<Contour<f64>>,
    pub refused: Option<Struck>,
}

pub enum Struck {
    /// 8: the listed ends of result edges whose other end is missing; the lowest is told.
    Halves(Vec<Event>),
    /// 9: the event at the start of the contour where the Rust panics.
    Start(Event),
}

pub fn by_the_rust(listed: &[Event]) -> Theirs {
    let halves = half_listed(listed);
    if !halves.is_empty() {
        return Theirs { contours: vec![], refused: Some(Struck::Halves(halves)) };
    }
    if let Ok(contours) = catch_unwind(AssertUnwindSafe(|| connect_edges(listed))) {
        return Theirs { contours, refused: None };
    }
    // It panics before it has numbered an event of that contour, and tells each event where its partner stands.
    let (finished, open): (Vec<&Event>, Vec<&Event>) =
        listed.iter().filter(|event| is_result(event)).partition(|event| contour_number(event).is_some());
    let start = open.into_iter().min_by_key(|event| mate(event).get_other_pos()).expect("a contour was started").clone();
    let finished: Vec<Event> = finished.into_iter().cloned().collect();
    finished.iter().for_each(|event| event.set_output_contour_id(-1));
    Theirs { contours: connect_edges(&finished), refused: Some(Struck::Start(start)) }
}

impl Struck {
    pub fn told(&self, number: impl Fn(&Event) -> Option<usize>) -> Refused {
        let place = |event| number(event).expect("a listed record has a number") as u64;
        match self {
            Struck::Halves(ends) => (8, ends.iter().map(place).min().expect("there is one")),
            Struck::Start(event) => (9, place(event)),
        }
    }
}

/// Events as records of a pool: the event of each number, and the list.
pub struct Numbered {
    all: Vec<Event>,
    numbers: Numbers,
    pub pool: Pool,
    pub list: Vec<u32>,
}

/// The listed events, and those that they are linked to, numbered in an order of its own.
pub fn numbered(listed: &[Event], random: &mut Random) -> Numbered {
    let mut all = reached(listed);
    for i in (1..all.len()).rev() {
        all.swap(i, random.below(i as u64 + 1) as usize);
    }
    let numbers = Numbers::of(&all);
    let number = |event: &Event| numbers.get(event).expect("it is reached") as u32;
    let mut pool = Pool::of(all.len());
    for (i, event) in all.iter().enumerate() {
        let below = event.get_prev_in_result().map(|below| number(&below));
        pool.points[i] = [event.point.x, event.point.y];
        pool.marks[i] = [
            event.is_left() as u32,
            event.is_subject as u32,
            event.contour_id,
            number(&mate(event)),
            below.is_some() as u32,
            below.unwrap_or(0),
            edge_type_number(event.get_edge_type()),
            transition_number(event.get_result_transition()),
            event.is_in_out() as u32,
            event.is_other_in_out() as u32,
            // A contour number from an earlier connection, which is forgotten.
            random.below(2) as u32,
            random.below(9) as u32,
        ];
    }
    let list = listed.iter().map(number).collect();
    Numbered { all, numbers, pool, list }
}

/// The listed events, and what partners and below links lead to.
fn reached(listed: &[Event]) -> Vec<Event> {
    let mut all: Vec<Event> = vec![];
    let mut seen = Numbers::of([]);
    let mut found: Vec<Event> = listed.iter().rev().cloned().collect();
    while let Some(event) = found.pop() {
        if seen.get(&event).is_none() {
            seen.put(&event, all.len());
            found.push(mate(&event));
            found.extend(event.get_prev_in_result());
            all.push(event);
        }
    }
    all
}

/// The places that refusal 5 asks for: points for the result events, contours and holes for the result edges.
pub fn room(listed: &[Event]) -> [usize; 3] {
    let events = listed.iter().filter(|event| is_result(event)).count();
    [events, result_edges(listed), result_edges(listed)]
}

pub fn is_alike(lent: &Numbered, theirs: &Theirs, ours: &Connected) -> bool {
    let refused = theirs.refused.as_ref().map(|struck| struck.told(|event| lent.numbers.get(event)));
    ours.refused == refused && are_marks_alike(lent, refused, &ours.marks) && are_contours_alike(&theirs.contours, ours)
}

/// Nothing but contour numbers changes: they are those of the Rust. Refused by 8, all stays as lent.
fn are_marks_alike(lent: &Numbered, refused: Option<Refused>, ours: &[[u32; 12]]) -> bool {
    if refused.is_some_and(|(number, _)| number == 8) {
        return ours == lent.pool.marks;
    }
    let is_one = |((event, lent), ours): ((&Event, &[u32; 12]), &[u32; 12])| {
        lent[..10] == ours[..10] && (ours[10] == 1).then_some(ours[11]) == contour_number(event)
    };
    lent.all.iter().zip(&lent.pool.marks).zip(ours).all(is_one)
}

fn is_result(event: &Event) -> bool {
    if event.is_left() { event.is_in_result() } else { mate(event).is_in_result() }
}

fn half_listed(listed: &[Event]) -> Vec<Event> {
    let numbers = Numbers::of(listed);
    listed.iter().filter(|event| is_result(event) && numbers.get(&mate(event)).is_none()).cloned().collect()
}

/// The same contours, one after the other, and so their corners and holes.
fn are_contours_alike(theirs: &[Contour<f64>], ours: &Connected) -> bool {
    let unclosed = theirs.iter().filter(|c| c.points.first() != c.points.last()).count();
    let (mut corner, mut hole) = (0, 0);
    let is_next = |(contour, row): (&Contour<f64>, &[u32; 6])| {
        let follows = row[0] as usize == corner && row[4] as usize == hole;
        (corner, hole) = (row[1] as usize, hole + row[5] as usize);
        follows && is_one(contour, *row, ours)
    };
    theirs.len() == ours.contours.len()
        && unclosed == ours.unclosed
        && theirs.iter().zip(&ours.contours).all(is_next)
        && (corner, hole) == (ours.corners.len(), ours.holes.len())
}

fn is_one(contour: &Contour<f64>, [first, end, parent, depth, first_hole, holes]: [u32; 6], ours: &Connected) -> bool {
    let corners = ours.corners.get(first as usize..end as usize);
    let holes = ours.holes.get(first_hole as usize..first_hole as usize + holes as usize);
    corners.is_some_and(|corners| contour.points.iter().map(|p| [p.x, p.y]).eq(corners.iter().copied()))
        && holes.is_some_and(|holes| contour.hole_ids.iter().copied().eq(holes.iter().map(|hole| *hole as i32)))
        && contour.hole_of.map_or(0, |parent| parent + 1) == parent as i32
        && contour.depth == depth as i32
}

/// What of the below links of a list no sweep makes.
pub fn kinds_of_links(listed: &[Event]) -> Vec<&'static str> {
    let numbers = Numbers::of(listed);
    let links: Vec<(&Event, Event)> = listed.iter().filter_map(|event| Some((event, event.get_prev_in_result()?))).collect();
    let later = links.iter().any(|(event, below)| event.is_before(below));
    let unlisted = links.iter().any(|(_, below)| numbers.get(below).is_none());
    [(later, "below links to later edges"), (unlisted, "below links to unlisted edges")]
        .into_iter()
        .filter_map(|(is_there, kind)| is_there.then_some(kind))
        .collect()
}

/// Result edges of a list: one for each left end.
pub fn result_edges(listed: &[Event]) -> usize {
    listed.iter().filter(|event| event.is_left() && is_result(event)).count()
}

/// The deepest hole.
pub fn hole_depth(contours: &[Contour<f64>]) -> i32 {
    contours.iter().filter(|c| c.hole_of.is_some()).map(|c| c.depth).max().unwrap_or(0)
}
