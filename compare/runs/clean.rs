//! 01's sweep by its two searching rules, over the Rust's leaves, and whether a run of it is clean.
use super::boolean::leaves::{compare_segments, compute_fields};
use super::boolean::Operation;
use super::entries::Refused;
use super::events::{bounds, is, load, mate, partners, Event};
use super::meeting::meet;
use inputs::sheets::Edge;
use std::cmp::Ordering;

/// Why a run is not clean.
#[derive(Clone, Copy, PartialEq, Eq, PartialOrd, Ord, Debug)]
pub enum Why {
    Tie,
    OrderChanged,
    Status,
}

pub struct Run {
    pub taken: Vec<Event>,
    pub divisions: usize,
    /// Of all the reasons the first that was met.
    pub unclean: Option<Why>,
    /// At some taking another waiting event tied with the one taken.
    pub tied: bool,
    /// A division that 01 refuses was met; nothing after it was done.
    pub refused: Option<Refused>,
    /// All events, loaded and made, each at its number.
    pub all: Vec<Event>,
}

/// What event order sees of an event: partners made anew, as they were.
type Key = [Event; 2];

struct Waiting {
    event: Event,
    key: Key,
}

fn key(event: &Event) -> Key {
    partners(event.point, mate(event).point, event.is_left(), event.is_subject, event.contour_id)
}

fn is_same_key(a: &Key, b: &Key) -> bool {
    a[0].is_left() == b[0].is_left() && a[1].point == b[1].point
}

fn ties(a: &Event, b: &Event) -> bool {
    a.is_before(b) && b.is_before(a)
}

struct Sweep {
    waiting: Vec<Waiting>,
    status: Vec<Event>,
    run: Run,
    operation: Operation,
    /// Places of the pool.
    size: usize,
}

pub fn sweep(sheet: &[Edge], operation: Operation, size: usize) -> Run {
    let all = load(sheet);
    let run = Run { taken: vec![], divisions: 0, unclean: None, tied: false, refused: None, all: all.clone() };
    let (subject, clip) = (bounds(&all, true), bounds(&all, false));
    let mut sweep = Sweep { waiting: vec![], status: vec![], run, operation, size };
    all.iter().for_each(|event| sweep.wait(event));
    while let Some(event) = sweep.take() {
        let x = event.point.x;
        if operation == Operation::Intersection && (x > subject.max.x || x > clip.max.x)
            || operation == Operation::Difference && x > subject.max.x
        {
            break;
        }
        if event.is_left() {
            sweep.enter(&event);
        } else {
            sweep.leave(&mate(&event));
        }
        if sweep.run.refused.is_some() {
            break;
        }
    }
    sweep.run
}

impl Sweep {
    fn not_clean(&mut self, why: Why) {
        self.run.unclean.get_or_insert(why);
    }

    fn wait(&mut self, event: &Event) {
        if self.waiting.iter().any(|w| ties(&w.event, event)) {
            self.not_clean(Why::Tie);
        }
        self.waiting.push(Waiting { event: event.clone(), key: key(event) });
    }

    /// The first in event order of all waiting, who stand by their numbers; the lower one on a tie.
    fn take(&mut self) -> Option<Event> {
        let mut best = 0;
        for i in 1..self.waiting.len() {
            if !self.waiting[best].event.is_before(&self.waiting[i].event) {
                best = i;
            }
        }
        if self.waiting.is_empty() {
            return None;
        }
        let taken = self.waiting.remove(best).event;
        self.run.tied |= self.waiting.iter().any(|w| ties(&w.event, &taken));
        self.run.taken.push(taken.clone());
        Some(taken)
    }

    /// A segment that is new or was changed stands where the others say: all below it are less, all above greater.
    fn check_member(&mut self, event: &Event) {
        let Some(place) = self.status.iter().position(|m| is(m, event)) else { return };
        for (i, other) in self.status.iter().enumerate() {
            let wanted = if i < place { Ordering::Greater } else { Ordering::Less };
            if i != place
                && (compare_segments(event, other) != wanted || compare_segments(other, event) != wanted.reverse())
            {
                self.not_clean(Why::Status);
                return;
            }
        }
    }

    fn enter(&mut self, event: &Event) {
        let less = |member: &Event| compare_segments(event, member) == Ordering::Less;
        let place = self.status.iter().position(less).unwrap_or(self.status.len());
        let upper = self.status.get(place).cloned();
        let lower = place.checked_sub(1).map(|k| self.status[k].clone());
        let lowest = place.checked_sub(2).map(|k| self.status[k].clone());
        self.status.insert(place, event.clone());
        self.check_member(event);
        compute_fields(event, lower.as_ref(), self.operation);
        if let Some(upper) = upper {
            if self.coincide(event, &upper) {
                compute_fields(event, lower.as_ref(), self.operation);
                compute_fields(&upper, Some(event), self.operation);
            }
        }
        let Some(lower) = lower else { return };
        if self.run.refused.is_none() && self.coincide(&lower, event) {
            compute_fields(&lower, lowest.as_ref(), self.operation);
            compute_fields(event, Some(&lower), self.operation);
        }
    }

    fn leave(&mut self, event: &Event) {
        let Some(place) = self.status.iter().position(|m| is(m, event)) else { return };
        if place > 0 && place + 1 < self.status.len() {
            let (lower, upper) = (self.status[place - 1].clone(), self.status[place + 1].clone());
            self.coincide(&lower, &upper);
        }
        self.status.remove(place);
    }

    /// What a meeting of the two made waits, and what it changed is looked at; whether their types were set, and nothing refused.
    fn coincide(&mut self, a: &Event, b: &Event) -> bool {
        let met = meet(a, b, self.size - self.run.all.len());
        let made: Vec<Event> = met.done.into_iter().flat_map(|division| [division.new_right, division.new_left]).collect();
        self.run.divisions += made.len() / 2;
        self.run.all.extend(made.iter().cloned());
        if let Some((number, record)) = met.refused {
            let place = self.run.all.iter().position(|event| is(event, &record)).expect("every record has a number");
            self.run.refused = Some((number, place as u64));
            return false;
        }
        self.look_again();
        made.iter().for_each(|event| self.wait(event));
        self.check_member(a);
        self.check_member(b);
        met.code == 2
    }

    /// Waiting events whose partner or flag has changed: does one stand otherwise to another than before?
    fn look_again(&mut self) {
        let changed: Vec<usize> =
            (0..self.waiting.len()).filter(|&i| !is_same_key(&self.waiting[i].key, &key(&self.waiting[i].event))).collect();
        for &i in &changed {
            for j in 0..self.waiting.len() {
                let (one, two) = (&self.waiting[i], &self.waiting[j]);
                let then = (one.key[0].is_before(&two.key[0]), two.key[0].is_before(&one.key[0]));
                let now = (one.event.is_before(&two.event), two.event.is_before(&one.event));
                if i != j && now == (true, true) {
                    self.not_clean(Why::Tie);
                } else if i != j && then != now {
                    self.not_clean(Why::OrderChanged);
                }
            }
        }
        for i in changed {
            self.waiting[i].key = key(&self.waiting[i].event);
        }
    }
}
