//! Lists of classified events that no sweep made: many rings at one point, nested holes, open ends; below links to edges
//! that come later or are not listed; corners that are no whole numbers.
use super::boolean::leaves::ResultTransition;
use super::events::{partners, Event};
use geo_types::Coordinate;
use inputs::random::Random;

pub struct List {
    pub listed: Vec<Event>,
    /// Listed or not, for events hold each other weakly.
    _all: Vec<Event>,
}

/// Where a corner on the grid is put: x and y each by its share of both, and a shift. Equal corners stay equal.
type Grid = [[f64; 3]; 2];
type Made = fn(Grid, &mut Random) -> Vec<Event>;

const GRIDS: &[Grid] = &[
    [[1.0, 0.0, 0.0], [0.0, 1.0, 0.0]],
    [[0.1, 0.0, 0.7], [0.0, 1.0 / 3.0, -0.3]],
    [[0.8, -0.6, 0.1], [0.6, 0.8, 1.0 / 3.0]],
    [[1.1e-7, 1.0, 0.0], [-1.0, 1.3e-7, 0.0]],
];

pub const ALL: &[(&str, Made)] =
    &[("rings at one point", rings), ("nested squares", nested), ("open ends", open_ends), ("shared corners", grid_rings)];

/// Some of the lists lack an end, which 01 refuses.
pub fn list(number: u64, random: &mut Random) -> List {
    let (_, family) = ALL[(number % ALL.len() as u64) as usize];
    let grid = random.pick(GRIDS);
    let mut all = family(grid, random);
    let mut listed = all.clone();
    if random.one_in(3) {
        let unlisted = soup(1 + random.below(3), grid, random);
        classify(&unlisted, random);
        all.extend(unlisted);
        link_to_any(&listed, &all, random);
    }
    for i in (1..listed.len()).rev() {
        listed.swap(i, random.below(i as u64 + 1) as usize);
    }
    if random.one_in(50) {
        listed.pop();
    }
    List { listed, _all: all }
}

fn edge(p: [f64; 2], q: [f64; 2], subject: bool, grid: Grid) -> Option<[Event; 2]> {
    let put = |[x, y]: [f64; 2]| grid.map(|[of_x, of_y, shift]| of_x * x + of_y * y + shift);
    let (p, q) = (put(p), put(q));
    let at = |p: [f64; 2]| Coordinate { x: p[0], y: p[1] };
    match p.partial_cmp(&q) {
        Some(std::cmp::Ordering::Less) => Some(partners(at(p), at(q), true, subject, 0)),
        Some(std::cmp::Ordering::Greater) => Some(partners(at(q), at(p), true, subject, 0)),
        _ => None,
    }
}

fn ring(corners: &[[f64; 2]], subject: bool, grid: Grid) -> Vec<Event> {
    (0..corners.len()).filter_map(|i| edge(corners[i], corners[(i + 1) % corners.len()], subject, grid)).flatten().collect()
}

fn lefts(events: &[Event]) -> impl Iterator<Item = &Event> {
    events.iter().filter(|e| e.is_left())
}

fn classify(events: &[Event], random: &mut Random) {
    for event in lefts(events) {
        let transition = random.pick(&[ResultTransition::None, ResultTransition::InOut, ResultTransition::OutIn, ResultTransition::OutIn]);
        event.set_result_transition(transition);
    }
}

/// Below links to left events that come earlier, mostly in the result.
fn link(events: &[Event], random: &mut Random) {
    for event in lefts(events) {
        let earlier: Vec<&Event> = lefts(events).filter(|e| e.is_before(event) && !event.is_before(e)).collect();
        if !earlier.is_empty() && random.one_in(2) {
            event.set_prev_in_result(random.pick(&earlier));
        }
    }
}

/// Below links to any left event: earlier, later, unlisted, or its own.
fn link_to_any(events: &[Event], all: &[Event], random: &mut Random) {
    let lefts_of_all: Vec<&Event> = lefts(all).collect();
    for event in lefts(events) {
        if random.one_in(4) {
            event.set_prev_in_result(random.pick(&lefts_of_all));
        }
    }
}

fn rings(grid: Grid, random: &mut Random) -> Vec<Event> {
    let mut made = vec![];
    for _ in 0..1 + random.below(6) {
        let mut corner = || [random.whole(5), random.whole(5)];
        let corners = [[0.0, 0.0], corner(), corner()];
        made.extend(ring(&corners, random.one_in(2), grid));
    }
    classify(&made, random);
    if random.one_in(2) {
        link(&made, random);
    }
    made
}

fn grid_rings(grid: Grid, random: &mut Random) -> Vec<Event> {
    let mut made = vec![];
    for _ in 0..1 + random.below(12) {
        let (x, y) = (random.below(5) as f64, random.below(5) as f64);
        made.extend(ring(&[[x, y], [x + 1.0, y], [x + 1.0, y + 1.0], [x, y + 1.0]], random.one_in(2), grid));
    }
    lefts(&made).for_each(|event| event.set_result_transition(ResultTransition::InOut));
    made
}

/// Squares in squares: the lower wall of each has the lower wall of the one round it below it.
fn nested(grid: Grid, random: &mut Random) -> Vec<Event> {
    let mut made: Vec<Event> = vec![];
    let mut lower: Option<Event> = None;
    for k in 0..2 + random.below(8) {
        let far = 10.0 - k as f64;
        let square = ring(&[[-far, -far], [far, -far], [far, far], [-far, far]], random.one_in(2), grid);
        let transition = random.pick(&[ResultTransition::OutIn, ResultTransition::OutIn, ResultTransition::InOut]);
        for event in lefts(&square) {
            event.set_result_transition(transition);
            if let Some(below) = &lower {
                event.set_prev_in_result(below);
            }
        }
        lower = lefts(&square[..2]).next().cloned();
        made.extend(square);
    }
    made
}

fn soup(edges: u64, grid: Grid, random: &mut Random) -> Vec<Event> {
    (0..edges)
        .filter_map(|_| edge([random.whole(3), random.whole(3)], [random.whole(3), random.whole(3)], random.one_in(2), grid))
        .flatten()
        .collect()
}

fn open_ends(grid: Grid, random: &mut Random) -> Vec<Event> {
    let made = soup(1 + random.below(9), grid, random);
    classify(&made, random);
    link(&made, random);
    made
}
