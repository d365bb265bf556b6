//! How often told parents and depths are wrong on clean runs whose contours all close: a count of a fault that the Rust has
//! as well, and no comparison. What is right is decided by exact signs and comparisons alone:
//! a contour lies within another if one of its corners, which lies on no other contour, does so by the even-odd rule.
//! Within n others it is right if n is even, it has no parent and depth n/2; or if n is odd, its depth is (n+1)/2 and its
//! parent one of the n that itself lies within n-1. A map with a contour all of whose corners lie on others is unclear.
use super::boolean::leaves::{signed_area, Contour};
use super::contours::by_the_rust;
use super::{clean, numbered_sheet, sweep, SIZE};
use geo_types::Coordinate;
use inputs::random::Random;
use inputs::sheets::{self, Edge};

/// Maps, and of these wrong ones.
#[derive(Default, Clone, Copy)]
struct Count {
    maps: u64,
    wrong: u64,
}

/// What the edges of a sheet have in common, the first of these that holds. A shared wall: two edges lie on one line and
/// have more than a point in common.
const SHARED: [&str; 4] = ["both layers share a wall", "one layer shares a wall", "an end within another edge", "nothing of these"];

#[derive(Default, Clone, Copy)]
struct Family {
    by_shared: [Count; 4],
    unclear: u64,
    /// Right maps that were made wrong, and found.
    lies: u64,
    found: u64,
}

/// Prints a row for each family; whether lies were told of each, and all found.
pub fn print(count: u64, seed: u64) -> bool {
    let mut random = Random(seed);
    let mut families = vec![Family::default(); sheets::ALL.len()];
    for i in 0..count {
        let (sheet, operation) = numbered_sheet(i, &mut random);
        let family = &mut families[i as usize % sheets::ALL.len()];
        let run = clean::sweep(&sheet, operation, SIZE);
        if run.unclean.is_some() || run.refused.is_some() {
            continue;
        }
        let listed = sweep::by_the_rust(&sheet, operation);
        let theirs = by_the_rust(&listed.taken);
        if theirs.refused.is_none() && theirs.contours.iter().all(|c| c.points.first() == c.points.last()) {
            family.add(theirs.contours, shared(&sheet));
        }
    }
    println!("| nesting wrong, of clean runs whose contours all close | {} | unclear | lies found |", SHARED.join(" | "));
    println!("|---|---|---|---|---|---|---|");
    for ((name, _), family) in sheets::ALL.iter().zip(&families) {
        family.print(name);
    }
    families.iter().any(|family| family.lies > 0) && families.iter().all(|family| family.found == family.lies)
}

impl Family {
    fn add(&mut self, mut contours: Vec<Contour<f64>>, shared: usize) {
        let Some(around) = around(&contours) else {
            self.unclear += 1;
            return;
        };
        let is_right = are_right(&contours, &around);
        self.by_shared[shared].maps += 1;
        self.by_shared[shared].wrong += !is_right as u64;
        if let Some(last) = contours.last_mut().filter(|_| is_right) {
            last.depth += 1;
            self.lies += 1;
            self.found += !are_right(&contours, &around) as u64;
        }
    }

    fn print(&self, name: &str) {
        let counts = self.by_shared.map(|Count { maps, wrong }| format!("{wrong} of {maps}"));
        println!("| {name} | {} | {} | {} of {} |", counts.join(" | "), self.unclear, self.found, self.lies);
    }
}

/// The contours that each lies within; none where that is unclear.
fn around(contours: &[Contour<f64>]) -> Option<Vec<Vec<usize>>> {
    let others = |i: usize| (0..contours.len()).filter(move |j| *j != i);
    let within = |i: usize, p: Coordinate<f64>| -> Option<Vec<usize>> {
        let sides: Option<Vec<(usize, bool)>> = others(i).map(|j| Some((j, is_within(&contours[j], p)?))).collect();
        Some(sides?.into_iter().filter(|(_, is_within)| *is_within).map(|(j, _)| j).collect())
    };
    (0..contours.len()).map(|i| contours[i].points.iter().find_map(|p| within(i, *p))).collect()
}

fn are_right(contours: &[Contour<f64>], around: &[Vec<usize>]) -> bool {
    let is_right = |(contour, outer): (&Contour<f64>, &Vec<usize>)| {
        let parent = contour.hole_of.map(|parent| parent as usize);
        let is_parent_right = match parent {
            None => outer.len() % 2 == 0,
            Some(parent) => outer.len() % 2 == 1 && outer.contains(&parent) && around[parent].len() + 1 == outer.len(),
        };
        is_parent_right && contour.depth as usize == outer.len().div_ceil(2)
    };
    contours.iter().zip(around).all(is_right)
}

/// By the even-odd rule; none for a point on the contour.
fn is_within(contour: &Contour<f64>, p: Coordinate<f64>) -> Option<bool> {
    let mut is_within = false;
    for wall in contour.points.windows(2) {
        let (a, b) = (wall[0], wall[1]);
        let side = signed_area(a, b, p);
        let is_between = |from: f64, to: f64, x: f64| from.min(to) <= x && x <= from.max(to);
        if side == 0.0 && is_between(a.x, b.x, p.x) && is_between(a.y, b.y, p.y) {
            return None;
        }
        // The wall crosses the level line through the point, to its right.
        if (a.y > p.y) != (b.y > p.y) && (side > 0.0) == (b.y > a.y) {
            is_within = !is_within;
        }
    }
    Some(is_within)
}

/// The place in `SHARED`.
fn shared(sheet: &[Edge]) -> usize {
    let pairs = || sheet.iter().enumerate().flat_map(|(i, e)| sheet[..i].iter().map(move |other| (e, other)));
    let holds = [
        pairs().any(|(e, other)| e.subject != other.subject && do_share(e, other)),
        pairs().any(|(e, other)| do_share(e, other)),
        pairs().any(|(e, other)| does_end_within(e, other) || does_end_within(other, e)),
        true,
    ];
    holds.iter().position(|holds| *holds).unwrap_or_default()
}

fn is_on_line(p: [f64; 2], e: &Edge) -> bool {
    let at = |p: [f64; 2]| Coordinate { x: p[0], y: p[1] };
    signed_area(at(e.from), at(e.to), at(p)) == 0.0
}

/// Along x, or along y if it is vertical.
fn extent(e: &Edge) -> (usize, f64, f64) {
    let axis = if e.from[0] == e.to[0] { 1 } else { 0 };
    (axis, e.from[axis].min(e.to[axis]), e.from[axis].max(e.to[axis]))
}

fn do_share(e: &Edge, other: &Edge) -> bool {
    let ((_, from, to), (_, other_from, other_to)) = (extent(e), extent(other));
    is_on_line(other.from, e) && is_on_line(other.to, e) && from.max(other_from) < to.min(other_to)
}

fn does_end_within(e: &Edge, other: &Edge) -> bool {
    let (axis, from, to) = extent(other);
    [e.from, e.to].iter().any(|p| from < p[axis] && p[axis] < to && is_on_line(*p, other))
}
