//! Plans of a wanted size for the benchmark: every layer is made of simple rings that do not meet, so that other
//! libraries take them too. A crossing divides two segments, so each family crosses at most about once for two edges.
use crate::random::Random;
use crate::sheets::{crossing_stars, rectangle, ring, star, Sheet};
use crate::Point;
use std::f64::consts::TAU;

/// A plan of so many edges.
pub type Family = fn(u64, &mut Random) -> Sheet;

pub const CROSSING: &[(&str, Family)] = &[
    ("stars", stars),
    ("rooms, strips", rooms_and_strips),
    ("rounds", rounds),
    ("combs", combs),
    ("quadrilaterals", quadrilaterals),
];

/// Nothing crosses, so that 2,048 edges fill the pool exactly.
pub const APART: &[(&str, Family)] =
    &[("rooms apart", rooms_apart), ("rounds in rounds", rounds_in_rounds), ("combs apart", combs_apart)];

/// Two rings round one centre, at distances that change from corner to corner.
fn stars(edges: u64, random: &mut Random) -> Sheet {
    crossing_stars(edges / 2, random)
}

/// A grid of rooms with thick walls, under a few level strips over its whole width.
fn rooms_and_strips(edges: u64, random: &mut Random) -> Sheet {
    let strips = ((edges as f64).sqrt() / 4.0 - 1.0).max(1.0) as u64;
    let rooms = edges / 4 - strips;
    let columns = (rooms as f64).sqrt().ceil() as u64;
    let rows = rooms.div_ceil(columns);
    let mut made = Sheet::new();
    for room in 0..rooms {
        made.extend(ring(&room_at(room % columns, room / columns), true, room as u32, random));
    }
    for strip in 0..strips {
        let y = 4.0 * (strip * rows / strips) as f64 + 1.0 + random.unit();
        let corners = rectangle([-1.0, y], [5.0 * columns as f64 + 1.0, 0.5]);
        made.extend(ring(&corners, false, strip as u32, random));
    }
    made
}

fn room_at(column: u64, row: u64) -> [Point; 4] {
    rectangle([5.0 * column as f64, 4.0 * row as f64], [4.6, 3.7])
}

fn rooms_apart(edges: u64, random: &mut Random) -> Sheet {
    let columns = (edges as f64 / 4.0).sqrt().ceil() as u64;
    (0..edges / 4).flat_map(|room| ring(&room_at(room % columns, room / columns), room % 2 == 0, room as u32, random)).collect()
}

/// Two rings with all corners at one distance from their centres, which lie apart by less than that.
fn rounds(edges: u64, random: &mut Random) -> Sheet {
    layers(|subject| round(edges / 2, if subject { [0.0, 0.0] } else { [0.7 + 0.1 * random.unit(), 0.3] }, 1.0))
}

fn rounds_in_rounds(edges: u64, _: &mut Random) -> Sheet {
    layers(|subject| round(edges / 2, [0.0, 0.0], if subject { 1.0 } else { 0.5 }))
}

fn round(n: u64, [x, y]: Point, size: f64) -> Vec<Point> {
    // Not from angle 0, so that no two corners lie on one level line by chance of rounding.
    let angle = |i: u64| (i as f64 + 0.123) / n as f64 * TAU;
    (0..n).map(|i| [x + size * angle(i).cos(), y + size * angle(i).sin()]).collect()
}

/// Two combs from both sides: each tooth lies across the tip of one of the other's, so nearly all are open at once.
fn combs(edges: u64, random: &mut Random) -> Sheet {
    two_combs(edges, 0.5, random)
}

/// The teeth of each lie between the other's.
fn combs_apart(edges: u64, random: &mut Random) -> Sheet {
    two_combs(edges, 1.0, random)
}

fn two_combs(edges: u64, shift: f64, random: &mut Random) -> Sheet {
    layers(|subject| {
        let side = if subject { -1.0 } else { 1.0 };
        let up = if subject { 0.0 } else { shift };
        comb(edges / 8, random).into_iter().map(|[x, y]| [side * x, y + up]).collect()
    })
}

/// A back at x = 10 and level teeth of height 0.8 to about x = -5, one for every 2 of height: 4 edges a tooth.
fn comb(teeth: u64, random: &mut Random) -> Vec<Point> {
    let mut corners = vec![];
    for tooth in 0..teeth {
        let (y, tip, root) = (2.0 * tooth as f64, -5.0 - random.unit(), 9.0 + 0.5 * random.unit());
        corners.extend([[tip, y], [tip, y + 0.8], [root, y + 0.8], [root, y + 2.0]]);
    }
    // The last root is the upper end of the back, the first corner's tooth starts at it below.
    let top = 2.0 * teeth as f64 - 1.2;
    corners.truncate(4 * teeth as usize - 2);
    corners.extend([[10.0, top], [10.0, 0.0]]);
    corners
}

/// One in each cell of a grid, the cells of one layer a part of a cell away from the other's.
fn quadrilaterals(edges: u64, random: &mut Random) -> Sheet {
    let columns = (edges as f64 / 8.0).sqrt().ceil() as u64;
    let mut made = Sheet::new();
    for number in 0..edges / 4 {
        let (cell, subject) = (number / 2, number % 2 == 0);
        let [x, y] = if subject { [0.0, 0.0] } else { [0.3, 0.2] };
        let centre = [(cell % columns) as f64 + x, (cell / columns) as f64 + y];
        made.extend(ring(&star(4, centre, 0.49, None, random), subject, number as u32, random));
    }
    made
}

fn layers(mut corners: impl FnMut(bool) -> Vec<Point>) -> Sheet {
    [true, false].into_iter().flat_map(|subject| one_ring(&corners(subject), subject)).collect()
}

fn one_ring(corners: &[Point], subject: bool) -> Sheet {
    ring(corners, subject, 0, &mut Random(subject as u64))
}
