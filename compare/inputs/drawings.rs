//! Drawings that are saved in many ways: every family of sheets, and more of those whose maps depend on it.
use crate::random::Random;
use crate::sheets::{self, rectangle, ring, Edge, Family, Sheet};

/// As often as they stand here.
const OWN: &[(&str, Family)] = &[
    ("rooms wall to wall", rooms_wall_to_wall),
    ("rooms wall to wall", rooms_wall_to_wall),
    ("rooms and strips wall to wall", rooms_and_strips),
    ("rooms and strips wall to wall", rooms_and_strips),
    ("rooms and strips wall to wall", rooms_and_strips),
    ("rooms and strips wall to wall", rooms_and_strips),
    ("few numbers", few_numbers),
    ("few numbers", few_numbers),
    ("numbers that do not load", not_loading),
];
const OPERATIONS: [&str; 4] = ["intersection", "union", "difference", "xor"];

pub struct Drawing {
    pub family: &'static str,
    pub operation: &'static str,
    pub sheet: Sheet,
}

/// The families in turn, each with the operations in turn.
pub fn drawing(number: u64, random: &mut Random) -> Drawing {
    let count = OWN.len() + sheets::ALL.len();
    let (turn, place) = (number as usize / count, number as usize % count);
    let (family, sheet) = match OWN.get(place) {
        Some((name, make)) => (*name, make(random)),
        None => {
            let place = place - OWN.len();
            (sheets::ALL[place].0, sheets::sheet(place as u64, random))
        }
    };
    Drawing { family, operation: OPERATIONS[turn % 4], sheet }
}

/// Rooms of one layer that fill a floor, so that most walls stand there twice.
fn rooms_wall_to_wall(random: &mut Random) -> Sheet {
    let (columns, rows) = (2 + random.below(2), 1 + random.below(2));
    let [w, h] = [(1 + random.below(2)) as f64, 1.0];
    (0..columns * rows)
        .flat_map(|room| {
            let corner = [w * ((room % columns) as f64 - 1.0), h * (room / columns) as f64];
            ring(&rectangle(corner, [w, h]), true, room as u32, random)
        })
        .collect()
}

/// And strips of the other layer from wall to wall.
fn rooms_and_strips(random: &mut Random) -> Sheet {
    let mut made = rooms_wall_to_wall(random);
    for strip in 0..1 + random.below(2) as u32 {
        let corner = [random.whole(2), random.below(2) as f64];
        let size = [1.0 + random.below(3) as f64, 1.0 + random.below(2) as f64];
        made.extend(ring(&rectangle(corner, size), false, 100 + strip, random));
    }
    made
}

fn edges(most: u64, random: &mut Random, number: impl Fn(&mut Random) -> f64) -> Sheet {
    (0..1 + random.below(most))
        .map(|_| {
            let [ax, ay, bx, by] = [(); 4].map(|_| number(random));
            Edge { subject: random.one_in(2), ring: random.pick(&[0, 1, 9, 10, u32::MAX]), from: [ax, ay], to: [bx, by] }
        })
        .collect()
}

/// Zeros of both signs among them; now and then an edge that is a point.
fn few_numbers(random: &mut Random) -> Sheet {
    edges(6, random, |random| random.pick(&[0.0, -0.0, 1.0, -1.0, 2.0, f64::from_bits(1), -f64::from_bits(1)]))
}

/// Infinities, not-a-numbers with signs and payloads, and finite numbers too large.
fn not_loading(random: &mut Random) -> Sheet {
    const HEADS: [u64; 6] = [0x7ff0, 0xfff0, 0x7ff8, 0xfff8, 0x7ff4, 0x7fe0];
    edges(8, random, |random| match random.below(8) {
        0 => f64::from_bits((random.pick(&HEADS) << 48) + random.below(3)),
        1 => f64::from_bits(random.bits()),
        2 => -0.0,
        _ => random.whole(2),
    })
}
