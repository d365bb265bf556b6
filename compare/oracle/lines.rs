//! Calls over all families, one a line.
use crate::words::{number, numbers, plain_twin};
use inputs::families::scene;
use inputs::random::Random;
use inputs::records::{segment, segments, within, Segment};
use inputs::Point;
use std::io::{self, Write};

pub const FUNCTIONS: &[&str] = &[
    "cross", "orient", "before", "segcmp", "class", "divide", "neigh", "nextup", "ordered-cross", "ordered-segcmp",
    "ordered-neigh",
];

/// Whether there is such a function; `class` has a fixed number of calls. A function of the ordered mode has the calls of
/// its plain twin.
pub fn write(function: &str, count: u64, seed: u64, out: &mut impl Write) -> io::Result<bool> {
    let twin = plain_twin(function).unwrap_or(function);
    let mode = function.strip_suffix(twin).unwrap_or_default();
    let line: fn(u64, &mut Random) -> String = match twin {
        "cross" => cross,
        "orient" => orient,
        "before" => before_line,
        "segcmp" => segcmp,
        "divide" => divide,
        "neigh" => neigh,
        "nextup" => nextup,
        "class" => return class(out).map(|()| true),
        _ => return Ok(false),
    };
    let mut random = Random(seed);
    for i in 0..count {
        writeln!(out, "{mode}{}", line(i, &mut random))?;
    }
    Ok(true)
}

fn cross(i: u64, random: &mut Random) -> String {
    format!("cross {}", numbers(&scene(i, random).concat()))
}

fn orient(i: u64, random: &mut Random) -> String {
    let mut s = scene(i, random);
    if random.one_in(2) {
        s.rotate_left(1 + random.below(3) as usize);
    }
    format!("orient {}", numbers(&s[..3].concat()))
}

fn nextup(i: u64, random: &mut Random) -> String {
    format!("nextup {}", number(scene(i, random)[0][0]))
}

fn flag(random: &mut Random) -> u64 {
    random.below(2)
}

fn ring(random: &mut Random) -> u32 {
    random.pick(&[0, 0, 1, 1, 2, u32::MAX])
}

/// An event at one end of a segment: its point, its partner's, left, subject.
fn event([left, right]: Segment, at_left: bool, random: &mut Random) -> String {
    let ends = if at_left { [left, right] } else { [right, left] };
    format!("{} {} {}", numbers(&ends.concat()), at_left as u8, flag(random))
}

fn before_line(i: u64, random: &mut Random) -> String {
    let mut s = scene(i, random);
    // Direction and layer decide only between events at one point: make that common.
    let shared = random.one_in(2);
    if shared {
        s[2] = s[0];
    }
    let [one, two] = segments(s).map(|segment| {
        let at_left = if shared { segment[0] == within(s[0]) } else { random.one_in(2) };
        event(segment, at_left, random)
    });
    format!("before {one} {two}")
}

/// A left record: its points, subject, ring.
fn record(s: Segment, random: &mut Random) -> String {
    format!("{} {} {}", numbers(&s.concat()), flag(random), ring(random))
}

fn segcmp(i: u64, random: &mut Random) -> String {
    let [one, two] = segments(scene(i, random));
    let second = if random.one_in(100) { "same".to_string() } else { record(two, random) };
    format!("segcmp {} {second}", record(one, random))
}

fn divide(i: u64, random: &mut Random) -> String {
    let s = scene(i, random);
    let [left, right] = segment(s[0], s[1]);
    let [c, d] = segment(s[2], s[3]);
    let [x, y] = cut([left, right], [c, d], random);
    format!(
        "divide {} {} {} {} {}",
        numbers(&[left, right].concat()),
        number(x),
        number(y),
        flag(random),
        ring(random)
    )
}

/// On the segment, near it, at its ends, at the left x below the left end (a cut that moves), at
/// the right x above the right end (flags that change places), or outside.
fn cut([left, right]: Segment, [c, d]: Segment, random: &mut Random) -> Point {
    let anywhere = random.unit();
    let t = random.pick(&[0.5, 1.0 / 3.0, anywhere]);
    let on = [left[0] + t * (right[0] - left[0]), left[1] + t * (right[1] - left[1])];
    match random.below(12) {
        0 => left,
        1 => right,
        2 => [left[0], left[1].next_down()],
        3 => [left[0], left[1] - (1.0 + left[1].abs()) * random.unit()],
        4 => [right[0], right[1].next_up()],
        5 => [right[0], right[1] + (1.0 + right[1].abs()) * random.unit()],
        6 => c,
        7 => d,
        8 => [left[0], c[1]],
        9 => [right[0], c[1]],
        _ => on,
    }
}

fn neigh(i: u64, random: &mut Random) -> String {
    let [one, two] = segments(scene(i, random));
    let (first, first_in_out) = (record(one, random), flag(random));
    let (second, second_in_out) = (record(two, random), flag(random));
    format!("neigh {first} {first_in_out} {second} {second_in_out}")
}

/// Every call there is.
fn class(out: &mut impl Write) -> io::Result<()> {
    let mut lower = vec!["-".to_string()];
    for bits in 0..32 {
        for transition in ["none", "inout", "outin"] {
            let bit = |k: u32| bits >> k & 1;
            lower.push(format!("{} {} {} {} {transition} {}", bit(0), bit(1), bit(2), bit(3), bit(4)));
        }
    }
    for operation in ["intersection", "union", "difference", "xor"] {
        for subject in [0, 1] {
            for edge_type in ["normal", "non", "same", "different"] {
                for neighbour in &lower {
                    writeln!(out, "class {operation} {subject} {edge_type} {neighbour}")?;
                }
            }
        }
    }
    Ok(())
}
