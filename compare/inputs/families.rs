//! The families: each makes two segments that are likely to hit one kind of special case.
use crate::random::Random;
use crate::{Point, Scene};

pub type Family = fn(&mut Random) -> Scene;

pub const ALL: &[(&str, Family)] = &[
    ("ordinary", ordinary),
    ("small grid", small_grid),
    ("ninths", ninths),
    ("axis-parallel", axis_parallel),
    ("collinear slanted", collinear_slanted),
    ("computed on a line", computed_on_a_line),
    ("touching", touching),
    ("shared ends", shared_ends),
    ("shared wall", shared_wall),
    ("near-parallel strips", near_parallel_strips),
    ("last places", last_places),
    ("near the diagonal", near_the_diagonal),
    ("tiny", tiny),
    ("huge", huge),
    ("far apart", far_apart),
    ("mixed sizes", mixed_sizes),
    ("special set", special_set),
    ("any bits", any_bits),
    ("named", named),
    ("damaged", damaged),
];

/// The families in turn, each as it is or listed another way round.
pub fn scene(number: u64, random: &mut Random) -> Scene {
    let (_, family) = ALL[(number % ALL.len() as u64) as usize];
    let made = family(random);
    if random.one_in(2) {
        made
    } else {
        another_way_round(made, random)
    }
}

/// Edges are listed both ways, the pair in both orders, and x and y may change places.
fn another_way_round(mut s: Scene, random: &mut Random) -> Scene {
    if random.one_in(2) {
        s.swap(0, 1);
    }
    if random.one_in(2) {
        s.swap(2, 3);
    }
    if random.one_in(2) {
        s.rotate_left(2);
    }
    if random.one_in(2) {
        s.iter_mut().for_each(|p| p.swap(0, 1));
    }
    s
}

/// Four points, each number from `number`.
fn points(mut number: impl FnMut() -> f64) -> Scene {
    [(); 4].map(|_| [number(), number()])
}

pub fn ordinary(random: &mut Random) -> Scene {
    let size = random.pick(&[1.0, 1000.0, 1e6]);
    points(|| (2.0 * random.unit() - 1.0) * size)
}

/// Many coincidences: corners shared, ends on edges, overlaps.
pub fn small_grid(random: &mut Random) -> Scene {
    let side = 2 + random.below(6);
    points(|| random.below(side) as f64)
}

/// A grid whose corners are rounded.
fn ninths(random: &mut Random) -> Scene {
    points(|| random.whole(18) / 9.0)
}

pub fn axis_parallel(random: &mut Random) -> Scene {
    let scale = random.pick(&[1.0, 0.1, 1.0 / 3.0]);
    let mut s = points(|| random.whole(4) * scale);
    for (from, to) in [(0, 1), (2, 3)] {
        let axis = random.below(2) as usize;
        s[to][axis] = s[from][axis];
    }
    s
}

/// Exactly collinear, shared and overlapping.
pub fn collinear_slanted(random: &mut Random) -> Scene {
    let from = [random.whole(50), random.whole(50)];
    let step = [1.0 + random.below(7) as f64, random.pick(&[-1.0, 1.0]) * (1 + random.below(7)) as f64];
    let scale = random.pick(&[1.0, 0.125, 2f64.powi(-30), 2f64.powi(60)]);
    let mut on = || {
        let k = random.below(6) as f64;
        [(from[0] + k * step[0]) * scale, (from[1] + k * step[1]) * scale]
    };
    [on(), on(), on(), on()]
}

fn along(a: Point, b: Point, t: f64) -> Point {
    [a[0] + t * (b[0] - a[0]), a[1] + t * (b[1] - a[1])]
}

/// Collinear but for the rounding of the points.
pub fn computed_on_a_line(random: &mut Random) -> Scene {
    let [a, b, _, _] = ordinary(random);
    [a, b, along(a, b, 2.0 * random.unit() - 0.5), along(a, b, 2.0 * random.unit() - 0.5)]
}

/// An edge that ends on another, as in a ring that touches itself.
fn touching(random: &mut Random) -> Scene {
    let [a, b, _, d] = if random.one_in(2) { ordinary(random) } else { small_grid(random) };
    let anywhere = random.unit();
    let t = random.pick(&[0.0, 0.5, 1.0 / 3.0, 0.1, 1.0, anywhere]);
    [a, b, along(a, b, t), d]
}

/// Edges that share a corner, or both, or are points.
fn shared_ends(random: &mut Random) -> Scene {
    let [a, b, _, d] = if random.one_in(2) { ordinary(random) } else { ninths(random) };
    match random.below(6) {
        0 => [a, b, b, a],
        1 => [a, b, a, b],
        2 => [a, b, b, d],
        3 => [a, b, a, d],
        4 => [a, a, b, d],
        _ => [a, a, a, random.pick(&[a, b])],
    }
}

/// Rooms that share a wall: along it, or beginning on it.
fn shared_wall(random: &mut Random) -> Scene {
    let wall = random.whole(30) * 0.1;
    let mut corner = || [wall, random.whole(9) * 0.1];
    let [a, b, c, d] = [corner(), corner(), corner(), corner()];
    match random.below(3) {
        0 => [a, b, c, [random.whole(30) * 0.1, c[1]]],
        _ => [a, b, c, d],
    }
}

fn near_parallel_strips(random: &mut Random) -> Scene {
    let long = random.pick(&[1e3, 1e9, 2f64.powi(40), 2f64.powi(99)]);
    let high = random.pick(&[0.0, 1.0, 1e3, 0.3 * long]);
    let thin = random.pick(&[1e-9, 1e-15, 1.0, long * 1e-16]);
    let mut end = |side: f64| [side * long * (1.0 - 0.1 * random.unit()), high + thin * random.whole(4)];
    [end(-1.0), end(1.0), end(-1.0), end(1.0)]
}

/// `x` moved by so many units in the last place; a number that is not finite is not entered.
fn moved(x: f64, steps: f64) -> f64 {
    let mut x = x;
    for _ in 0..steps.abs() as u64 {
        let next = if steps > 0.0 { x.next_up() } else { x.next_down() };
        if next.is_finite() {
            x = next;
        }
    }
    x
}

/// Two edges whose ends are one or two units in the last place apart.
fn last_places(random: &mut Random) -> Scene {
    let [a, b, _, _] = match random.below(3) {
        0 => ordinary(random),
        1 => small_grid(random),
        _ => ninths(random),
    };
    let mut near = |p: Point| p.map(|x| moved(x, random.whole(2)));
    [near(a), near(b), near(a), near(b)]
}

/// Orientation in plain floats is wrong all around these.
fn near_the_diagonal(random: &mut Random) -> Scene {
    let last = 2f64.powi(-53);
    let mut near = |c: f64, n: u64| [c + last * random.whole(n), c + last * random.whole(n)];
    let (a, d) = (near(0.5, 64), near(24.0, 1 << 8));
    [a, [12.0, 12.0], d, [24.0, 24.0]]
}

/// Products and squares that underflow, down to the smallest number.
fn tiny(random: &mut Random) -> Scene {
    let exponent = random.pick(&[-300, -510, -511, -536, -537, -538, -540, -1020, -1060, -1074]);
    points(|| random.whole(8) * 2f64.powi(exponent))
}

/// 2^100, and beyond it to where differences, products and squares overflow.
fn huge(random: &mut Random) -> Scene {
    let exponent = random.pick(&[40, 97, 97, 250, 252, 254, 500, 508, 509, 1019, 1020]);
    points(|| random.whole(8) * 2f64.powi(exponent))
}

/// A difference in x overflows where the exact product with one in y is small.
fn far_apart(random: &mut Random) -> Scene {
    let x = [f64::MAX, -f64::MAX, 2f64.powi(1023), -(2f64.powi(1023)), 1.0, -1.0];
    let exponent = random.pick(&[-1074, -1060, -60, 0]);
    [(); 4].map(|_| [random.pick(&x), random.whole(4) * 2f64.powi(exponent)])
}

fn mixed_sizes(random: &mut Random) -> Scene {
    let (low, high) = random.pick(&[(-1074, 1023), (-160, 100), (-60, 60), (-1074, -900), (-8, 8)]);
    points(|| {
        let size = 2f64.powi(low + random.below((high - low) as u64) as i32);
        random.pick(&[-1.0, 1.0]) * (1.0 + random.unit()) * size
    })
}

pub const SPECIAL: &[f64] = &[
    0.0,
    -0.0,
    f64::from_bits(1),
    -f64::from_bits(1),
    1.0,
    -1.0,
    1.0 + f64::EPSILON,
    9007199254740992.0,
    1267650600228229401496703205376.0,
    -1267650600228229401496703205376.0,
    f64::MAX,
    -f64::MAX,
];

fn special_set(random: &mut Random) -> Scene {
    // Few of them at a time, so that numbers are met again.
    let few = [random.pick(SPECIAL), random.pick(SPECIAL), random.pick(SPECIAL)];
    points(|| if random.one_in(4) { random.pick(SPECIAL) } else { random.pick(&few) })
}

fn any_bits(random: &mut Random) -> Scene {
    points(|| random.finite())
}

/// P1 to P9 of the rules (P9 in its first three points).
fn named(random: &mut Random) -> Scene {
    let d = 2f64.powi(-300);
    let far = 2f64.powi(1023);
    random.pick(&[
        [[0.0, 0.0], [2.0, 2.0], [0.0, 2.0], [2.0, 0.0]],
        [[0.0, 0.0], [1.0, 0.0], [1.0, 0.0], [2.0, 0.0]],
        [[0.0, 0.0], [2.0, 0.0], [1.0, 0.0], [3.0, 0.0]],
        [[1.0, 1.0], [1.0, 1.0], [0.0, 0.0], [2.0, 2.0]],
        [[0.0, 0.0], [2.0, 2.0], [1.0, 1.0], [1.0, 1.0]],
        [[0.0, 0.0], [2.0, 2.0], [0.0, 1.0], [2.0, 3.0]],
        [[0.0, 0.0], [d, d], [0.0, d], [d, 0.0]],
        [[-far, 0.0], [far, 0.0], [0.0, -1.0], [0.0, 1.0]],
        [[1.0, 1.0], [2.0, 2.0], [2f64.powi(-60), 0.0], [0.0, 0.0]],
    ])
}

/// A scene of another family with one number changed.
fn damaged(random: &mut Random) -> Scene {
    let (_, family) = ALL[random.below(ALL.len() as u64 - 1) as usize];
    let mut s = family(random);
    let (point, other) = (random.below(4) as usize, random.below(4) as usize);
    let axis = random.below(2) as usize;
    let x = s[point][axis];
    s[point][axis] = match random.below(6) {
        0 => moved(x, 1.0),
        1 => moved(x, -1.0),
        2 => -x,
        3 => s[other][1 - axis],
        4 => random.pick(SPECIAL),
        _ => x * 0.5,
    };
    s
}
