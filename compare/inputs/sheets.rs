//! Whole sheets: edges of two layers, over families that are likely to hit one kind of special case.
use crate::families::scene;
use crate::random::Random;
use crate::records::within;
use crate::Point;

#[derive(Clone, Copy)]
pub struct Edge {
    pub subject: bool,
    pub ring: u32,
    pub from: Point,
    pub to: Point,
}

pub type Sheet = Vec<Edge>;
pub type Family = fn(&mut Random) -> Sheet;

pub const ALL: &[(&str, Family)] = &[
    ("rooms", rooms),
    ("thick walls", thick_walls),
    ("triangles", triangles),
    ("stars", stars),
    ("stars on a grid", stars_on_a_grid),
    ("nested squares", nested_squares),
    ("rings at one point", rings_at_one_point),
    ("strips", strips),
    ("edge soup", edge_soup),
    ("edges both ways", edges_both_ways),
    ("scenes", scenes),
    ("tiny and huge", tiny_and_huge),
    ("one layer", one_layer),
    ("many crossings", many_crossings),
    ("strips along walls", strips_along_walls),
    ("named", named),
];

/// Every edge has two ends that differ, of a size that loads.
pub fn sheet(number: u64, random: &mut Random) -> Sheet {
    let (_, family) = ALL[(number % ALL.len() as u64) as usize];
    let mut made: Sheet = family(random).into_iter().map(|e| Edge { from: within(e.from), to: within(e.to), ..e }).collect();
    made.retain(|e| e.from != e.to);
    if random.one_in(4) {
        for i in (1..made.len()).rev() {
            made.swap(i, random.below(i as u64 + 1) as usize);
        }
    }
    made
}

/// The edges of a closed ring, in one direction or the other.
pub(crate) fn ring(corners: &[Point], subject: bool, number: u32, random: &mut Random) -> Sheet {
    let backwards = random.one_in(2);
    (0..corners.len())
        .map(|i| {
            let (p, q) = (corners[i], corners[(i + 1) % corners.len()]);
            let (from, to) = if backwards { (q, p) } else { (p, q) };
            Edge { subject, ring: number, from, to }
        })
        .collect()
}

pub(crate) fn rectangle([x, y]: Point, [w, h]: Point) -> [Point; 4] {
    [[x, y], [x + w, y], [x + w, y + h], [x, y + h]]
}

fn layer(random: &mut Random) -> bool {
    random.one_in(2)
}

/// Rectangles on a small grid: shared walls, shared corners, one over the other.
fn rooms(random: &mut Random) -> Sheet {
    let scale = random.pick(&[1.0, 0.1, 1.0 / 3.0]);
    (0..1 + random.below(5) as u32)
        .flat_map(|number| {
            let corner = [random.below(6) as f64 * scale, random.below(6) as f64 * scale];
            let size = [(1 + random.below(4)) as f64 * scale, (1 + random.below(4)) as f64 * scale];
            ring(&rectangle(corner, size), layer(random), number, random)
        })
        .collect()
}

/// Rooms with thick walls between them, under strips: no two edges coincide.
fn thick_walls(random: &mut Random) -> Sheet {
    let (columns, rows) = (1 + random.below(4), 1 + random.below(4));
    let mut made = Sheet::new();
    for column in 0..columns {
        for row in 0..rows {
            let corner = [column as f64 * 5.0 + random.unit() * 0.4, row as f64 * 4.0 + random.unit() * 0.4];
            let size = [4.0 + random.unit() * 0.5, 3.0 + random.unit() * 0.5];
            made.extend(ring(&rectangle(corner, size), true, (column * rows + row) as u32, random));
        }
    }
    for strip in 0..1 + random.below(3) as u32 {
        let corner = [random.unit() * 12.0, random.unit() * 10.0];
        let size = [0.3 + random.unit() * 8.0, 0.3 + random.unit() * 8.0];
        made.extend(ring(&rectangle(corner, size), false, 100 + strip, random));
    }
    made
}

fn triangles(random: &mut Random) -> Sheet {
    let side = 3 + random.below(6);
    (0..2 + random.below(3) as u32)
        .flat_map(|number| {
            let corners = [(); 3].map(|_| [random.below(side) as f64, random.below(side) as f64]);
            ring(&corners, number % 2 == 0, number, random)
        })
        .collect()
}

/// A ring of n corners round a centre, at changing distances.
pub(crate) fn star(n: u64, centre: Point, size: f64, grid: Option<f64>, random: &mut Random) -> Vec<Point> {
    (0..n)
        .map(|i| {
            let angle = (i as f64 + 0.8 * random.unit()) / n as f64 * std::f64::consts::TAU;
            let far = size * (0.2 + 0.8 * random.unit());
            let p = [centre[0] + far * angle.cos(), centre[1] + far * angle.sin()];
            match grid {
                None => p,
                Some(step) => p.map(|x| (x / step).round() * step),
            }
        })
        .collect()
}

fn two_stars(corners: u64, grid: Option<f64>, random: &mut Random) -> Sheet {
    [true, false]
        .into_iter()
        .flat_map(|subject| {
            let n = 3 + random.below(corners);
            let centre = [random.unit(), random.unit()];
            let star = star(n, centre, 2.0, grid, random);
            ring(&star, subject, subject as u32, random)
        })
        .collect()
}

fn stars(random: &mut Random) -> Sheet {
    two_stars(12, None, random)
}

fn stars_on_a_grid(random: &mut Random) -> Sheet {
    let step = random.pick(&[0.5, 0.25, 0.1]);
    two_stars(9, Some(step), random)
}

/// Squares one within the other, each layer every other one: holes in holes.
fn nested_squares(random: &mut Random) -> Sheet {
    let shift = random.pick(&[0.0, 0.25, 0.5, 1.0]);
    let mut made = Sheet::new();
    for k in 0..2 + random.below(6) as u32 {
        let far = 10.0 - k as f64 - if random.one_in(5) { shift } else { 0.0 };
        let subject = if random.one_in(3) { k % 2 == 0 } else { layer(random) };
        made.extend(ring(&rectangle([-far, -far], [2.0 * far, 2.0 * far]), subject, k, random));
    }
    made
}

/// Triangles and squares that share one corner.
fn rings_at_one_point(random: &mut Random) -> Sheet {
    (0..2 + random.below(5) as u32)
        .flat_map(|number| {
            let corner = |random: &mut Random| [random.whole(4), random.whole(4)];
            let corners = [[0.0, 0.0], corner(random), corner(random)];
            ring(&corners, layer(random), number, random)
        })
        .collect()
}

/// Long strips, nearly parallel.
fn strips(random: &mut Random) -> Sheet {
    (0..2 + random.below(4) as u32)
        .flat_map(|number| {
            let (y, rise, height) = (random.unit(), 1e-3 * (random.unit() - 0.5), 0.01 + 0.2 * random.unit());
            let far = 100.0 * (1.0 + random.unit());
            let corners = [[-far, y], [far, y + rise], [far, y + rise + height], [-far, y + height]];
            ring(&corners, number % 2 == 0, number, random)
        })
        .collect()
}

/// Edges that close nothing.
fn edge_soup(random: &mut Random) -> Sheet {
    let whole = random.one_in(2);
    (0..2 + random.below(7) as u32)
        .map(|number| {
            let mut point = || {
                if whole { [random.whole(4), random.whole(4)] } else { [random.unit() * 4.0, random.unit() * 4.0] }
            };
            let (from, to) = (point(), point());
            Edge { subject: layer(random), ring: number % 3, from, to }
        })
        .collect()
}

fn edges_both_ways(random: &mut Random) -> Sheet {
    (0..1 + random.below(3) as u32)
        .flat_map(|number| {
            let (from, to) = ([random.whole(4), random.whole(4)], [random.whole(4), random.whole(4)]);
            let subject = layer(random);
            [Edge { subject, ring: number, from, to }, Edge { subject, ring: number, from: to, to: from }]
        })
        .collect()
}

/// Pairs of segments as the single calls have them.
fn scenes(random: &mut Random) -> Sheet {
    (0..1 + random.below(2) as u32)
        .flat_map(|number| {
            let pick = random.bits();
            let [a, b, c, d] = scene(pick, random);
            [
                Edge { subject: layer(random), ring: number, from: a, to: b },
                Edge { subject: layer(random), ring: number + 1, from: c, to: d },
            ]
        })
        .collect()
}

fn tiny_and_huge(random: &mut Random) -> Sheet {
    let scale = random.pick(&[2f64.powi(-300), 2f64.powi(-1070), 2f64.powi(90), 2f64.powi(40)]);
    let mut made = two_stars(5, None, random);
    for edge in &mut made {
        edge.from = edge.from.map(|x| x * scale);
        edge.to = edge.to.map(|x| x * scale);
    }
    made
}

fn one_layer(random: &mut Random) -> Sheet {
    let mut made = if random.one_in(2) { triangles(random) } else { stars(random) };
    let subject = layer(random);
    made.iter_mut().for_each(|edge| edge.subject = subject);
    made
}

/// Rooms of a gallery, a gap between them, and strips that begin or end at their walls.
fn strips_along_walls(random: &mut Random) -> Sheet {
    let (columns, rows) = (1 + random.below(3), 1 + random.below(3));
    let [x, y] = [columns, rows].map(|n| 5 * n);
    let mut made = Sheet::new();
    for room in 0..columns * rows {
        let corner = [5.0 * (room % columns) as f64, 5.0 * (room / columns) as f64];
        let size = [4.0, 3.0 + random.below(2) as f64];
        made.extend(ring(&rectangle(corner, size), true, room as u32, random));
    }
    for strip in 0..1 + random.below(3) as u32 {
        let corner = [random.below(x) as f64, random.below(y) as f64];
        let size = [1.0 + random.below(x) as f64, 1.0 + random.below(4) as f64];
        made.extend(ring(&rectangle(corner, size), false, 100 + strip, random));
    }
    made
}

type Named = (bool, &'static [Point]);

/// Smallest sheets that the documents name: rings of a layer, of two corners where an edge is listed both ways, and
/// edges alone.
const NAMED_RINGS: &[&[Named]] = &[
    // Refusal 8 as an intersection, and 9 as a xor.
    &[(true, &[[0.0, 1.0], [3.0, 4.0]]), (false, &[[1.0, 3.0], [2.0, 2.0]])],
    &[(true, &[[0.0, 5.0], [4.0, 2.0]]), (false, &[[1.0, 2.0], [2.0, 4.0]])],
    // Closed layers that give open contours.
    &[(true, &[[7.0, 6.0], [3.0, 3.0], [0.0, 1.0]]), (false, &[[6.0, 0.0], [5.0, 0.0], [1.0, 6.0]])],
    // A room that is told as a hole of another.
    &[
        (true, &[[0.0, 0.0], [4.0, 0.0], [4.0, 3.0], [0.0, 3.0]]),
        (true, &[[0.0, 4.0], [4.0, 4.0], [4.0, 7.0], [0.0, 7.0]]),
        (false, &[[0.0, 0.0], [1.0, 0.0], [1.0, 3.0], [0.0, 3.0]]),
    ],
];
/// Refusal 7, with nothing in the other layer.
const NAMED_EDGES: [[Point; 2]; 4] =
    [[[2.0, 2.0], [2.0, 0.0]], [[3.0, 1.0], [2.0, 3.0]], [[3.0, 2.0], [1.0, 3.0]], [[3.0, 3.0], [0.0, 0.0]]];

/// 8n edges and 8n^2 divisions: with n = 8 more than a sheet's pool has places for.
fn strips_across_strips(n: u32, random: &mut Random) -> Sheet {
    let far = 4.0 * n as f64;
    let upright: Sheet =
        (0..n).flat_map(|i| ring(&rectangle([4.0 * i as f64, 0.0], [2.0, far]), true, i, random)).collect();
    let level = (0..n).flat_map(|i| ring(&rectangle([-1.0, 4.0 * i as f64 + 1.0], [far, 2.0]), false, i, random));
    upright.into_iter().chain(level).collect()
}

/// At another scale, and with the layers in each other's place.
fn named(random: &mut Random) -> Sheet {
    let mut made = match random.below(24) {
        0 => strips_across_strips(8, random),
        1..8 => NAMED_EDGES.map(|[from, to]| Edge { subject: true, ring: 0, from, to }).to_vec(),
        _ => {
            let rings = random.pick(NAMED_RINGS);
            rings.iter().zip(0..).flat_map(|((subject, corners), number)| ring(corners, *subject, number, random)).collect()
        }
    };
    let scale = random.pick(&[1.0, 1.0, 0.5, 3.0, 2f64.powi(-20)]);
    let is_other_way = random.one_in(4);
    for edge in &mut made {
        edge.from = edge.from.map(|x| x * scale);
        edge.to = edge.to.map(|x| x * scale);
        edge.subject ^= is_other_way;
    }
    made
}

/// At least 64 edges and, mostly, more than 50 divisions; rarer, since a run of it is long.
fn many_crossings(random: &mut Random) -> Sheet {
    if !random.one_in(3) {
        return two_stars(12, None, random);
    }
    let n = 32 + random.below(48);
    crossing_stars(n, random)
}

/// Two rings of n corners that cross each other about n times.
pub fn crossing_stars(n: u64, random: &mut Random) -> Sheet {
    [true, false]
        .into_iter()
        .flat_map(|subject| {
            let star = star(n, [0.01 * random.unit(), 0.01 * random.unit()], 2.0, None, random);
            ring(&star, subject, subject as u32, random)
        })
        .collect()
}
