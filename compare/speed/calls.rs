//! Nanoseconds a call, ours beside the Rust's, on the same inputs in one run.
use crate::clock::now;
use crate::entries::{crossing, crossing_ordered, orientation};
use crate::{published, wrapped};
use inputs::families::{self, Family};
use inputs::random::Random;
use inputs::Scene;
use std::hint::black_box;

const SCENES: u64 = 20_000;
const ROUNDS: usize = 15;

const ORIENTATION: &[(&str, Family)] = &[
    ("ordinary", families::ordinary),
    ("axis-parallel", families::axis_parallel),
    ("collinear slanted", families::collinear_slanted),
    ("computed on a line", families::computed_on_a_line),
];

/// A stand-in slower than this on ordinary input would make no baseline.
const BASELINE: f64 = 15.0;

pub fn print(seed: u64) {
    println!("Single calls, nanoseconds\n\n| call | ours | the Rust | ratio |\n|---|---|---|---|");
    let mut standin = vec![];
    for (name, family) in ORIENTATION {
        let scenes = made(|_, random| family(random), seed);
        let times = both(&scenes, orientation, published::theirs::calls::orientation);
        row(&format!("orientation, {name} (stand-in for `robust`)"), times);
        standin.push(times[1]);
    }
    let scenes = made(families::scene, seed);
    row("crossing, all families", both(&scenes, crossing, published::theirs::calls::crossing));
    row("ordered crossing, all families (wrapped Rust)", both(&scenes, crossing_ordered, wrapped::theirs::calls::crossing));
    let verdict = if standin[0] <= BASELINE { "a baseline" } else { "too slow for a baseline" };
    println!("\nThe stand-in for `robust`, ordinary input: {:.1} ns a call, {verdict} (at most {BASELINE})", standin[0]);
}

fn row(call: &str, [ours, rust]: [f64; 2]) {
    println!("| {call} | {ours:.1} | {rust:.1} | {:.2} |", ours / rust);
}

fn made(scene: impl Fn(u64, &mut Random) -> Scene, seed: u64) -> Vec<Scene> {
    let mut random = Random(seed);
    (0..SCENES).map(|i| scene(i, &mut random)).collect()
}

/// The quickest of some rounds each, taken in turn so that both meet the same machine.
fn both<A>(scenes: &[Scene], ours: impl Fn(Scene) -> A, rust: impl Fn(Scene) -> A) -> [f64; 2] {
    let mut best = [f64::INFINITY; 2];
    for _ in 0..ROUNDS {
        best[0] = best[0].min(round(scenes, &ours));
        best[1] = best[1].min(round(scenes, &rust));
    }
    best
}

fn round<A>(scenes: &[Scene], call: &impl Fn(Scene) -> A) -> f64 {
    let start = now();
    for scene in scenes {
        black_box(call(black_box(*scene)));
    }
    (now() - start) as f64 / scenes.len() as f64
}
