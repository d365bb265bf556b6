//! Our archives beside the Rust, published and wrapped, GEOS and Clipper: one process, the same plans, the union of their
//! layers. `speed` prints the tables; exit status 1 if a map is not the wrapped Rust's. `speed FAMILY EDGES TIMES` only runs our three
//! stages over and over, for a profiler.
mod calls;
mod clock;
mod peers;
mod plan;
mod stages;
mod tables;

#[allow(dead_code)]
#[path = "../linked/entries.rs"]
mod entries;

#[allow(dead_code)]
#[path = "."]
mod published {
    use geo_booleanop::boolean;
    #[path = "theirs.rs"]
    pub mod theirs;
}

#[allow(dead_code)]
#[path = "."]
mod wrapped {
    use geo_booleanop_ordered::boolean;
    #[path = "theirs.rs"]
    pub mod theirs;
}

use inputs::plans::{APART, CROSSING};
use plan::Plan;
use stages::Stages;

const SEED: u64 = 1;
/// A sheet's pool, and the largest one.
const SHEET: usize = 1024;
const LARGEST: usize = 4096;

fn main() {
    let words: Vec<String> = std::env::args().skip(1).collect();
    match &words[..] {
        [] => std::process::exit(!tables::print() as i32),
        [family, edges, times] => again(family, edges.parse().unwrap_or(0), times.parse().unwrap_or(0)),
        _ => {
            eprintln!("usage: speed [FAMILY EDGES TIMES]");
            std::process::exit(2)
        }
    }
}

fn again(name: &str, edges: u64, times: u64) {
    let Some(&(name, family)) = CROSSING.iter().chain(APART).find(|(known, _)| *known == name) else {
        eprintln!("no family {name}");
        std::process::exit(2)
    };
    let plan = Plan::of(name, family, edges);
    let mut stages = Stages::of(&plan.sheet, if edges <= 256 { SHEET } else { LARGEST });
    for _ in 0..times {
        stages.run();
    }
}
