//! Two states of our archives in one process, on the benchmark's plans: whole sheets from bytes to bytes, then load, sweep and
//! connection alone. Exit status 1 if a map is not the same.
mod clock;

use before::Stages as Before;
use clock::{at_once, quickest, Way};
use inputs::plans::{Family, APART, CROSSING};
use inputs::random::Random;
use inputs::sheets::Sheet;
use inputs::texts::sheet_text;
use now::Stages as Now;
use std::cell::RefCell;

const SEED: u64 = 1;
const SHEETS: [u64; 3] = [16, 64, 256];
const CROSSING_EDGES: u64 = 1024;
const APART_EDGES: u64 = 2048;
/// The largest pool.
const POOL: usize = 4096;
/// As many bytes as a map of 256 edges can take.
const OUT: usize = 1 << 16;

fn main() {
    println!("Microseconds.\n\n| family | edges | | before | now | now / before |\n|---|---|---|---|---|---|");
    let mut alike = true;
    for (name, family) in CROSSING.iter().chain(APART) {
        for edges in SHEETS {
            alike &= whole(name, &plan(*family, edges));
        }
    }
    for (list, edges) in [(CROSSING, CROSSING_EDGES), (APART, APART_EDGES)] {
        for (name, family) in list {
            alike &= stages(name, &plan(*family, edges));
        }
    }
    std::process::exit(!alike as i32)
}

fn plan(family: Family, edges: u64) -> Sheet {
    family(edges, &mut Random(SEED))
}

fn row(name: &str, edges: usize, what: &str, [before, now]: [f64; 2], alike: bool) -> bool {
    let told = if alike { "" } else { " the maps differ" };
    println!("| {name} | {edges} | {what} | {before:.1} | {now:.1} | {:.3} |{told}", now / before);
    alike
}

/// From bytes to bytes.
fn whole(name: &str, sheet: &Sheet) -> bool {
    let text = sheet_text(sheet, "union").into_bytes();
    let out = RefCell::new(vec![0; OUT]);
    let old = || before::overlay(&text, &mut out.borrow_mut());
    let new = || now::overlay(&text, &mut out.borrow_mut());
    let times = quickest([at_once(|| _ = old()), at_once(|| _ = new())]);
    // What the call before left in the bytes is no answer.
    let map = |entry: &dyn Fn() -> u64| {
        out.borrow_mut().fill(0);
        let length = entry() as usize;
        out.borrow()[..length].to_vec()
    };
    row(name, sheet.len(), "bytes", times, map(&old) == map(&new))
}

/// Over arrays that are made ready before the clock starts.
fn stages(name: &str, sheet: &Sheet) -> bool {
    let (old, new) = (RefCell::new(Before::of(sheet, POOL)), RefCell::new(Now::of(sheet, POOL)));
    let times = quickest([
        Way { prepare: Box::new(|| old.borrow_mut().restore()), run: Box::new(|| old.borrow_mut().run()) },
        Way { prepare: Box::new(|| new.borrow_mut().restore()), run: Box::new(|| new.borrow_mut().run()) },
    ]);
    let alike = old.borrow().corners() == new.borrow().corners();
    row(name, sheet.len(), "stages", times, alike)
}
