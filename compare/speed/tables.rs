//! The tables, as the documents hold them.
use crate::clock::{at_once, quickest, Way};
use crate::peers::Rings;
use crate::plan::{Known, Plan};
use crate::stages::{arrange, overlay, overlay_arranged, Stages};
use crate::{calls, published, wrapped, LARGEST, SEED, SHEET};
use inputs::plans::{APART, CROSSING};
use std::cell::RefCell;
use std::hint::black_box;

const SHEETS: [u64; 5] = [16, 32, 64, 128, 256];
const ARRAYS: [u64; 3] = [256, 512, 1024];
const APART_EDGES: u64 = 2048;
/// As many as a map of 256 edges can take.
const OUT: usize = 1 << 16;

/// Whether every map was the wrapped Rust's.
pub fn print() -> bool {
    calls::print(SEED);
    let mut alike = sheets();
    alike &= arranging();
    let crossing = CROSSING.iter().flat_map(|(name, family)| ARRAYS.map(|edges| Plan::of(name, *family, edges)));
    let apart = APART.iter().map(|(name, family)| Plan::of(name, *family, APART_EDGES));
    let plans: Vec<Plan> = crossing.chain(apart).collect();
    alike &= arrays(&plans);
    peers(&plans);
    alike
}

fn head(title: &str, columns: &[&str]) {
    println!("\n{title}\n\n| {} |\n|{}", columns.join(" | "), "---|".repeat(columns.len()));
}

fn row(plan: &Plan, known: &Known, times: &[f64], ratios: &[f64]) {
    let times: String = times.iter().map(|t| format!(" {t:.1} |")).collect();
    let ratios: String = ratios.iter().map(|r| format!(" {r:.2} |")).collect();
    let Known { edges, divisions, largest_status, alike } = known;
    println!(
        "| {} | {edges} | {divisions} | {largest_status} |{times}{ratios}{}",
        plan.name,
        if *alike { "" } else { " the maps differ" }
    );
}

/// Our three stages, over arrays that are made ready before the clock starts.
fn our_stages(stages: &RefCell<Stages>) -> Way<'_> {
    Way { prepare: Box::new(|| stages.borrow_mut().restore()), run: Box::new(|| stages.borrow_mut().run()) }
}

fn our_connection(stages: &RefCell<Stages>) -> Way<'_> {
    let swept = || {
        let mut stages = stages.borrow_mut();
        stages.restore();
        stages.sweep();
    };
    Way { prepare: Box::new(swept), run: Box::new(|| stages.borrow_mut().connect()) }
}

/// The published code, from edges to contours.
fn rust(plan: &Plan) -> Way<'_> {
    at_once(|| drop(black_box(published::theirs::contours(&plan.sheet))))
}

/// The same over the wrapped crossing, whose map is ours.
fn wrapped_rust(plan: &Plan) -> Way<'_> {
    at_once(|| drop(black_box(wrapped::theirs::contours(&plan.sheet))))
}

fn sheets() -> bool {
    head(
        "Sheets, microseconds. Ours from bytes to bytes, and its load, sweep and connection alone; the Rust from edges already read to contours",
        &[
            "family", "edges", "divisions", "largest status", "ours, bytes", "ours, stages", "the Rust", "wrapped Rust",
            "bytes / Rust", "stages / Rust", "stages / wrapped",
        ],
    );
    let mut alike = true;
    for (name, family) in CROSSING {
        for edges in SHEETS {
            let plan = Plan::of(name, *family, edges);
            let known = plan.known(SHEET);
            let (text, mut out) = (plan.text(), vec![0; OUT]);
            let stages = RefCell::new(Stages::of(&plan.sheet, SHEET));
            let times = quickest([
                at_once(|| _ = black_box(overlay(&text, &mut out))),
                our_stages(&stages),
                rust(&plan),
                wrapped_rust(&plan),
            ]);
            let [bytes, ours, rust, wrapped] = times;
            row(&plan, &known, &times, &[bytes / rust, ours / rust, ours / wrapped]);
            alike &= known.alike;
        }
    }
    alike
}

/// Each sheet's lines are shuffled, for what is in order is sooner put in order.
fn arranging() -> bool {
    head(
        "Arranging, microseconds: a sheet with its lines shuffled, laid over, arranged, arranged and laid over in one call",
        &[
            "family", "edges", "divisions", "largest status", "laid over", "arranged", "both in one call", "arranged / laid over",
            "both / laid over",
        ],
    );
    let mut alike = true;
    for (name, family) in CROSSING {
        for edges in SHEETS {
            let plan = Plan::of(name, *family, edges);
            let known = plan.known(SHEET);
            let text = plan.shuffled().text();
            let (mut plain, mut one, mut two) = (vec![0; OUT], vec![0; OUT], vec![0; OUT]);
            let sheet = RefCell::new(text.clone());
            let times = quickest([
                at_once(|| _ = black_box(overlay(&text, &mut plain))),
                Way { prepare: Box::new(|| sheet.borrow_mut().copy_from_slice(&text)), run: Box::new(|| arrange(&mut sheet.borrow_mut())) },
                at_once(|| _ = black_box(overlay_arranged(&text, &mut one))),
            ]);
            let [over, arranged, both] = times;
            row(&plan, &known, &times, &[arranged / over, both / over]);
            let length = overlay(&sheet.borrow(), &mut two) as usize;
            alike &= one[..length] == two[..length] && sheet.into_inner() != text;
        }
    }
    alike
}

fn arrays(plans: &[Plan]) -> bool {
    head(
        "Arrays of numbers through the C entries, microseconds: loading, the sweep and connection, and of it connection",
        &[
            "family", "edges", "divisions", "largest status", "ours", "the Rust", "wrapped Rust", "ours, connection", "wrapped Rust's",
            "ours / Rust", "ours / wrapped", "of connection",
        ],
    );
    let mut alike = true;
    for plan in plans {
        let known = plan.known(LARGEST);
        let stages = RefCell::new(Stages::of(&plan.sheet, LARGEST));
        let swept = wrapped::theirs::sweep(&plan.sheet);
        let times = quickest([
            our_stages(&stages),
            rust(plan),
            wrapped_rust(plan),
            our_connection(&stages),
            at_once(|| drop(black_box(wrapped::theirs::connect(&swept)))),
        ]);
        let [ours, rust, wrapped, connection, wrapped_connection] = times;
        row(plan, &known, &times, &[ours / rust, ours / wrapped, connection / wrapped_connection]);
        alike &= known.alike;
    }
    alike
}

fn peers(plans: &[Plan]) {
    head(
        "Beside GEOS (binary64) and Clipper (whole multiples of 2^-20), each from arrays of numbers to its own polygons; microseconds",
        &["family", "edges", "divisions", "largest status", "ours", "the Rust", "GEOS", "Clipper", "ours / GEOS", "ours / Clipper"],
    );
    let smaller = CROSSING.iter().flat_map(|(name, family)| [16, 32, 64, 128].map(|edges| Plan::of(name, *family, edges)));
    for plan in smaller.collect::<Vec<_>>().iter().chain(plans) {
        let size = if plan.sheet.len() < 256 { SHEET } else { LARGEST };
        let stages = RefCell::new(Stages::of(&plan.sheet, size));
        let rings = Rings::of(&plan.sheet);
        let times = quickest([
            our_stages(&stages),
            rust(plan),
            at_once(|| _ = black_box(rings.geos())),
            at_once(|| _ = black_box(rings.clipper())),
        ]);
        let [ours, _, geos, clipper] = times;
        row(plan, &plan.known(size), &times, &[ours / geos, ours / clipper]);
    }
}
