//! All sheets and lists in one mode, beside the Rust that the module above names.
mod clean;
mod contours;
mod entries;
mod events;
mod lies;
mod lists;
pub mod maps;
mod meeting;
// Counted of the wrapped Rust only.
#[allow(dead_code)]
pub mod nesting;
mod sweep;
mod texts;

use super::{boolean, MODE, RUST};
use crate::row::{Row, Tale};
use boolean::Operation;
use entries::{Bridge, Swept};
use events::Event;
use inputs::random::Random;
use inputs::sheets::{self, Edge};
use inputs::texts::sheet_text;
use maps::Expected;

/// Places of the pool that most runs are lent.
const SIZE: usize = 4096;
const LARGE: &str = "64 edges and 50 divisions or more";
const OPERATIONS: [Operation; 4] = [Operation::Intersection, Operation::Union, Operation::Difference, Operation::Xor];
const ROBUST: &str = "stand-in robust";
const BOTH: &str = "stand-in robust, float_next_after";

struct Rows {
    sweep: Row,
    rules: Row,
    connect: Row,
    overlay: Row,
    tales_of_rules: Vec<Tale<Swept>>,
}

/// The sheet and the operation with a number.
fn numbered_sheet(i: u64, random: &mut Random) -> (sheets::Sheet, Operation) {
    (sheets::sheet(i, random), OPERATIONS[(i / sheets::ALL.len() as u64 % 4) as usize])
}

/// The rows of this mode.
pub fn compare(count: u64, seed: u64, bridge: &[String]) -> Vec<Row> {
    let mut bridge = Bridge::over(bridge);
    let mut random = Random(seed);
    let mut rows = Rows {
        sweep: Row::of(format!("sweep, clean runs, {RUST}'s subdivide"), BOTH),
        rules: Row::of(format!("sweep, all runs, 01's rules over {RUST}'s leaves"), BOTH),
        connect: Row::of(format!("connect, {RUST}'s connect_edges"), ROBUST),
        overlay: Row::of(format!("overlay, all runs, text against {RUST}'s contours"), BOTH),
        tales_of_rules: [lies::OF_THE_SWEEP, lies::OF_THE_RULES].concat(),
    };
    for i in 0..count {
        let (sheet, operation) = numbered_sheet(i, &mut random);
        compare_run(i, &sheet, operation, &mut bridge, &mut random, &mut rows);
        let list = lists::list(i, &mut random);
        compare_list(i, &list.listed, &mut bridge, &mut random, &mut rows.connect);
    }
    let mut all = vec![rows.sweep, rows.rules, rows.connect];
    if MODE == crate::ORDERED {
        all.push(rows.overlay);
    }
    all
}

fn is_large(sheet: &[Edge], divisions: usize) -> bool {
    sheet.len() >= 64 && divisions >= 50
}

/// Now and then few more places than the edges take, so that any division may find none.
fn size_for(sheet: &[Edge], random: &mut Random) -> usize {
    if random.one_in(16) { 2 * sheet.len() + random.below(16) as usize } else { SIZE }
}

fn compare_run(i: u64, sheet: &[Edge], operation: Operation, bridge: &mut Bridge, random: &mut Random, rows: &mut Rows) {
    let size = size_for(sheet, random);
    let run = clean::sweep(sheet, operation, size);
    let swept = bridge.sweep(sheet, operation, MODE, size);
    rows.rules.add(i, &swept, &rows.tales_of_rules, |swept| sweep::is_the_rules(&run, swept));
    if run.tied {
        rows.rules.count("a tie was taken");
    }
    if let Some((number, _)) = run.refused {
        rows.rules.count(&format!("refused {number}"));
        return compare_sheet(i, sheet, operation, None, bridge, &mut rows.overlay);
    }
    if let Some(why) = run.unclean {
        rows.sweep.count(&format!("not clean, {why:?}"));
        compare_list(i, &run.taken, bridge, random, &mut rows.connect);
        return compare_sheet(i, sheet, operation, None, bridge, &mut rows.overlay);
    }
    let theirs = sweep::by_the_rust(sheet, operation);
    rows.sweep.add(i, &swept, lies::OF_THE_SWEEP, |swept| sweep::is_the_rusts(&theirs, swept));
    if is_large(sheet, theirs.divisions) {
        rows.sweep.count(LARGE);
        rows.overlay.count(LARGE);
    }
    let contours = compare_list(i, &theirs.taken, bridge, random, &mut rows.connect);
    compare_sheet(i, sheet, operation, maps::of_a_clean_run(sheet, theirs.divisions, &contours), bridge, &mut rows.overlay);
}

/// Gives back what the Rust made of the list.
fn compare_list(i: u64, listed: &[Event], bridge: &mut Bridge, random: &mut Random, row: &mut Row) -> contours::Theirs {
    let lent = contours::numbered(listed, random);
    let ours = bridge.connect(&lent.pool, &lent.list, contours::room(listed));
    let theirs = contours::by_the_rust(listed);
    row.add(i, &ours, lies::OF_CONNECTION, |ours| contours::is_alike(&lent, &theirs, ours));
    if let Some((number, _)) = ours.refused {
        row.count(&format!("refused {number}"));
    }
    contours::kinds_of_links(listed).into_iter().for_each(|kind| row.count(kind));
    if contours::result_edges(listed) >= 100 {
        row.count("100 result edges or more");
    }
    if contours::hole_depth(&theirs.contours) >= 2 {
        row.count("holes at depth 2 or more");
    }
    theirs
}

/// Sheets are worked in the ordered mode. What is not known of a sheet yet is worked out from its text's edges.
fn compare_sheet(i: u64, sheet: &[Edge], operation: Operation, known: Option<String>, bridge: &mut Bridge, row: &mut Row) {
    if MODE != crate::ORDERED {
        return;
    }
    let in_order = texts::in_order(sheet);
    let ours = bridge.overlay(sheet_text(&in_order, texts::operation_word(operation)).as_bytes(), texts::ROOM);
    let theirs = match known {
        Some(text) => Expected { answer: Ok(text), by: maps::By::Subdivide },
        None => maps::expected(&in_order, operation),
    };
    row.add(i, &ours, lies::OF_TEXTS, |ours| texts::is_alike(ours, &theirs.answer));
    match &theirs.answer {
        Ok(_) => row.count(&format!("{}, {}", texts::operation_word(operation), theirs.by.words())),
        Err((number, _)) => row.count(&format!("refused {number}")),
    }
}
