//! What a sheet gives by the Rust, map or refusal, for expected texts: nothing of ours has a part in it.
use super::boolean::Operation;
use super::contours::{by_the_rust, Theirs};
use super::entries::Refused;
use super::events::{Event, Numbers};
use super::texts::{map_text, operation_word};
use super::{clean, sweep, OPERATIONS};
use inputs::sheets::{Edge, Sheet};
use inputs::texts::LAYERS;

/// Edges of a sheet and places of its pool.
const MAX_EDGES: usize = 256;
const POOL: usize = 1024;

/// Who made the list that was connected.
pub enum By {
    Subdivide,
    /// Where a run is not clean, 01's rules over the Rust's leaves.
    Rules,
}

impl By {
    pub fn words(&self) -> &'static str {
        match self {
            By::Subdivide => "by subdivide",
            By::Rules => "by the rules",
        }
    }
}

pub struct Expected {
    pub answer: Result<String, Refused>,
    pub by: By,
}

/// The map of a clean run, if it is not refused as a sheet; it depends on no numbering.
pub fn of_a_clean_run(sheet: &[Edge], divisions: usize, theirs: &Theirs) -> Option<String> {
    let fits = sheet.len() <= MAX_EDGES && 2 * (sheet.len() + divisions) <= POOL;
    (fits && theirs.refused.is_none()).then(|| map_text(&theirs.contours))
}

/// Of edges that load, subject first.
pub fn expected(sheet: &[Edge], operation: Operation) -> Expected {
    // The line of the count that passes the limit: the second is after the subject's edges.
    let subject = sheet.iter().filter(|e| e.subject).count();
    if sheet.len() > MAX_EDGES {
        let line = if subject > MAX_EDGES { 2 } else { 3 + subject };
        return Expected { answer: Err((1, line as u64)), by: By::Rules };
    }
    let run = clean::sweep(sheet, operation, POOL);
    if let Some(refused) = run.refused {
        return Expected { answer: Err(refused), by: By::Rules };
    }
    if run.unclean.is_some() {
        return Expected { answer: connected(&run.taken, &run), by: By::Rules };
    }
    Expected { answer: connected(&sweep::by_the_rust(sheet, operation).taken, &run), by: By::Subdivide }
}

/// Events that are listed stand at the places of the run's, whose numbers are known.
fn connected(listed: &[Event], run: &clean::Run) -> Result<String, Refused> {
    let theirs = by_the_rust(listed);
    let (places, numbers) = (Numbers::of(listed), Numbers::of(&run.all));
    let number = |event: &Event| numbers.get(&run.taken[places.get(event)?]);
    match theirs.refused {
        None => Ok(map_text(&theirs.contours)),
        Some(struck) => Err(struck.told(number)),
    }
}

/// What a sheet's text gives, and what is to be known of it; or why nothing is known.
pub fn map(text: &str) -> Result<(String, Vec<String>), String> {
    let (operation, sheet) = read(text).ok_or("no sheet")?;
    if let Some((number, edge)) = sheet.iter().enumerate().find_map(|(i, edge)| Some((strikes(edge)?, i))) {
        return Ok((format!("refused {number} at {edge}\n"), vec![]));
    }
    match expected(&sheet, operation).answer {
        Ok(map) => Ok((map.clone(), remarks(&clean::sweep(&sheet, operation, POOL), &map))),
        Err((number, place)) => Ok((format!("refused {number} at {place}\n"), vec![])),
    }
}

fn remarks(run: &clean::Run, text: &str) -> Vec<String> {
    let not_clean = run.unclean.map(|why| format!("not clean, {why:?}: by 01's rules over the Rust's leaves, not by its subdivide"));
    let tied = run.tied.then(|| "a tie was taken: another numbering may give another map".to_string());
    let zero = text.contains("8000000000000000").then(|| "it holds a minus zero, whose sign is open".to_string());
    [not_clean, tied, zero].into_iter().flatten().collect()
}

fn read(text: &str) -> Option<(Operation, Sheet)> {
    let mut lines = text.lines();
    let word = lines.next()?.strip_prefix("operation ")?;
    let operation = *OPERATIONS.iter().find(|operation| operation_word(**operation) == word)?;
    let mut sheet = Sheet::new();
    for (layer, subject) in LAYERS {
        let count: usize = lines.next()?.strip_prefix(layer)?.trim().parse().ok()?;
        for _ in 0..count {
            sheet.push(read_edge(lines.next()?, subject)?);
        }
    }
    lines.next().is_none().then_some((operation, sheet))
}

fn read_edge(line: &str, subject: bool) -> Option<Edge> {
    let (ring, bits) = line.split_once(' ')?;
    let numbers: Vec<f64> =
        bits.split(' ').map(|word| u64::from_str_radix(word, 16).map(f64::from_bits)).collect::<Result<_, _>>().ok()?;
    let [ax, ay, bx, by] = numbers[..] else { return None };
    Some(Edge { subject, ring: ring.parse().ok()?, from: [ax, ay], to: [bx, by] })
}

/// Refusals of loading.
fn strikes(edge: &Edge) -> Option<u64> {
    let numbers = [edge.from, edge.to].concat();
    if !numbers.iter().all(|x| x.abs() <= 2f64.powi(100)) {
        Some(2)
    } else if edge.from == edge.to {
        Some(3)
    } else {
        None
    }
}
