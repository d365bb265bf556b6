//! Calls the archive's C entries in this process, beside the Rust, on the same inputs: linked COUNT SEED. It compares bit
//! for bit, and asks both modes of crossing for all namings of the same two segments. Exit status 1 if any differ.
mod entries;
mod namings;

#[path = "."]
mod published {
    use geo_booleanop::boolean;
    pub mod calls;
}

#[path = "."]
mod wrapped {
    use geo_booleanop_ordered::boolean;
    #[allow(dead_code)]
    pub mod calls;
}

use entries::Crossed;
use inputs::families::scene;
use inputs::random::Random;
use inputs::Scene;

struct Row {
    name: &'static str,
    differing: u64,
    /// Wrong answers that were told in the place of right ones, and those of them that were found.
    lies: u64,
    found: u64,
}

impl Row {
    fn of(name: &'static str) -> Row {
        Row { name, differing: 0, lies: 0, found: 0 }
    }

    /// An answer and a wrong one; the first few that differ are shown, as bits.
    fn add<T>(&mut self, s: Scene, answer: T, lie: T, is_alike: impl Fn(&T) -> bool) {
        if is_alike(&answer) {
            self.lies += 1;
            self.found += !is_alike(&lie) as u64;
            return;
        }
        self.differing += 1;
        if self.differing <= 5 {
            println!("linked: {} differs: {:016x?}", self.name, s.map(|p| p.map(f64::to_bits)));
        }
    }

    fn print(&self, count: u64) {
        let Row { name, differing, lies, found } = self;
        println!("linked: {name}: compared {count}, differing {differing}; lies found {found} of {lies}");
    }

    fn is_good(&self) -> bool {
        self.differing == 0 && self.lies > 0 && self.found == self.lies
    }
}

struct Rows {
    orientation: Row,
    crossing: Row,
    ordered: Row,
    namings: Row,
    plain_namings: u64,
    /// Of these, in more than the sign of a zero.
    plain_values: u64,
}

fn main() {
    let args: Vec<u64> = std::env::args().skip(1).filter_map(|word| word.parse().ok()).collect();
    let [count, seed] = args[..] else {
        eprintln!("usage: linked COUNT SEED");
        std::process::exit(2)
    };
    let (mut random, mut signs) = (Random(seed), Random(!seed));
    let mut rows = Rows {
        orientation: Row::of("orientation (stand-in robust)"),
        crossing: Row::of("crossing"),
        ordered: Row::of("ordered crossing, with the wrapped Rust"),
        namings: Row::of("ordered crossing, eight namings and zeros of either sign"),
        plain_namings: 0,
        plain_values: 0,
    };
    for i in 0..count {
        let s = scene(i, &mut random);
        compare(s, &mut rows);
        compare_namings(s, signs.bits() as u8, &mut rows);
    }
    let held = [&rows.orientation, &rows.crossing, &rows.ordered, &rows.namings];
    held.iter().for_each(|row| row.print(count));
    println!(
        "linked: plain crossing, the same: {} of {count} scenes have a naming that differs, {} of them in more than a zero's sign",
        rows.plain_namings, rows.plain_values
    );
    // In the plain mode namings differ: if none is found, none is looked for.
    if !held.iter().all(|row| row.is_good()) || rows.plain_namings == 0 {
        std::process::exit(1);
    }
}

/// The sign of zero is left open.
fn is_alike(ours: Option<Crossed>, theirs: Option<Crossed>) -> bool {
    ours.map(Crossed::zeros_alike) == theirs.map(Crossed::zeros_alike)
}

fn compare(s: Scene, rows: &mut Rows) {
    let (sign, wanted) = (entries::orientation(s), published::calls::orientation(s));
    rows.orientation.add(s, sign, sign.map(|sign| if sign == 0 { 1 } else { 0 }), |sign| *sign == wanted);
    let (crossed, wanted) = (entries::crossing(s), published::calls::crossing(s));
    rows.crossing.add(s, crossed, crossed.map(Crossed::another), |crossed| is_alike(*crossed, wanted));
    let (crossed, wanted) = (entries::crossing_ordered(s), wrapped::calls::crossing(s));
    rows.ordered.add(s, crossed, crossed.map(Crossed::another), |crossed| is_alike(*crossed, wanted));
}

fn compare_namings(s: Scene, some: u8, rows: &mut Rows) {
    let ordered = namings::answers(s, some, entries::crossing_ordered);
    let mut lie = ordered.clone();
    let place = some as usize % lie.len();
    lie[place] = lie[place].map(Crossed::another);
    rows.namings.add(s, ordered, lie, |answers| namings::is_one(answers));
    let plain = namings::answers(s, some, entries::crossing);
    let values: Vec<_> = plain.iter().map(|answer| answer.map(Crossed::zeros_alike)).collect();
    rows.plain_namings += !namings::is_one(&plain) as u64;
    rows.plain_values += !namings::is_one(&values) as u64;
}
