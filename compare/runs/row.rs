//! One row of the table: what was compared, what differs, what else was counted, and what it rests on; and the lies
//! that were told to it.
use std::collections::BTreeMap;

pub struct Row {
    name: String,
    rests: &'static str,
    compared: u64,
    differing: u64,
    other: BTreeMap<String, u64>,
    lies: BTreeMap<&'static str, Lie>,
}

/// How often a wrong answer was told in the place of a right one, and found to differ.
#[derive(Default)]
struct Lie {
    told: u64,
    found: u64,
}

impl Lie {
    fn is_found(&self) -> bool {
        self.told > 0 && self.found == self.told
    }
}

/// A name, and what makes an answer wrong: false where there is nothing that it could change.
pub type Tale<T> = (&'static str, fn(&mut T) -> bool);

impl Row {
    pub fn of(name: String, rests: &'static str) -> Row {
        Row { name, rests, compared: 0, differing: 0, other: BTreeMap::new(), lies: BTreeMap::new() }
    }

    /// An answer, and what must not be taken for it.
    pub fn add<T: Clone>(&mut self, number: u64, answer: &T, tales: &[Tale<T>], is_alike: impl Fn(&T) -> bool) {
        self.compared += 1;
        if !is_alike(answer) {
            self.differing += 1;
            if self.differing <= 5 {
                println!("{} differs: number {number}", self.name);
            }
            return;
        }
        for (name, tell) in tales {
            let lie = self.lies.entry(name).or_default();
            let mut wrong = answer.clone();
            if tell(&mut wrong) {
                lie.told += 1;
                lie.found += !is_alike(&wrong) as u64;
            }
        }
    }

    pub fn count(&mut self, what: &str) {
        *self.other.entry(what.to_string()).or_default() += 1;
    }

    pub fn print(&self) {
        let other: Vec<String> = self.other.iter().map(|(what, n)| format!("{what}: {n}")).collect();
        println!("| {} | {} | {} | {} | {} |", self.name, self.compared, self.differing, other.join(", "), self.rests);
    }

    pub fn print_lies(&self) {
        let counts: Vec<String> = self.lies.iter().map(|(name, lie)| format!("{name}: {} of {}", lie.found, lie.told)).collect();
        println!("| {} | {} |", self.name, counts.join(", "));
    }

    /// Every lie is told, and found each time it is told; these are not.
    pub fn lies_not_found(&self) -> impl Iterator<Item = String> + '_ {
        let missed = self.lies.iter().filter(|(_, lie)| !lie.is_found());
        missed.map(|(name, lie)| format!("{}: a lie is not found, '{name}', told {} times", self.name, lie.told))
    }

    pub fn is_good(&self) -> bool {
        self.compared > 0 && self.differing == 0
    }
}
