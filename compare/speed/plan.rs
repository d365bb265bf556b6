//! One plan: what is known of it, and that all who compute its union say the same.
use crate::peers::Rings;
use crate::stages::Stages;
use crate::wrapped::theirs;
use crate::SEED;
use inputs::plans::Family;
use inputs::random::Random;
use inputs::sheets::Sheet;

pub struct Plan {
    pub name: &'static str,
    pub sheet: Sheet,
}

/// What of a plan stands in each row, and whether our map is the wrapped Rust's and its area that of the peers.
pub struct Known {
    pub edges: usize,
    pub divisions: usize,
    pub largest_status: i64,
    pub alike: bool,
}

impl Plan {
    pub fn of(name: &'static str, family: Family, edges: u64) -> Plan {
        Plan { name, sheet: family(edges, &mut Random(SEED)) }
    }

    pub fn known(&self, size: usize) -> Known {
        let mut stages = Stages::of(&self.sheet, size);
        stages.run();
        let rings = Rings::of(&self.sheet);
        let peers = [rings.geos(), rings.clipper()];
        let (corners, wanted) = (stages.corners(), theirs::corners(&self.sheet));
        let is_area = |area: f64| peers.iter().all(|peer| (peer - area).abs() < 1e-4 * area);
        // A wrong map, which must be found to differ.
        let mut lie = corners.clone();
        lie[0][0][0] = lie[0][0][0].next_up();
        Known {
            edges: self.sheet.len(),
            divisions: stages.divisions(),
            largest_status: stages.largest_status(),
            alike: corners == wanted && lie != wanted && is_area(stages.area()) && !is_area(1.001 * stages.area()),
        }
    }

    /// The same drawing saved in another way: its edges in another order, each from either end.
    pub fn shuffled(&self) -> Plan {
        let mut random = Random(SEED);
        let mut sheet = self.sheet.clone();
        for i in (1..sheet.len()).rev() {
            sheet.swap(i, random.below(i as u64 + 1) as usize);
        }
        for edge in &mut sheet {
            if random.one_in(2) {
                (edge.from, edge.to) = (edge.to, edge.from);
            }
        }
        Plan { name: self.name, sheet }
    }

    /// The text that `overlay` reads.
    pub fn text(&self) -> Vec<u8> {
        let mut text = String::from("operation union\n");
        for (layer, subject) in [("subject", true), ("clip", false)] {
            let edges: Vec<_> = self.sheet.iter().filter(|e| e.subject == subject).collect();
            text += &format!("{layer} {}\n", edges.len());
            for e in edges {
                let [a, b, c, d] = [e.from[0], e.from[1], e.to[0], e.to[1]].map(f64::to_bits);
                text += &format!("{} {a:016x} {b:016x} {c:016x} {d:016x}\n", e.ring);
            }
        }
        text.into_bytes()
    }
}
