//! The text of a sheet (01, 'The sheet').
use crate::sheets::Edge;
use std::fmt::Write;

pub const LAYERS: [(&str, bool); 2] = [("subject", true), ("clip", false)];

pub fn bits(numbers: &[f64]) -> String {
    numbers.iter().map(|x| format!("{:016x}", x.to_bits())).collect::<Vec<_>>().join(" ")
}

pub fn sheet_text(sheet: &[Edge], operation: &str) -> String {
    let mut text = format!("operation {operation}\n");
    for (word, subject) in LAYERS {
        let layer: Vec<&Edge> = sheet.iter().filter(|e| e.subject == subject).collect();
        writeln!(text, "{word} {}", layer.len()).expect("a string takes it");
        for e in layer {
            writeln!(text, "{} {} {}", e.ring, bits(&e.from), bits(&e.to)).expect("a string takes it");
        }
    }
    text
}
