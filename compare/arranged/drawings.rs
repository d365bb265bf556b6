//! Drawings on standard output: drawings COUNT SEED. Each after its length in 4 bytes, its family in a line and then its sheet.
use inputs::drawings::{drawing, Drawing};
use inputs::random::Random;
use inputs::texts::sheet_text;
use std::io::Write;

fn main() -> std::io::Result<()> {
    let args: Vec<u64> = std::env::args().skip(1).filter_map(|word| word.parse().ok()).collect();
    let [count, seed] = args[..] else {
        eprintln!("usage: drawings COUNT SEED");
        std::process::exit(2)
    };
    let mut random = Random(seed);
    let mut out = std::io::BufWriter::new(std::io::stdout());
    for number in 0..count {
        let Drawing { family, operation, sheet } = drawing(number, &mut random);
        let text = format!("{family}\n{}", sheet_text(&sheet, operation));
        out.write_all(&(text.len() as u32).to_le_bytes())?;
        out.write_all(text.as_bytes())?;
    }
    out.flush()
}
