//! The Rust side of the comparison: writes calls, and answers them by the published source; in the ordered mode by the
//! same source over the wrapped `intersection`.
mod lines;
mod words;

#[path = "."]
mod published {
    use geo_booleanop::boolean;
    pub mod answers;
}

#[path = "."]
mod wrapped {
    use geo_booleanop_ordered::boolean;
    pub mod answers;
}

use std::io::{self, BufRead, BufWriter, Write};
use words::{plain_twin, Words};

const USAGE: &str = "usage: oracle answers < CALLS | oracle lines FUNCTION COUNT SEED";

fn main() -> io::Result<()> {
    let args: Vec<String> = std::env::args().skip(1).collect();
    let mut out = BufWriter::with_capacity(1 << 20, io::stdout().lock());
    match args.iter().map(String::as_str).collect::<Vec<_>>()[..] {
        ["answers"] => {
            std::panic::set_hook(Box::new(|_| ()));
            for line in io::stdin().lock().lines() {
                writeln!(out, "{}", answer(&line?))?;
            }
        }
        ["lines", function, count, seed] => {
            let (Ok(count), Ok(seed)) = (count.parse(), seed.parse()) else { usage() };
            if !lines::write(function, count, seed, &mut out)? {
                usage();
            }
        }
        _ => usage(),
    }
    out.flush()
}

fn answer(line: &str) -> String {
    let mut words = Words::of(line);
    let function = words.word().unwrap_or_default();
    match plain_twin(function) {
        Some(twin) => wrapped::answers::answer(twin, words),
        None => published::answers::answer(function, words),
    }
}

fn usage() -> ! {
    eprintln!("{USAGE}\nfunctions: {}", lines::FUNCTIONS.join(" "));
    std::process::exit(2)
}
