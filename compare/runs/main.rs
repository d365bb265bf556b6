//! Whole runs: runs COUNT SEED BRIDGE.... The archive's sweep and connection in both modes, and its sheets, behind the
//! command BRIDGE, beside the Rust on the same inputs. Exit status 1 if any differ.
//! runs map MODE < SHEET prints what a sheet gives by the Rust, map or refusal.
//! runs nesting COUNT SEED counts the maps whose parents and depths are wrong.
mod row;

use row::Row;

const PLAIN: u32 = 0;
const ORDERED: u32 = 1;

#[path = "."]
mod published {
    use super::PLAIN as MODE;
    use geo_booleanop::boolean;
    const RUST: &str = "the Rust";
    #[path = "pass.rs"]
    pub mod pass;
}

#[path = "."]
mod wrapped {
    use super::ORDERED as MODE;
    use geo_booleanop_ordered::boolean;
    const RUST: &str = "the wrapped Rust";
    #[path = "pass.rs"]
    pub mod pass;
}

fn main() {
    let words: Vec<String> = std::env::args().skip(1).collect();
    std::panic::set_hook(Box::new(|_| ()));
    let is_good = match &words[..] {
        [word, mode] if word == "map" && mode == "plain" => print_map(published::pass::maps::map),
        [word, mode] if word == "map" && mode == "ordered" => print_map(wrapped::pass::maps::map),
        [word, count, seed] if word == "nesting" => match (count.parse(), seed.parse()) {
            (Ok(count), Ok(seed)) => wrapped::pass::nesting::print(count, seed),
            _ => usage(),
        },
        [count, seed, bridge @ ..] if !bridge.is_empty() => match (count.parse(), seed.parse()) {
            (Ok(count), Ok(seed)) => compare(count, seed, bridge),
            _ => usage(),
        },
        _ => usage(),
    };
    std::process::exit(!is_good as i32);
}

fn usage() -> ! {
    eprintln!("usage: runs COUNT SEED BRIDGE... | runs map plain|ordered < SHEET | runs nesting COUNT SEED");
    std::process::exit(2)
}

fn compare(count: u64, seed: u64, bridge: &[String]) -> bool {
    let mut rows = published::pass::compare(count, seed, bridge);
    rows.extend(wrapped::pass::compare(count, seed, bridge));
    println!("| whole runs | compared | differing | of these, and beside them | rests on |");
    println!("|---|---|---|---|---|");
    rows.iter().for_each(Row::print);
    println!("\n| whole runs | lies that were told in the place of a right answer, and how many of them were found |");
    println!("|---|---|");
    rows.iter().for_each(Row::print_lies);
    let missed: Vec<String> = rows.iter().flat_map(Row::lies_not_found).collect();
    missed.iter().for_each(|line| println!("{line}"));
    rows.iter().all(Row::is_good) && missed.is_empty()
}

fn print_map(map: fn(&str) -> Result<(String, Vec<String>), String>) -> bool {
    let text = std::io::read_to_string(std::io::stdin()).expect("a sheet is text");
    match map(&text) {
        Ok((map, remarks)) => {
            remarks.iter().for_each(|remark| eprintln!("runs: {remark}"));
            print!("{map}");
            true
        }
        Err(why) => {
            eprintln!("runs: no map, {why}");
            false
        }
    }
}
