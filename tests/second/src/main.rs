//! Second implementation of linebox, written from documents 01 and 02 and the readings noted in docs/DECISIONS.md, not from the crates.
//! See README.md for how to run each part.

mod captures;
mod compare;
mod crc;
mod display;
mod dle;
mod escape;
mod expansion;
mod gate;
mod gen;
mod listing;
mod mdu;
mod packing;
mod pcs;
mod record;
mod stream;
mod sum;
#[cfg(test)]
mod tests;
mod vectors;
mod whole;

use std::env;
use std::io::{self, Read, Write};
use std::path::Path;
use std::process::ExitCode;
use vectors::Part;

const USAGE: &str = "usage: second listing < input
       second compare SEED COUNT
       second captures DIR SEED COUNT
       second calls PART
       second vectors PART
       second generated DIR SEED COUNT
PART is values, links, gate, display or records";

#[cfg(feature = "host")]
fn run_compare(seed: u64, count: u64) -> ExitCode {
    finish(compare::compare(&compare::linked::Linked, seed, count))
}

#[cfg(not(feature = "host"))]
fn run_compare(seed: u64, count: u64) -> ExitCode {
    eprintln!("built without the feature `host`: comparing this implementation with itself only");
    let _ = finish(compare::compare(&compare::Own, seed, count));
    ExitCode::from(2)
}

/// Files of generated lines; fails if an answer that a call can give is not among them.
fn run_generated(folder: &str, seed: u64, count: usize) -> ExitCode {
    match vectors::generate(Path::new(folder), seed, count) {
        Err(error) => {
            eprintln!("{error}");
            ExitCode::FAILURE
        }
        Ok(tally) => {
            print!("seed {seed}, {count} sequences of each sort\n{}", tally.table());
            let missing = tally.missing();
            for line in &missing {
                println!("{line}");
            }
            if missing.is_empty() {
                ExitCode::SUCCESS
            } else {
                ExitCode::FAILURE
            }
        }
    }
}

/// Files of captures; fails if a sort of PCS frames is not among their messages.
fn run_captures(folder: &str, seed: u64, count: usize) -> ExitCode {
    match captures::captures(Path::new(folder), seed, count) {
        Err(error) => {
            eprintln!("{error}");
            ExitCode::FAILURE
        }
        Ok([plain, crc]) => {
            println!("seed {seed}, {count} captures, PCS messages: {plain} plain, {crc} with CRC");
            if plain > 0 && crc > 0 {
                ExitCode::SUCCESS
            } else {
                println!("a sort of PCS frames was never seen");
                ExitCode::FAILURE
            }
        }
    }
}

fn finish(result: Result<compare::Counts, String>) -> ExitCode {
    match result {
        Err(difference) => {
            print!("{difference}");
            ExitCode::FAILURE
        }
        Ok(counts) => {
            print!("{}", counts.table());
            let missing = counts.missing();
            for line in &missing {
                println!("{line}");
            }
            if missing.is_empty() {
                println!("no difference");
                ExitCode::SUCCESS
            } else {
                ExitCode::FAILURE
            }
        }
    }
}

fn print_all(text: &str) -> ExitCode {
    match io::stdout().lock().write_all(text.as_bytes()) {
        Ok(()) => ExitCode::SUCCESS,
        Err(error) => {
            eprintln!("{error}");
            ExitCode::FAILURE
        }
    }
}

fn print_part(lines: fn(Part) -> String, name: &str) -> ExitCode {
    match Part::named(name) {
        Some(part) => print_all(&lines(part)),
        None => {
            eprintln!("{USAGE}");
            ExitCode::from(2)
        }
    }
}

fn main() -> ExitCode {
    let arguments: Vec<String> = env::args().skip(1).collect();
    let words: Vec<&str> = arguments.iter().map(String::as_str).collect();
    match words.as_slice() {
        ["listing"] => {
            let mut input = Vec::new();
            if let Err(error) = io::stdin().lock().read_to_end(&mut input) {
                eprintln!("{error}");
                return ExitCode::FAILURE;
            }
            print_all(&listing::listing(&input))
        }
        ["calls", part] => print_part(vectors::calls, part),
        ["vectors", part] => print_part(vectors::vectors, part),
        ["compare", seed, count] => match (seed.parse(), count.parse()) {
            (Ok(seed), Ok(count)) => run_compare(seed, count),
            _ => {
                eprintln!("{USAGE}");
                ExitCode::from(2)
            }
        },
        ["generated", folder, seed, count] => match (seed.parse(), count.parse()) {
            (Ok(seed), Ok(count)) => run_generated(folder, seed, count),
            _ => {
                eprintln!("{USAGE}");
                ExitCode::from(2)
            }
        },
        ["captures", folder, seed, count] => match (seed.parse(), count.parse()) {
            (Ok(seed), Ok(count)) => run_captures(folder, seed, count),
            _ => {
                eprintln!("{USAGE}");
                ExitCode::from(2)
            }
        },
        _ => {
            eprintln!("{USAGE}");
            ExitCode::from(2)
        }
    }
}
