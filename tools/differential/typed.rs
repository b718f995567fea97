//! Compares typed lines: `pft_type` with the second parser of tools/oracle, and its files, over
//! frames, with what that parser reads in the line itself.
//!
//! typed SEED COUNT                compares
//! typed --first typed SEED COUNT  ends at the first difference

use asked::Met;
use command::{end_with_reader, number};
use trees::Rng;
use typing::{HEADER, LINK, RECORD};

mod asked;
mod command;
mod exports;
mod frames;
mod junk;
mod lent;
mod limits;
mod lines;
mod part;
mod seen;
mod sequences;
mod smaller;
mod spelling;
mod trees;
#[path = "../oracle/typing.rs"]
mod typing;

type Stage = fn(rng: &mut Rng, count: u64, met: &mut Met);

const STAGES: [(&str, Stage); 5] = [
    ("drawn", lines::compare_all),
    ("limits", limits::compare_all),
    ("spelling", spelling::compare_all),
    ("sequences", sequences::compare_all),
    ("junk", junk::compare_all),
];

/// Ends with 2: nothing was compared.
fn fail(message: &str) -> ! {
    eprintln!("typed: {message}");
    std::process::exit(2)
}

fn compare_all(seed: u64, count: u64) {
    let mut met = Met::new(seed);
    for (name, stage) in STAGES {
        let before = met.lines();
        stage(&mut Rng(seed ^ 0x7E97), count, &mut met);
        println!("lines of {name}: {}", met.lines() - before);
    }
    met.print();
    std::process::exit((met.print_parts() > 0) as i32);
}

const USAGE: &str = "usage: typed [--first typed] SEED COUNT";

fn main() {
    end_with_reader();
    let words: Vec<String> = std::env::args().skip(1).collect();
    let words: Vec<&str> = words.iter().map(String::as_str).collect();
    match words[..] {
        [seed, count] => compare_all(number(seed), number(count)),
        ["--first", "typed", seed, count] => {
            part::FIRST.store(true, std::sync::atomic::Ordering::Relaxed);
            compare_all(number(seed), number(count))
        }
        ["--help"] => println!("{USAGE}"),
        _ => fail(USAGE),
    }
}
