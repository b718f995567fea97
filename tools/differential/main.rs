//! Compares the port with the published Rust: builds, questions, loads, runs, direct
//! readings; and captures. Cooked trees are compared with a second generator, which on all
//! others is held to the Rust.
//!
//! differential SEED COUNT                compares
//! differential --captures SEED COUNT [PROGRAM FOLDER]
//!                                        compares captures, and over files in a folder
//!                                        the program `pft`
//! differential --first STAGE SEED COUNT  ends at the first difference of one stage,
//!                                        or of one field of the values
//! differential --print SEED COUNT        prints files, as tools/oracle/trees.py

use std::io::Write;

use command::{end_with_reader, number, outlive_reader};
use parts::Parts;
use trees::Rng;

mod builds;
mod captures;
mod command;
mod counting;
mod drafts;
mod edits;
mod exports;
mod filter;
mod frames;
mod growth;
mod lent;
mod loads;
mod machine;
mod meaning;
mod part;
mod parts;
mod pcap;
mod ranges;
mod readings;
mod shrink;
mod smaller;
mod sweep;
#[allow(dead_code)]
mod traced;
mod trees;
mod trial;
mod wide;
include!("answers.rs");

/// Runs of the machine, and frames of readings, for one random file; random files for one
/// step of growth, and for one tree that is edited.
const RUNS: u64 = 3;
const FRAMES: u64 = 6;
const FILES: u64 = 8;
const EDITED: u64 = 16;

type Stage = fn(seed: u64, count: u64, parts: &mut Parts);

/// In the order of the run: all that builds comes before machine and readings.
const STAGES: [(&str, Stage); 6] = [
    ("builds", builds::compare_all),
    ("edits", |seed, count, parts| {
        edits::compare_all(seed, count / EDITED, parts)
    }),
    ("growth", |seed, count, parts| {
        growth::compare_all(seed, count / FILES, parts)
    }),
    ("values", |seed, _, parts| {
        sweep::compare("values", seed, parts)
    }),
    ("machine", |seed, count, parts| {
        machine::compare_all(seed, RUNS * count, parts)
    }),
    ("readings", |seed, count, parts| {
        readings::compare_all(seed, FRAMES * count, parts)
    }),
];

/// A run of its own, besides those.
const CAPTURES: (&str, Stage) = ("captures", captures::compare_all);

/// Part of every comparison of builds; by itself where it is what is broken.
const SECOND: (&str, Stage) = ("second", builds::hold_all);

fn compare_captures(seed: u64, count: u64, program: Option<(&str, &str)>) {
    let mut parts = Parts::new(seed);
    captures::compare_all(seed, count, &mut parts);
    if let Some((program, folder)) = program {
        outlive_reader();
        counting::compare_all(seed, program, folder, &mut parts);
        end_with_reader();
    }
    std::process::exit((parts.print() > 0) as i32);
}

fn compare_all(seed: u64, count: u64) {
    let mut parts = Parts::new(seed);
    let mut told = false;
    for (name, stage) in STAGES {
        println!("# {name}");
        stage(seed, count, &mut parts);
        if parts.builds.differences > 0 && !told {
            told = true;
            parts.builds.print();
            println!("builds differ: nothing else is compared over a program that does");
        }
    }
    println!("# result");
    let differences = parts.print();
    if differences == 0 {
        parts.loaded.require_all();
    }
    std::process::exit((differences > 0) as i32);
}

/// One stage, or one field of the values, up to its first difference.
fn compare_first(name: &str, seed: u64, count: u64) {
    part::FIRST.store(true, std::sync::atomic::Ordering::Relaxed);
    let mut parts = Parts::new(seed);
    let mut stages = STAGES.iter().chain([&CAPTURES, &SECOND]);
    match stages.find(|(n, _)| *n == name) {
        Some((_, stage)) => stage(seed, count, &mut parts),
        None if sweep::is_field(name) => sweep::compare(name, seed, &mut parts),
        None => fail(&format!("no such stage: {name}")),
    }
    parts.print();
}

fn print_all(seed: u64, count: u64) {
    let mut rng = Rng(seed);
    let mut out = std::io::stdout().lock();
    for _ in 0..count {
        let file = trees::tree_file(&mut rng);
        let line: String = file.iter().map(|b| format!("{b:02x}")).collect();
        writeln!(out, "{line}").unwrap_or_else(|e| fail(&e.to_string()));
    }
}

const USAGE: &str = "usage: differential [--print | --first STAGE] SEED COUNT
       differential --captures SEED COUNT [PROGRAM FOLDER]";

fn main() {
    end_with_reader();
    let words: Vec<String> = std::env::args().skip(1).collect();
    let words: Vec<&str> = words.iter().map(String::as_str).collect();
    match words[..] {
        [seed, count] => compare_all(number(seed), number(count)),
        ["--captures", seed, count] => compare_captures(number(seed), number(count), None),
        ["--captures", seed, count, program, folder] => {
            compare_captures(number(seed), number(count), Some((program, folder)))
        }
        ["--first", stage, seed, count] => compare_first(stage, number(seed), number(count)),
        ["--print", seed, count] => print_all(number(seed), number(count)),
        ["--help"] => println!("{USAGE}"),
        _ => fail(USAGE),
    }
}
