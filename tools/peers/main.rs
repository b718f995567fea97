//! Holds built programs, their trees, typed lines and counted captures to libpcap, and programs to
//! Linux.
//!
//! peers SAMPLES MODE SEED COUNT [CAPTURE..]
//!
//! SAMPLES is the folder of the sample frames, MODE `same`, `--spoil` (the peers are given each
//! program with one test changed), `--spoil-words` (the words say one condition otherwise),
//! `--spoil-lines` (a line's words say one thing otherwise) or `--spoil-captures` (libpcap is given
//! each capture or its program with one thing changed).

use std::io::Error;
use std::path::Path;

use compiled::Compiled;
use counting::Counting;
use lines::Lines;
use pool::Pool;
use programs::Programs;
use refused::Refusals;

mod compiled;
mod counting;
mod drawing;
mod fewest;
mod frames;
mod libpcap;
mod lines;
mod linux;
mod pool;
mod programs;
mod refused;
mod rules;
mod savefiles;
mod short;
mod shrink;
mod translation;
mod traps;
mod tree;
#[path = "../differential/trees.rs"]
mod trees;
mod typing;
mod values;
mod words;

const MODES: [&str; 5] = [
    "same",
    "--spoil",
    "--spoil-words",
    "--spoil-lines",
    "--spoil-captures",
];

fn fail(words: &str) -> ! {
    eprintln!("peers: {words}");
    std::process::exit(2)
}

fn or_fail<T>(what: &str, result: Result<T, Error>) -> T {
    result.unwrap_or_else(|error| fail(&format!("{what}: {error}")))
}

fn read_line(path: &str) -> String {
    std::fs::read_to_string(path)
        .unwrap_or_default()
        .trim()
        .to_string()
}

fn print_peers() {
    let (release, jit) = (
        read_line("/proc/sys/kernel/osrelease"),
        read_line("/proc/sys/net/core/bpf_jit_enable"),
    );
    println!(
        "{}, Linux {release} (bpf_jit_enable {jit})",
        libpcap::version()
    );
}

fn number(name: &str, word: &str) -> u64 {
    word.parse()
        .unwrap_or_else(|_| fail(&format!("{name} {word} is not a number below 2^64")))
}

fn pool(samples: &str, captures: &[&str]) -> Pool {
    let mut pool = Pool::default();
    let all = captures.iter().map(Path::new);
    let read = pool
        .add_samples(Path::new(samples))
        .and_then(|()| all.into_iter().try_for_each(|path| pool.add_capture(path)));
    read.unwrap_or_else(|error| fail(&error));
    pool
}

/// All that is compared.
struct Run<'a> {
    pool: &'a Pool,
    programs: Programs,
    compiled: Compiled<'a>,
    lines: Lines<'a>,
    refusals: Refusals<'a>,
    counting: Counting,
}

impl Run<'_> {
    fn print(&self, mode: &str) {
        self.programs.met.print();
        self.pool.print();
        self.compiled.met.print();
        self.lines.met.print();
        self.refusals.met.print();
        self.counting.met.print(mode == "same");
        let (what, told_apart) = match mode {
            "--spoil" => ("spoiled programs", self.programs.met.told_apart),
            "--spoil-words" => ("trees with wrong words", self.compiled.met.told_apart),
            "--spoil-lines" => ("lines with wrong words", self.lines.met.told_apart),
            "--spoil-captures" => ("spoiled captures", self.counting.met.told_apart),
            _ => return,
        };
        println!("{told_apart} {what} told apart");
    }

    fn compared(&self) -> u64 {
        self.programs.met.frames
            + self.compiled.met.compared()
            + self.lines.met.compared()
            + self.refusals.met.compared()
            + self.counting.met.counts
    }

    fn differences(&self) -> u64 {
        self.programs.met.differences
            + self.compiled.met.differences
            + self.lines.met.differences
            + self.refusals.met.differences
            + self.counting.met.differences
    }

    /// Prints what was compared; ends with 1 where something differed, 2 where it could not be
    /// compared.
    fn finish(&self, mode: &str) -> ! {
        self.print(mode);
        let (compared, differences) = (self.compared(), self.differences());
        println!("{compared} compared, {differences} differences");
        std::process::exit(match differences {
            0 if self.programs.met.no_memory > 0 => 2,
            0 => 0,
            _ => 1,
        })
    }
}

/// Captures that are drawn and swept, then files.
fn counted(seed: u64, count: u64, spoils: bool, samples: &str, captures: &[&str]) -> Counting {
    let mut counting = Counting::new(seed, spoils);
    counting.compare(count);
    if !spoils {
        let read = counting.files(Path::new(samples), captures);
        read.unwrap_or_else(|error| fail(&error));
    }
    counting
}

fn main() {
    let words: Vec<String> = std::env::args().skip(1).collect();
    let words: Vec<&str> = words.iter().map(String::as_str).collect();
    let [samples, mode, seed, count, captures @ ..] = &words[..] else {
        fail("usage: peers SAMPLES MODE SEED COUNT [CAPTURE..]")
    };
    if !MODES.contains(mode) {
        fail(&format!("unknown mode {mode}"));
    }
    let (seed, count) = (number("SEED", seed), number("COUNT", count));
    let pool = pool(samples, captures);
    print_peers();
    let mut programs = Programs::new(seed, *mode == "--spoil");
    programs.compare(seed, count);
    let mut compiled = Compiled::new(seed.reverse_bits(), &pool, *mode == "--spoil-words");
    compiled.compare(count);
    let mut lines = Lines::new(seed.rotate_left(32), &pool, *mode == "--spoil-lines");
    lines.compare(count);
    let mut refusals = Refusals::new(!seed.rotate_left(32), &pool);
    refusals.compare(count);
    let spoils = *mode == "--spoil-captures";
    let run = Run {
        pool: &pool,
        programs,
        compiled,
        lines,
        refusals,
        counting: counted(seed.swap_bytes(), count, spoils, samples, captures),
    };
    run.finish(mode)
}
