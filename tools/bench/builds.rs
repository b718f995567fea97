//! Times `pft_build`, `pft_question`, `pft_load` and the published `compile` on the
//! same tree files, in one process and in turns; with `--cfg before` also the
//! `pft_build` of an older library, whose names begin with `before_`.
//!
//! `answers.rs` and the published modules are put beside this file by
//! tools/bench/builds. Reads the lines of files.py; for each prints its name,
//! its records and instructions, then of each of the builders the median, and of
//! each the minimum over the rounds, in ns per build.

use std::hint::black_box;
use std::io;

mod timing;
include!("answers.rs");

extern "C" {
    fn pft_build(tree: *const u8, size: usize, program: *mut u8, length: usize) -> u32;
    fn pft_question(tree: *const u8, size: usize) -> u32;
    fn pft_load(
        tree: *const u8,
        size: usize,
        count: u32,
        program: *mut u8,
        length: usize,
    ) -> u32;
    #[cfg(before)]
    fn before_pft_build(tree: *const u8, size: usize, program: *mut u8, length: usize) -> u32;
}

struct Row {
    name: String,
    file: Vec<u8>,
    link: LinkType,
    tree: Expr,
    program: Vec<u8>,
}

fn bytes(hex: &str) -> Vec<u8> {
    let digit = |at| u8::from_str_radix(&hex[at..at + 2], 16).expect("hex");
    (0..hex.len()).step_by(2).map(digit).collect()
}

/// Writes the instructions to the front of a buffer, and answers their count.
fn write(insns: &[Insn], program: &mut [u8]) -> u32 {
    for (insn, place) in insns.iter().zip(program.chunks_exact_mut(INSN)) {
        place.copy_from_slice(&insn.to_le_bytes());
    }
    insns.len() as u32
}

fn row(line: &str) -> Row {
    let (name, hex) = line.split_once(' ').expect("a row's words");
    let file = bytes(hex);
    let Ok((link, records)) = check(&file) else {
        fail("a file that is not valid")
    };
    let tree = tree(&mut records.into_iter());
    let Ok(insns) = build(&file) else {
        fail("a tree that is refused")
    };
    let mut program = vec![0; INSN * insns.len()];
    write(&insns, &mut program);
    Row {
        name: name.into(),
        file,
        link,
        tree,
        program,
    }
}

// ── The builders ─────────────────────────────────────────────────────────────

/// The count, and but for `from_tree` and `by_question` the program in the buffer.
type Builder = fn(&Row, &mut [u8]) -> u32;

fn by_pft(row: &Row, program: &mut [u8]) -> u32 {
    let (tree, size) = (row.file.as_ptr(), row.file.len());
    unsafe { pft_build(tree, size, program.as_mut_ptr(), program.len()) }
}

fn by_question(row: &Row, _: &mut [u8]) -> u32 {
    unsafe { pft_question(row.file.as_ptr(), row.file.len()) }
}

/// With the row's own count.
fn by_load(row: &Row, program: &mut [u8]) -> u32 {
    let (tree, size) = (row.file.as_ptr(), row.file.len());
    let count = (row.program.len() / INSN) as u32;
    unsafe { pft_load(tree, size, count, program.as_mut_ptr(), program.len()) }
}

#[cfg(before)]
fn by_before(row: &Row, program: &mut [u8]) -> u32 {
    let (tree, size) = (row.file.as_ptr(), row.file.len());
    unsafe { before_pft_build(tree, size, program.as_mut_ptr(), program.len()) }
}

/// `compile` alone, from a tree in memory to a Vec of instructions.
fn from_tree(row: &Row, _: &mut [u8]) -> u32 {
    match codegen::compile(&row.tree, row.link) {
        Ok(program) => black_box(program.instructions()).len() as u32,
        Err(_) => 0,
    }
}

/// The file checked and read into a tree, `compile`, the bytes written.
fn from_file(row: &Row, program: &mut [u8]) -> u32 {
    let Ok((link, records)) = check(&row.file) else {
        return 0;
    };
    match codegen::compile(&tree(&mut records.into_iter()), link) {
        Ok(compiled) => write(compiled.instructions(), program),
        Err(_) => 0,
    }
}

/// Each with the length of its buffer, 0 for the program's own, and whether it
/// writes the program there.
const BUILDERS: &[(Builder, usize, bool)] = &[
    (by_pft, 0, true),
    (by_pft, MAX_PROGRAM, true),
    (from_tree, 0, false),
    (from_file, 0, true),
    (by_question, 0, false),
    (by_load, 0, true),
    #[cfg(before)]
    (by_before, 0, true),
];

fn buffer(row: &Row, length: usize) -> Vec<u8> {
    vec![
        0x5A;
        if length == 0 {
            row.program.len()
        } else {
            length
        }
    ]
}

fn turn(row: &Row, builder: usize, times: usize) {
    let (build, length, _) = BUILDERS[builder];
    let mut program = buffer(row, length);
    for _ in 0..times {
        black_box(build(black_box(row), black_box(&mut program)));
    }
}

/// Stops unless all make the same program; of those that write none the count is
/// looked at.
fn compare(row: &Row) {
    for &(build, length, writes) in BUILDERS {
        let mut program = buffer(row, length);
        let count = build(row, &mut program) as usize;
        let same = !writes || program[..row.program.len()] == row.program;
        if INSN * count != row.program.len() || !same {
            fail(&format!("{}: not the same program", row.name));
        }
    }
}

fn main() {
    timing::place();
    for line in io::stdin().lines() {
        let row = row(&line.expect("text"));
        compare(&row);
        let times: [[f64; 2]; BUILDERS.len()] =
            timing::timed(1, |builder, times| turn(&row, builder, times));
        let records = (row.file.len() - HEADER) / RECORD;
        print!("{} {records} {}", row.name, row.program.len() / INSN);
        for at in [0, 1] {
            times.iter().for_each(|t| print!(" {}", t[at]));
        }
        println!();
    }
}
