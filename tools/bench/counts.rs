//! Times `pft_count`, vm.rs with a plain reader, and libpcap's `pcap_next_ex` with `bpf_filter` over
//! whole captures, in one process and in turns.
//!
//! `bpf` and `vm` are the published modules, put beside this file by tools/bench/counts. Reads the
//! lines of captures.py; for each prints its name, frames, accepted frames and mean steps, then of
//! each of the four the median and the minimum over the rounds, in ns per frame, and what opening
//! and closing alone takes libpcap, from memory and from a file.

use std::ffi::{c_char, c_int, c_long, c_void, CString};
use std::hint::black_box;
use std::io;
use std::ptr::{null, null_mut};

use bpf::Insn;

#[allow(dead_code, unexpected_cfgs)]
mod bpf;
mod timing;
#[allow(dead_code)]
mod vm;

/// `struct pcap_pkthdr`.
#[repr(C)]
struct Header {
    seconds: c_long,
    parts: c_long,
    at_hand: u32,
    on_the_wire: u32,
}

extern "C" {
    fn pft_build(tree: *const u8, size: usize, program: *mut u8, length: usize) -> u32;
    fn pft_run(program: *const u8, size: usize, frame: *const u8, length: usize) -> u32;
    fn pft_count(
        tree: *const u8,
        size: usize,
        program: *mut u8,
        length: usize,
        capture: *const u8,
        capture_length: usize,
    ) -> u64;
    // libpcap's struct bpf_insn has the layout of `Insn`.
    fn bpf_filter(program: *const Insn, frame: *const u8, wire: u32, length: u32) -> u32;
    fn pcap_open_offline(path: *const c_char, error: *mut c_char) -> *mut c_void;
    fn pcap_fopen_offline(file: *mut c_void, error: *mut c_char) -> *mut c_void;
    fn pcap_next_ex(p: *mut c_void, header: *mut *const Header, data: *mut *const u8) -> c_int;
    fn pcap_close(pcap: *mut c_void);
    fn fmemopen(bytes: *mut c_void, size: usize, mode: *const c_char) -> *mut c_void;
}

/// The most bytes of a built program.
const MAX_PROGRAM: usize = 31_568;
const FILE_HEADER: usize = 24;
const FRAME_HEADER: usize = 16;
const ERROR_SIZE: usize = 256;
/// Frames whose steps are counted.
const STEPPED: usize = 10_000;

struct Row {
    name: String,
    tree: Vec<u8>,
    program: Vec<u8>,
    insns: Vec<Insn>,
    path: CString,
    capture: Vec<u8>,
    frames: usize,
    rounds: usize,
}

fn fail(words: &str) -> ! {
    eprintln!("counts: {words}");
    std::process::exit(1)
}

fn bytes(hex: &str) -> Vec<u8> {
    let digit = |at| u8::from_str_radix(&hex[at..at + 2], 16).expect("hex");
    (0..hex.len()).step_by(2).map(digit).collect()
}

fn insn(b: &[u8]) -> Insn {
    Insn {
        code: u16::from_le_bytes([b[0], b[1]]),
        jt: b[2],
        jf: b[3],
        k: u32::from_le_bytes([b[4], b[5], b[6], b[7]]),
    }
}

fn built(tree: &[u8]) -> Vec<u8> {
    let mut program = vec![0; MAX_PROGRAM];
    let count = unsafe { pft_build(tree.as_ptr(), tree.len(), program.as_mut_ptr(), MAX_PROGRAM) };
    program.truncate(8 * count as usize);
    program
}

fn row(line: &str) -> Row {
    let words: Vec<&str> = line.split(' ').collect();
    let [name, tree, path, frames, rounds] = words[..] else {
        fail("wants NAME TREE CAPTURE FRAMES ROUNDS")
    };
    let (tree, number) = (bytes(tree), |word: &str| word.parse().expect("a number"));
    let program = built(&tree);
    Row {
        name: name.into(),
        insns: program.chunks(8).map(insn).collect(),
        program,
        tree,
        capture: std::fs::read(path).expect("a capture"),
        path: CString::new(path).expect("a path"),
        frames: number(frames),
        rounds: number(rounds),
    }
}

// ── The four ─────────────────────────────────────────────────────────────────

#[inline(never)]
fn by_pft(row: &Row) -> u64 {
    let mut program = [0; MAX_PROGRAM];
    unsafe {
        pft_count(
            row.tree.as_ptr(),
            row.tree.len(),
            program.as_mut_ptr(),
            MAX_PROGRAM,
            row.capture.as_ptr(),
            row.capture.len(),
        )
    }
}

/// The frames of a little-endian capture that nothing is wrong with.
struct Frames<'a>(&'a [u8]);

impl<'a> Iterator for Frames<'a> {
    type Item = &'a [u8];

    #[inline(always)]
    fn next(&mut self) -> Option<&'a [u8]> {
        let (header, rest) = self.0.split_at_checked(FRAME_HEADER)?;
        let size = u32::from_le_bytes([header[8], header[9], header[10], header[11]]);
        let (frame, rest) = rest.split_at_checked(size as usize)?;
        self.0 = rest;
        Some(frame)
    }
}

fn frames(row: &Row) -> Frames<'_> {
    Frames(&row.capture[FILE_HEADER..])
}

#[inline(never)]
fn by_vm(row: &Row) -> u64 {
    frames(row).filter(|frame| vm::run(&row.insns, frame)).count() as u64
}

fn open_bytes(row: &Row) -> *mut c_void {
    let mut error = [0; ERROR_SIZE];
    unsafe {
        let bytes = row.capture.as_ptr() as *mut c_void;
        let file = fmemopen(bytes, row.capture.len(), c"rb".as_ptr());
        pcap_fopen_offline(file, error.as_mut_ptr())
    }
}

fn open_file(row: &Row) -> *mut c_void {
    let mut error = [0; ERROR_SIZE];
    unsafe { pcap_open_offline(row.path.as_ptr(), error.as_mut_ptr()) }
}

/// What is accepted of an open capture, which is closed then.
#[inline(always)]
fn accepted(row: &Row, pcap: *mut c_void) -> u64 {
    if pcap == null_mut() {
        fail("libpcap does not open the capture");
    }
    let (mut header, mut data, mut count) = (null::<Header>(), null(), 0);
    unsafe {
        while pcap_next_ex(pcap, &mut header, &mut data) == 1 {
            let Header {
                on_the_wire,
                at_hand,
                ..
            } = *header;
            count += (bpf_filter(row.insns.as_ptr(), data, on_the_wire, at_hand) != 0) as u64;
        }
        pcap_close(pcap);
    }
    count
}

#[inline(never)]
fn by_memory(row: &Row) -> u64 {
    accepted(row, open_bytes(row))
}

#[inline(never)]
fn by_file(row: &Row) -> u64 {
    accepted(row, open_file(row))
}

const COUNTERS: [fn(&Row) -> u64; 4] = [by_pft, by_vm, by_memory, by_file];

// ── Rows ─────────────────────────────────────────────────────────────────────

/// The accepted frames and the mean steps, once all agree.
fn agreed(row: &Row) -> (u64, f64) {
    let counts = COUNTERS.map(|count| count(row));
    if counts.iter().any(|&count| count != counts[0]) || frames(row).count() != row.frames {
        fail(&format!("{}: the counts are {counts:?}", row.name));
    }
    let program = &row.program;
    let steps = |f: &[u8]| unsafe {
        pft_run(program.as_ptr(), program.len(), f.as_ptr(), f.len()) & 0xffff
    };
    let stepped = row.frames.min(STEPPED);
    let sum: u32 = frames(row).take(stepped).map(steps).sum();
    (counts[0], sum as f64 / stepped as f64)
}

/// Opening and closing alone, in ns.
fn opening(row: &Row) -> [f64; 2] {
    let openers = [open_bytes, open_file];
    let times: [[f64; 2]; 2] = timing::timed(1, |t, times| {
        for _ in 0..times {
            unsafe { pcap_close(openers[t](black_box(row))) }
        }
    });
    times.map(|[median, _]| median)
}

fn main() {
    timing::place();
    for line in io::stdin().lines() {
        let row = row(&line.expect("text"));
        let (count, steps) = agreed(&row);
        let times: [[f64; 2]; 4] = timing::timed_in(row.rounds, row.frames, |t, times| {
            for _ in 0..times {
                black_box(COUNTERS[t](black_box(&row)));
            }
        });
        let columns = [0, 1].map(|at| times.map(|t| t[at].to_string()).join(" "));
        let [memory, file] = opening(&row);
        let (name, frames) = (&row.name, row.frames);
        println!(
            "{name} {frames} {count} {steps} {} {memory} {file}",
            columns.join(" ")
        );
    }
}
