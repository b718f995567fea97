//! Times `pft_type`, `pft_type` and `pft_build`, and libpcap's `pcap_compile` on the same lines, in
//! one process and in turns.
//!
//! `translation` is that of tools/peers, put beside this file by tools/bench/lines. Reads the rows
//! of lines.py. Of a line that is built it prints `built`, name, link, conditions, bytes and
//! instructions here and by libpcap; of a long one `long`, name and bytes. Then come the medians,
//! and then the minima over the rounds, in ns: of a line that is built those of typing, of typing
//! and building to a buffer of the program's length and to the longest, of libpcap in its words and
//! of libpcap as typed; of a long one those of typing, of a refusal for the link, and of clearing a
//! tree.

use std::cell::RefCell;
use std::ffi::{c_char, c_int, c_void, CString};
use std::fs;
use std::hint::black_box;
use std::io;
use std::ptr::null_mut;

mod timing;
mod translation;

/// `struct bpf_program`.
#[repr(C)]
struct Code {
    count: u32,
    first: *mut c_void,
}

extern "C" {
    fn pft_type(link: u8, text: *const u8, text_length: usize, tree: *mut u8) -> u64;
    fn pft_build(tree: *const u8, size: usize, program: *mut u8, length: usize) -> u32;
    fn pft_run(program: *const u8, size: usize, frame: *const u8, length: usize) -> u32;
    fn bpf_filter(program: *const c_void, frame: *const u8, wire: u32, length: u32) -> u32;
    fn pcap_open_dead(link: c_int, length: c_int) -> *mut c_void;
    fn pcap_compile(p: *mut c_void, c: *mut Code, words: *const c_char, o: c_int, m: u32) -> c_int;
    fn pcap_freecode(code: *mut Code);
}

const MAX_TREE: usize = 3_080;
/// The most bytes of a built program.
const MAX_PROGRAM: usize = 31_568;
/// A built program has no more instructions; a greater answer is a refusal.
const MOST: u32 = 3_946;
/// By our link byte: EN10MB, IPV4, LINUX_SLL.
const LINKS: [c_int; 3] = [1, 228, 113];
const SNAPSHOT: c_int = 262_144;
const NETMASK_UNKNOWN: u32 = 0xffff_ffff;
const ACCEPTED: u32 = 1;

fn fail(words: &str) -> ! {
    eprintln!("lines: {words}");
    std::process::exit(1)
}

fn read(path: &str) -> String {
    fs::read_to_string(path).unwrap_or_else(|error| fail(&format!("{path}: {error}")))
}

// ── What is timed ────────────────────────────────────────────────────────────

struct Room {
    tree: [u8; MAX_TREE],
    program: Vec<u8>,
}

fn room() -> Room {
    Room {
        tree: [0; MAX_TREE],
        program: vec![0; MAX_PROGRAM],
    }
}

struct Row {
    link: u8,
    line: String,
    pcap: *mut c_void,
    /// The line in libpcap's words, and as typed.
    words: CString,
    typed: CString,
    /// The bytes of the program.
    exact: usize,
}

#[inline(never)]
fn by_type(link: u8, line: &str, room: &mut Room) -> u64 {
    unsafe { pft_type(link, line.as_ptr(), line.len(), room.tree.as_mut_ptr()) }
}

/// The count of instructions, with a buffer of so many bytes.
#[inline(never)]
fn by_build(row: &Row, room: &mut Room, length: usize) -> u32 {
    let size = by_type(row.link, &row.line, room) as usize;
    let (tree, program) = (room.tree.as_ptr(), room.program.as_mut_ptr());
    unsafe { pft_build(tree, size, program, length) }
}

/// libpcap's program, which is to be freed.
fn compiled(row: &Row, words: &CString) -> Code {
    let mut code = Code {
        count: 0,
        first: null_mut(),
    };
    if unsafe { pcap_compile(row.pcap, &mut code, words.as_ptr(), 0, NETMASK_UNKNOWN) } != 0 {
        fail(&format!("libpcap does not take {words:?}"));
    }
    code
}

#[inline(never)]
fn by_pcap(row: &Row, words: &CString) -> u32 {
    let mut code = compiled(row, words);
    let count = code.count;
    unsafe { pcap_freecode(&mut code) };
    count
}

fn turn(row: &Row, room: &mut Room, which: usize, times: usize) {
    for _ in 0..times {
        let row = black_box(row);
        black_box(match which {
            0 => by_type(row.link, &row.line, room),
            1 => by_build(row, room, row.exact).into(),
            2 => by_build(row, room, MAX_PROGRAM).into(),
            3 => by_pcap(row, &row.words).into(),
            _ => by_pcap(row, &row.typed).into(),
        });
        black_box(&mut *room);
    }
}

/// Typing, a link that is refused, and the clearing of a tree.
fn long_turn(line: &str, room: &mut Room, which: usize, times: usize) {
    for _ in 0..times {
        let line = black_box(line);
        match which {
            0 => _ = black_box(by_type(1, line, room)),
            1 => _ = black_box(by_type(0, line, room)),
            _ => room.tree.fill(0),
        }
        black_box(&mut *room);
    }
}

// ── Rows ─────────────────────────────────────────────────────────────────────

/// The instructions here and by libpcap, once both judge all frames alike.
fn agreed(name: &str, row: &Row, frames: &str) -> [u32; 2] {
    let mut room = room();
    let count = by_build(row, &mut room, MAX_PROGRAM);
    if count > MOST {
        fail(&format!("{name}, link {}: not built", row.link));
    }
    let (program, size) = (room.program.as_ptr(), 8 * count as usize);
    let mut code = compiled(row, &row.words);
    for frame in frames.lines().map(bytes) {
        let length = frame.len();
        let here = unsafe { pft_run(program, size, frame.as_ptr(), length) } >> 16;
        let there = unsafe { bpf_filter(code.first, frame.as_ptr(), length as u32, length as u32) };
        if (here == ACCEPTED) != (there != 0) {
            fail(&format!("{name}, link {}: judged otherwise", row.link));
        }
    }
    let theirs = code.count;
    unsafe { pcap_freecode(&mut code) };
    [count, theirs]
}

fn bytes(hex: &str) -> Vec<u8> {
    let digit = |at| u8::from_str_radix(&hex[at..at + 2], 16).expect("hex");
    (0..hex.len()).step_by(2).map(digit).collect()
}

fn columns<const N: usize>(times: [[f64; 2]; N]) -> String {
    let columns = [0, 1].map(|at| times.map(|t| t[at].to_string()).join(" "));
    columns.join(" ")
}

fn built(name: &str, link: &str, conditions: &str, line: &str, frames: &str) {
    let link: u8 = link.parse().expect("a link");
    let pcap = unsafe { pcap_open_dead(LINKS[link as usize - 1], SNAPSHOT) };
    let mut row = Row {
        link,
        words: CString::new(translation::translated(line)).expect("no 0"),
        typed: CString::new(line).expect("no 0"),
        line: line.into(),
        pcap,
        exact: 0,
    };
    let [here, there] = agreed(name, &row, frames);
    row.exact = 8 * here as usize;
    let room = RefCell::new(room());
    let times: [[f64; 2]; 5] = timing::timed(1, |which, times| {
        turn(&row, &mut room.borrow_mut(), which, times)
    });
    let (size, columns) = (line.len(), columns(times));
    println!("built {name} {link} {conditions} {size} {here} {there} {columns}");
}

fn long(name: &str, refusal: &str, line: &str) {
    let room = RefCell::new(room());
    let number = by_type(1, line, &mut room.borrow_mut()) >> 32;
    if number.to_string() != refusal {
        fail(&format!("{name}: refused {number}, not {refusal}"));
    }
    let times: [[f64; 2]; 3] = timing::timed(1, |which, times| {
        long_turn(line, &mut room.borrow_mut(), which, times)
    });
    println!("long {name} {} {}", line.len(), columns(times));
}

fn main() {
    timing::place();
    for row in io::stdin().lines() {
        let row = row.expect("text");
        match row.split(' ').collect::<Vec<_>>()[..] {
            [name, link, conditions, line, frames] => {
                built(name, link, conditions, &read(line), &read(frames))
            }
            [name, refusal, line] => long(name, refusal, &read(line)),
            _ => fail("not a row of lines.py"),
        }
    }
}
