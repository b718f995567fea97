//! Times `pft_run`, vm.rs and libpcap's `bpf_filter` on the same programs and
//! frames, in one process and in turns.
//!
//! `bpf` and `vm` are the published modules, put beside this file by
//! tools/bench/run. Reads the lines of programs.py; for each prints its name,
//! its kind, the mean steps, then of each of the three the median and the
//! minimum over the rounds, in ns per run.

use std::hint::black_box;
use std::io;

use bpf::Insn;

#[allow(dead_code, unexpected_cfgs)]
mod bpf;
mod timing;
#[allow(dead_code)]
mod vm;

extern "C" {
    fn pft_run(program: *const u8, size: usize, frame: *const u8, length: usize) -> u32;
    // libpcap's struct bpf_insn has the layout of `Insn`.
    fn bpf_filter(program: *const Insn, frame: *const u8, wire: u32, length: u32) -> u32;
}

/// Frames drawn for a turn, to be run over again and again.
const DRAWN: usize = 256;

struct Row {
    name: String,
    kind: String,
    program: Vec<u8>,
    insns: Vec<Insn>,
    frames: Vec<Vec<u8>>,
}

fn bytes(hex: &str) -> Vec<u8> {
    let digit = |at| u8::from_str_radix(&hex[at..at + 2], 16).expect("hex");
    (0..hex.len()).step_by(2).map(digit).collect()
}

fn insn(b: &[u8]) -> Insn {
    Insn {
        code: u16::from_le_bytes([b[0], b[1]]),
        jt: b[2],
        jf: b[3],
        k: u32::from_le_bytes([b[4], b[5], b[6], b[7]]),
    }
}

fn row(line: &str) -> Row {
    let mut words = line.split(' ');
    let mut word = || words.next().expect("a row's words").to_string();
    let (name, kind, program) = (word(), word(), bytes(&word()));
    let insns = program.chunks(8).map(insn).collect();
    Row {
        name,
        kind,
        program,
        insns,
        frames: words.map(bytes).collect(),
    }
}

// ── The three ────────────────────────────────────────────────────────────────

type Runner = fn(&Row, &[u8]) -> u32;

#[inline(always)]
fn by_pft(row: &Row, frame: &[u8]) -> u32 {
    unsafe {
        pft_run(
            row.program.as_ptr(),
            row.program.len(),
            frame.as_ptr(),
            frame.len(),
        )
    }
}

#[inline(always)]
fn by_vm(row: &Row, frame: &[u8]) -> u32 {
    vm::run(&row.insns, frame) as u32
}

#[inline(always)]
fn by_pcap(row: &Row, frame: &[u8]) -> u32 {
    unsafe {
        bpf_filter(
            row.insns.as_ptr(),
            frame.as_ptr(),
            frame.len() as u32,
            frame.len() as u32,
        )
    }
}

/// The runs of a turn, for each of the three on its own.
macro_rules! turn {
    ($name:ident, $runner:ident) => {
        #[inline(never)]
        fn $name(row: &Row, order: &[usize], times: usize) -> u32 {
            let mut sum = 0u32;
            for _ in 0..times {
                for &i in order {
                    sum = sum.wrapping_add($runner(black_box(row), &row.frames[i]));
                }
            }
            sum
        }
    };
}

turn!(turn_pft, by_pft);
turn!(turn_vm, by_vm);
turn!(turn_pcap, by_pcap);

const RUNNERS: [Runner; 3] = [by_pft, by_vm, by_pcap];
const TURNS: [fn(&Row, &[usize], usize) -> u32; 3] = [turn_pft, turn_vm, turn_pcap];

// ── Rows ─────────────────────────────────────────────────────────────────────

/// The mean steps, once the three agree on every frame.
fn steps(row: &Row) -> f64 {
    let mut sum = 0;
    for (i, frame) in row.frames.iter().enumerate() {
        let [pft, vm, pcap] = RUNNERS.map(|runner| runner(row, frame));
        let accepted = [pft >> 16 == 1, vm != 0, pcap != 0];
        if pft >> 16 > 4 || accepted.iter().any(|&a| a != accepted[0]) {
            eprintln!(
                "{}, frame {i}: pft_run {pft}, vm.rs {vm}, bpf_filter {pcap}",
                row.name
            );
            std::process::exit(1);
        }
        sum += pft & 0xffff;
    }
    sum as f64 / row.frames.len() as f64
}

/// Frames in no order (xorshift).
fn drawn(frames: usize) -> Vec<usize> {
    let mut s = 88_172_645_463_325_252u64;
    let mut draw = || {
        s ^= s << 13;
        s ^= s >> 7;
        s ^= s << 17;
        s as usize % frames
    };
    (0..DRAWN).map(|_| draw()).collect()
}

/// Median and minimum of each of the three, in ns per run.
fn timed(row: &Row) -> [[f64; 2]; 3] {
    let order = drawn(row.frames.len());
    timing::timed(DRAWN, |t, times| {
        black_box(TURNS[t](row, &order, times));
    })
}

fn main() {
    timing::place();
    for line in io::stdin().lines() {
        let row = row(&line.expect("text"));
        let steps = steps(&row);
        let [[pft, pft_least], [vm, vm_least], [pcap, pcap_least]] = timed(&row);
        println!(
            "{} {} {steps} {pft} {vm} {pcap} {pft_least} {vm_least} {pcap_least}",
            row.name, row.kind
        );
    }
}
