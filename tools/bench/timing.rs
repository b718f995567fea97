//! What the benchmarks share: turns in rounds, and the placement of the code.

use std::hint::black_box;
use std::time::Instant;

// Moves the code that follows it: the scripts build several placements.
std::arch::global_asm!(
    ".globl bench_padding",
    "bench_padding:",
    concat!(".skip ", env!("BENCH_PADDING"), ", 0x90"),
);

extern "C" {
    static bench_padding: u8;
}

/// Keeps the padding in the program.
pub fn place() {
    black_box(unsafe { &bench_padding });
}

const ROUNDS: usize = 61;
/// About what one turn takes, in ns.
const TURN: u128 = 1_000_000;

/// Median and minimum over the rounds, for each of N, in ns per run.
/// `turn(t, times)` gives the t-th a turn of `times` × `runs` runs.
pub fn timed<const N: usize>(runs: usize, turn: impl Fn(usize, usize)) -> [[f64; 2]; N] {
    timed_in(ROUNDS, runs, turn)
}

/// The same with so many rounds.
pub fn timed_in<const N: usize>(
    rounds: usize,
    runs: usize,
    turn: impl Fn(usize, usize),
) -> [[f64; 2]; N] {
    let once = |t, times| {
        let start = Instant::now();
        turn(t, times);
        start.elapsed().as_nanos()
    };
    let times: [usize; N] = std::array::from_fn(|t| {
        let least = (0..5).map(|_| once(t, 1)).min().expect("five turns");
        (TURN / least.max(1)).max(1) as usize
    });
    let mut samples = [const { Vec::new() }; N];
    for _ in 0..rounds {
        for t in 0..N {
            samples[t].push(once(t, times[t]) as f64 / (times[t] * runs) as f64);
        }
    }
    samples.map(|mut s| {
        s.sort_by(f64::total_cmp);
        [s[rounds / 2], s[0]]
    })
}
