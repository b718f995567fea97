#!/usr/bin/env python3
"""A copy of vm.rs that counts.

tools/differential/trace.py VM OUT

VM is vm.rs as tools/oracle/copies leaves it. The copy has the insertions of
tools/oracle/runs.py, each behind a text that VM has exactly once, and `told`.
"""
import pathlib
import sys

sys.dont_write_bytecode = True
sys.path.insert(0, str(pathlib.Path(__file__).resolve().parent.parent / "oracle"))
from runs import INSERTIONS
from words import Words, run, stop

TOLD = """
pub use trace::Words;

/// Added by tools/differential/trace.py: the answer, the instructions fetched, whether
/// a packet read left the frame, and the words as the run returned.
pub struct Told {
    pub answer: Option<bool>,
    pub steps: u32,
    pub left: bool,
    pub words: Words,
}

pub fn told(insns: &[Insn], pkt: &[u8]) -> Told {
    trace::clear();
    let answer = inner(insns, pkt);
    let (steps, left, words) = trace::all();
    Told { answer, steps, left, words }
}

mod trace {
    use std::cell::Cell;

    /// A, X and the scratch words.
    #[derive(Clone, Copy, Default)]
    pub struct Words {
        pub a: u32,
        pub x: u32,
        pub scratch: [u32; 16],
    }

    thread_local! {
        static STEPS: Cell<u32> = const { Cell::new(0) };
        static LEFT: Cell<bool> = const { Cell::new(false) };
        static WORDS: Cell<Words> = const { Cell::new(Words { a: 0, x: 0, scratch: [0; 16] }) };
    }

    pub fn clear() {
        STEPS.set(0);
        LEFT.set(false);
        WORDS.set(Words::default());
    }

    pub fn all() -> (u32, bool, Words) {
        (STEPS.get(), LEFT.get(), WORDS.get())
    }

    pub fn fetched() {
        STEPS.set(STEPS.get() + 1);
    }

    pub fn left<T>() -> Option<T> {
        LEFT.set(true);
        None
    }

    pub fn returned(a: u32, x: u32, scratch: &[u32]) {
        let mut words = Words { a, x, ..Words::default() };
        words.scratch.iter_mut().zip(scratch).for_each(|(w, s)| *w = *s);
        WORDS.set(words);
    }
}
"""


def main():
    parser = Words(__doc__)
    parser.add_argument("vm", metavar="VM", type=pathlib.Path)
    parser.add_argument("out", metavar="OUT", type=pathlib.Path)
    args = parser.parse_args()
    text = args.vm.read_text()
    # the last insertion is behind the oracle's own function
    for found, added in INSERTIONS[:-1]:
        if text.count(found) != 1:
            stop(f"{args.vm} does not have this text once: {found}")
        text = text.replace(found, found + added)
    args.out.write_text(text + TOLD)


if __name__ == "__main__":
    run(main)
