//! A tree file on frames: builds first, then the machine, then the reading, so that
//! a difference is put down to the first of them that has it.

use crate::bpf::Insn;
use crate::builds::{self, Answer};
use crate::frames::{network, REACH};
use crate::machine::{rust_run, shown, ACCEPTED, DROPPED, SHORT};
use crate::part::to_hex;
use crate::parts::{Blame, Parts};
use crate::{exports, meaning, shrink, vm, Number, INSN};

/// What both builds made of a tree.
pub struct Program {
    pub bytes: Vec<u8>,
    insns: Vec<Insn>,
}

/// A file that passes checks 1 to 4 and on which the builds agree.
pub struct Trial {
    pub file: Vec<u8>,
    /// The program, or the refusal of 5 to 8 or 15.
    pub built: Result<Program, Number>,
    /// How far a frame has to reach so that no read leaves it.
    pub enough: usize,
}

/// What the port says of a frame; a tree without a program has no verdict.
#[derive(Clone, Copy)]
pub struct Seen {
    pub verdict: u32,
    pub truth: bool,
}

type Wrong = Option<(Blame, String)>;

impl Trial {
    /// Compares the builds; nothing is left to try where they differ.
    pub fn new(file: &[u8], parts: &mut Parts) -> Option<Trial> {
        let built = crate::build(file);
        let answer = builds::bytes_of(&built);
        let differ = builds::compare_once(file, &answer, parts);
        Trial::of(file, built, answer).filter(|_| !differ)
    }

    /// None where the builds differ, or refuse the file with 1 to 4.
    fn agreed(file: &[u8]) -> Option<Trial> {
        let built = crate::build(file);
        let answer = builds::bytes_of(&built);
        let differ = builds::quick_difference(file, &answer);
        Trial::of(file, built, answer).filter(|_| !differ)
    }

    /// None for a file that 1 to 4 refuse.
    fn of(file: &[u8], built: Result<Vec<Insn>, Number>, answer: Answer) -> Option<Trial> {
        if let Err(1..=4) = built {
            return None;
        }
        Some(Trial {
            file: file.to_vec(),
            built: built.and_then(|insns| answer.map(|bytes| Program { bytes, insns })),
            enough: network(file[5]) + REACH,
        })
    }

    /// Asks the port, the Rust and document 01; what is wrong, if anything.
    fn look(&self, frame: &[u8]) -> (Seen, Wrong) {
        let direct = exports::direct(&self.file, frame);
        let truth = meaning::truth(&self.file, frame);
        let number = match &self.built {
            Ok(program) => exports::run(&program.bytes, frame),
            Err(_) => 0,
        };
        let seen = Seen {
            verdict: number >> 16,
            truth,
        };
        let wrong = self.run_wrong(frame, number);
        let wrong = wrong.or_else(|| reading_wrong(direct, truth));
        (
            seen,
            wrong.or_else(|| self.odd(frame, seen, number & 0xFFFF)),
        )
    }

    /// Both machines over the same program.
    fn run_wrong(&self, frame: &[u8], number: u32) -> Wrong {
        let program = self.built.as_ref().ok()?;
        let there = rust_run(&program.insns, frame);
        let text = || {
            let bytes = to_hex(&program.bytes);
            let (here, there) = (shown(number), shown(there));
            format!("pft_run {here}, the Rust {there}, program {bytes}")
        };
        (number != there).then(|| (Blame::Machine, text()))
    }

    /// What demands 1 and 3 say of one frame, where machines and readings agree.
    fn odd(&self, frame: &[u8], seen: Seen, steps: u32) -> Wrong {
        let program = self.built.as_ref().ok()?;
        let verdict = if seen.truth { ACCEPTED } else { DROPPED };
        let text = if steps as usize > program.bytes.len() / INSN {
            "more steps than instructions".into()
        } else if seen.verdict == SHORT && frame.len() >= self.enough {
            "short, though it reaches n + 64".into()
        } else if seen.verdict != SHORT && seen.verdict != verdict {
            "not short, and not the direct reading".into()
        } else {
            return self.padded_wrong(program, frame, seen.truth);
        };
        Some((Blame::Reading, text))
    }

    /// The program on the frame with zeros up to n + 64 bytes: there its verdict is
    /// what the tree says of the frame itself.
    fn padded_wrong(&self, program: &Program, frame: &[u8], truth: bool) -> Wrong {
        if frame.len() >= self.enough {
            return None;
        }
        let mut space = [0; 16 + REACH];
        space[..frame.len()].copy_from_slice(frame);
        let padded = &space[..self.enough];
        if vm::verdict(&program.insns, padded) == Some(truth) {
            return None;
        }
        let number = exports::run(&program.bytes, padded);
        let reading = || {
            (
                Blame::Reading,
                "with zeros behind it not the direct reading".into(),
            )
        };
        self.run_wrong(padded, number).or_else(|| Some(reading()))
    }

    /// One frame, its difference noted with the smallest input that shows it.
    pub fn ask(&self, frame: &[u8], parts: &mut Parts) -> Seen {
        let (seen, wrong) = self.look(frame);
        parts.machine.compared += self.built.is_ok() as u64;
        parts.readings.compared += 1;
        if let Some((blame, _)) = wrong {
            let size = self.file.len() + frame.len();
            let text = || least_difference(&self.file, frame, blame);
            parts.of(blame).differs(size, text);
        }
        seen
    }
}

fn reading_wrong(direct: u32, truth: bool) -> Wrong {
    let text = || format!("pft_direct {direct}, document 01 {}", truth as u32);
    (direct != truth as u32).then(|| (Blame::Reading, text()))
}

fn least_difference(file: &[u8], frame: &[u8], blame: Blame) -> String {
    let wrong = |file: &[u8], frame: &[u8]| {
        let found = Trial::agreed(file)?.look(frame).1;
        found.filter(|(b, _)| *b == blame)
    };
    let file = shrink::tree(file, |file| wrong(file, frame).is_some());
    let frame = shrink::frame(frame, |frame| wrong(&file, frame).is_some());
    let (_, words) = wrong(&file, &frame).expect("it still differs");
    format!("{words}, tree {} frame {}", to_hex(&file), to_hex(&frame))
}
