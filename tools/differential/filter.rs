//! Trees for captures: what the Rust, or the second generator, makes of them, frames that
//! they look at, and captures of such frames.

use crate::bpf::Insn;
use crate::builds::{self, Answer};
use crate::drafts::{forms, spoiled, Draft, Spoiled};
use crate::machine::rust_run;
use crate::pcap::{self, CUT_FRAME, LONGEST, NO_CAPTURE, OTHER_LINK};
use crate::trees::{self, edges, Rng};
use crate::wide::widened;
use crate::{frames, Number};

/// A tree file and what is made of it.
pub struct Filter {
    pub file: Vec<u8>,
    pub link: u8,
    pub answer: Answer,
    insns: Vec<Insn>,
}

impl Filter {
    pub fn new(file: &[u8]) -> Filter {
        let built = crate::build(file);
        let link = file.get(5).copied().filter(|link| (1..=3).contains(link));
        Filter {
            file: file.to_vec(),
            link: link.unwrap_or(1),
            answer: builds::bytes_of(&built),
            insns: built.unwrap_or_default(),
        }
    }

    pub fn refusal(&self) -> Option<Number> {
        self.answer.as_ref().err().copied()
    }

    /// How long a buffer has to be; for a refused tree it does not matter.
    pub fn exact(&self) -> usize {
        const REFUSED: usize = 24;
        self.answer.as_ref().map_or(REFUSED, Vec::len)
    }

    /// What vm.rs says of a frame, as `pft_run` has to.
    pub fn run(&self, frame: &[u8]) -> u32 {
        rust_run(&self.insns, frame)
    }

    /// How many frames get each verdict of vm.rs; none where the tree is refused.
    pub fn verdicts(&self, frames: &[&[u8]]) -> [u64; 5] {
        let mut verdicts = [0; 5];
        let run = if self.answer.is_ok() { frames } else { &[] };
        for frame in run {
            verdicts[(self.run(frame) >> 16) as usize] += 1;
        }
        verdicts
    }

    /// A frame that the tree looks at, where it is one tree, else any.
    pub fn frame(&self, rng: &mut Rng) -> Vec<u8> {
        match self.answer {
            Err(1..=4) => rng.draw().to_be_bytes().repeat(10),
            _ => frames::aimed(rng, &self.file),
        }
    }
}

// ── Drawn captures ───────────────────────────────────────────────────────────

/// Mostly as the tree looks at it; at times none, cut, or as long as may be.
fn body(rng: &mut Rng, filter: &Filter) -> Vec<u8> {
    let mut body = filter.frame(rng);
    match rng.below(16) {
        0 => body.clear(),
        1 => body.truncate(1),
        2..=5 => body.truncate(rng.below(body.len() + 1)),
        6 => body.resize(rng.between(60, 1514), 0),
        _ => (),
    }
    if rng.one_in(1000) {
        let longest = rng.pick(&[9000, LONGEST - 1, LONGEST]);
        body.resize(longest, rng.draw() as u8);
    }
    body
}

pub fn drawn_filter(rng: &mut Rng, wide: &mut Rng) -> Filter {
    let file = match rng.below(8) {
        0 => edges::faulty(rng).file,
        1 => edges::junk(rng),
        _ => widened(wide, trees::tree_file(rng)),
    };
    Filter::new(&file)
}

pub fn bodies(rng: &mut Rng, filter: &Filter) -> Vec<Vec<u8>> {
    let most = rng.pick(&[0, 1, 2, 3, 5, 8, 20]);
    let frames = rng.between(most / 2, most);
    (0..frames).map(|_| body(rng, filter)).collect()
}

/// None, or one, two or three of 12 to 14.
pub fn faults(rng: &mut Rng) -> Vec<Number> {
    let all = [NO_CAPTURE, OTHER_LINK, CUT_FRAME];
    let set = if rng.one_in(2) { 0 } else { rng.below(8) };
    let mut faults = all.to_vec();
    faults.retain(|n| set >> (n - NO_CAPTURE) & 1 == 1);
    faults
}

pub fn written(rng: &mut Rng, filter: &Filter, bodies: &[Vec<u8>], faults: &[Number]) -> Spoiled {
    let forms: Vec<_> = forms().collect();
    let (form, field) = (rng.pick(&forms), pcap::field_of(filter.link));
    let draft = Draft::new(rng, form, field, bodies.to_vec());
    spoiled(rng, draft, faults)
}
