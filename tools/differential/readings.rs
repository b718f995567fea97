//! Demand 3 by samples: trees over frames of every length, `pft_build` with
//! `pft_run` against `pft_direct`, and all three against the Rust and document 01.

use std::collections::HashSet;

use crate::frames::{self, REACH};
use crate::machine::{ACCEPTED, BROKEN, DROPPED, SHORT};
use crate::part::{to_hex, Answers};
use crate::parts::Parts;
use crate::trees::{self, edges, Rng};
use crate::trial::{Seen, Trial};
use crate::wide::widened;
use crate::{exports, HEADER, MAX_FRAME, RECORD};

struct Met<'p> {
    parts: &'p mut Parts,
    trees: Answers,
    /// Link, kind, direction and protocol of the conditions of accepted trees.
    conditions: HashSet<[u8; 4]>,
    /// Direct readings of files that are refused, or of frames that are too long.
    refused: u64,
    /// By verdict, or 0 for a tree without a program; read directly false or true.
    verdicts: [[u64; 2]; 5],
    /// Shorter than n, than n + 64, than 65,535, of 65,535 bytes.
    lengths: [u64; 4],
    /// Frames that pass a sender test, and that fail by one of its three parts alone.
    senders: [u64; 4],
    /// Pairs of frames of which one begins with the other, the shorter not short.
    pairs: u64,
}

impl Met<'_> {
    fn note_tree(&mut self, tree: &Trial) {
        let refusal = tree.built.as_ref().err().copied();
        self.trees[refusal.unwrap_or(0) as usize] += 1;
        let records = tree.file[HEADER..].chunks_exact(RECORD);
        for r in records.filter(|r| r[0] >= 10 && refusal.is_none()) {
            self.conditions.insert([tree.file[5], r[0], r[1], r[2]]);
        }
    }

    fn note(&mut self, tree: &Trial, frame: &[u8], seen: Seen) {
        self.verdicts[seen.verdict.min(BROKEN) as usize][seen.truth as usize] += 1;
        let class = match frame.len() {
            MAX_FRAME => 3,
            length if length >= tree.enough => 2,
            length if length + REACH >= tree.enough => 1,
            _ => 0,
        };
        self.lengths[class] += 1;
        match frames::sender_test(&tree.file, frame) {
            Some([true, true, true]) => self.senders[0] += 1,
            Some([false, true, true]) => self.senders[1] += 1,
            Some([true, false, true]) => self.senders[2] += 1,
            Some([true, true, false]) => self.senders[3] += 1,
            _ => (),
        }
    }

    fn print(&self) {
        println!(
            "readings of {} accepted trees with {} conditions, and {} refused readings",
            self.trees[0],
            self.conditions.len(),
            self.refused
        );
        let numbers = (5..9).chain([15]);
        let by_number: Vec<String> = numbers.map(|n| format!("{n}: {}", self.trees[n])).collect();
        println!(
            "readings of refused trees, by number {}",
            by_number.join(", ")
        );
        for (name, v) in [
            ("accepted", ACCEPTED),
            ("dropped", DROPPED),
            ("short", SHORT),
            ("without a program", 0),
        ] {
            let [no, yes] = self.verdicts[v as usize];
            println!("{name}: {yes} read directly true, {no} false");
        }
        let [below, within, enough, limit] = self.lengths;
        println!("frames of less than n bytes: {below}, than n + 64: {within}, more: {enough}, 65,535: {limit}");
        println!("frames and their extensions: {} pairs", self.pairs);
        let [pass, high, low, address] = self.senders;
        print!("sender tests passed: {pass}; failed by the length's high byte alone: {high}, ");
        println!("by its low byte: {low}, by the address: {address}");
    }
}

fn ask(tree: &Trial, frame: &[u8], met: &mut Met) -> Seen {
    let seen = tree.ask(frame, met.parts);
    met.note(tree, frame, seen);
    seen
}

/// G begins with F, which is not short: the same verdict, and what G says.
fn extends(tree: &Trial, f: Seen, g: Seen, frame: &[u8], met: &mut Met) {
    met.pairs += 1;
    if g.verdict != f.verdict || g.truth != (f.verdict == ACCEPTED) {
        met.parts
            .readings
            .differs(tree.file.len() + frame.len(), || {
                let (tree, frame) = (to_hex(&tree.file), to_hex(frame));
                format!("not the verdict of a frame that it begins with, tree {tree} frame {frame}")
            });
    }
}

// ── All lengths of a frame ───────────────────────────────────────────────────

/// Every length up to n + 66, at times the longest; each against the first that
/// is not short. The length of that one.
fn lengths(tree: &Trial, frame: &[u8], met: &mut Met) -> Option<(usize, Seen)> {
    let mut first = None;
    let most = frame.len().min(tree.enough + 2);
    let ends = frame.len() > most;
    let long = [frame.len() - 1, frame.len()];
    for length in (0..=most).chain(long.into_iter().filter(|_| ends)) {
        let seen = ask(tree, &frame[..length], met);
        match first {
            Some((_, f)) => extends(tree, f, seen, &frame[..length], met),
            None if seen.verdict != SHORT => first = Some((length, seen)),
            None => (),
        }
    }
    first
}

/// The first frame that is not short with other bytes behind it.
fn other_tails(rng: &mut Rng, tree: &Trial, frame: &[u8], first: (usize, Seen), met: &mut Met) {
    for _ in 0..2 {
        let other = frames::other_tail(rng, frame, first.0);
        for _ in 0..4 {
            let lengths = [
                rng.between(first.0, other.len()),
                (first.0 + 1).min(other.len()),
                tree.enough,
                other.len(),
            ];
            let length = rng.pick(&lengths);
            let seen = ask(tree, &other[..length], met);
            extends(tree, first.1, seen, &other[..length], met);
        }
    }
}

fn compare_frame(rng: &mut Rng, tree: &Trial, met: &mut Met) {
    let mut frame = frames::aimed(rng, &tree.file);
    if rng.below(8) == 0 {
        let fill = rng.draw() as u8;
        frame.resize(MAX_FRAME, fill);
    }
    if tree.built.is_err() {
        return some_lengths(rng, tree, &frame, met);
    }
    if let Some(first) = lengths(tree, &frame, met) {
        other_tails(rng, tree, &frame, first, met);
    }
}

/// A tree without a program has a direct reading alone: the whole frame and some of
/// its starts.
fn some_lengths(rng: &mut Rng, tree: &Trial, frame: &[u8], met: &mut Met) {
    const SOME: usize = 12;
    ask(tree, frame, met);
    for _ in 0..SOME {
        let length = rng.between(0, tree.enough + 2);
        ask(tree, &frame[..length], met);
    }
}

// ── Trees ────────────────────────────────────────────────────────────────────

/// Files that are refused with 1 to 4, and frames that are too long.
fn compare_refusals(rng: &mut Rng, file: &[u8], met: &mut Met) {
    let length = rng.pick(&[0, 1, 80, MAX_FRAME, MAX_FRAME + 1, MAX_FRAME + 2]);
    let frame = vec![rng.draw() as u8; length];
    let wanted = match crate::check(file) {
        Err(n) => 256 + n,
        Ok(_) if length > MAX_FRAME => 256 + 10,
        Ok(_) => return,
    };
    met.parts.readings.compared += 1;
    met.refused += 1;
    refused_reading(file, &frame, wanted, met.parts);
}

/// The number that a reading has to be refused with.
pub fn refused_reading(file: &[u8], frame: &[u8], wanted: u32, parts: &mut Parts) {
    let direct = exports::direct(file, frame);
    if direct != wanted {
        let (length, tree) = (frame.len(), to_hex(file));
        parts.readings.differs(file.len() + length, || {
            format!("pft_direct {direct}, not {wanted}, frame of {length}, tree {tree}")
        });
    }
}

/// Two frames in all their lengths, where the builds agree.
fn compare_tree(rng: &mut Rng, file: &[u8], met: &mut Met) {
    if let Some(tree) = Trial::new(file, met.parts) {
        met.note_tree(&tree);
        for _ in 0..2 {
            compare_frame(rng, &tree, met);
        }
    }
}

/// Trees from all generators, each with its frames, up to about so many frames.
pub fn compare_all(seed: u64, count: u64, parts: &mut Parts) {
    let (mut rng, mut wide) = (Rng(seed ^ 0xDE3A), Rng(seed ^ 0x31DF));
    let most = parts.readings.compared + count;
    let mut met = Met {
        parts,
        trees: Answers::default(),
        conditions: HashSet::new(),
        refused: 0,
        verdicts: [[0; 2]; 5],
        lengths: [0; 4],
        senders: [0; 4],
        pairs: 0,
    };
    for _ in 0..count / 16 {
        if met.parts.readings.compared >= most {
            break;
        }
        let files = match rng.below(16) {
            0 => edges::tuned(&mut rng, |file| crate::build(file).err()),
            1 => vec![edges::junk(&mut rng)],
            2 => vec![edges::faulty(&mut rng).file],
            3 => vec![edges::cooked(&mut rng)],
            _ => vec![widened(&mut wide, trees::tree_file(&mut rng))],
        };
        for file in files {
            compare_refusals(&mut rng, &file, &mut met);
            compare_tree(&mut rng, &file, &mut met);
        }
    }
    met.print();
}
