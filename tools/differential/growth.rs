//! Trees that grow into long programs: a search that changes a tree a little and
//! keeps what has hardly fewer instructions, at the end none fewer. Every program
//! that it meets is compared.

use crate::builds::{answer_of, compare_once};
use crate::frames;
use crate::parts::Parts;
use crate::shrink::end;
use crate::trees::edges::file_of;
use crate::trees::{self, leaf, record, Record, Rng, Values, ALL, AND, MOST, NOT, OR, SLL, SOURCE};
use crate::trial::Trial;
use crate::INSN;

/// Changes tried before the search starts anew.
const CLIMB: u64 = 250_000;
/// How many instructions a change may lose when a climb begins.
const SLACK: u64 = 12;
/// Conditions that take many instructions, the longest most often.
const LONG_KINDS: [u8; 14] = [14, 14, 14, 14, 12, 12, 16, 16, 15, 13, 17, 10, 18, 21];

/// A tree on its way, and how many instructions it has.
struct Climber {
    link: u8,
    records: Vec<Record>,
    length: usize,
}

struct Met<'p> {
    parts: &'p mut Parts,
    programs: u64,
    refused: u64,
    longest: usize,
    climbs: u64,
}

fn long_leaf(rng: &mut Rng) -> Record {
    let mut values = Values::new(rng, ALL);
    values.directions = vec![0, 0, 0, 3, rng.below(4) as u8];
    values.prefixes = vec![127, 127, rng.between(97, 128) as u8];
    let kind = rng.pick(&LONG_KINDS);
    leaf(rng, &values, kind)
}

impl Climber {
    /// One of the ladders of trees.rs, as good a start as any.
    fn new(rng: &mut Rng) -> Climber {
        let (link, records) = trees::ladder_file(rng);
        Climber {
            link,
            records: taken(link, records),
            length: 0,
        }
    }

    fn file(&self, records: &[Record]) -> Vec<u8> {
        file_of(self.link, records)
    }

    /// One change or two; while there are too many records, some are left out.
    fn next(&self, rng: &mut Rng) -> Vec<Record> {
        let mut records = changed(rng, &self.records);
        if rng.one_in(3) {
            records = changed(rng, &records);
        }
        while records.len() > MOST {
            records = shortened(rng, &records);
        }
        taken(self.link, records)
    }
}

/// LinuxSll takes of the ether conditions the sender's alone.
fn taken(link: u8, mut records: Vec<Record>) -> Vec<Record> {
    let ether = |r: &&mut Record| link == SLL && matches!(r[0], 17 | 19);
    for r in records.iter_mut().filter(ether) {
        (r[0], r[1]) = (17, SOURCE);
    }
    records
}

/// Without a not, or without one part of a join, a leaf mostly.
fn shortened(rng: &mut Rng, records: &[Record]) -> Vec<Record> {
    let at = rng.below(records.len());
    let last = end(records, at);
    let part = &records[at..last];
    let kept = match part[0][0] {
        AND | OR => {
            let middle = end(part, 1);
            let (left, right) = (&part[1..middle], &part[middle..]);
            if left.len() < right.len() {
                right
            } else {
                left
            }
        }
        NOT => &part[1..],
        _ => part,
    };
    [&records[..at], kept, &records[last..]].concat()
}

/// The records with the tree at a place in other words: under a not or a join,
/// without its node, with its parts exchanged, or another leaf.
fn changed(rng: &mut Rng, records: &[Record]) -> Vec<Record> {
    let at = rng.below(records.len());
    let last = end(records, at);
    let part = &records[at..last];
    let new = match part[0][0] {
        AND | OR => changed_join(rng, part),
        NOT => changed_not(rng, part),
        _ => changed_leaf(rng, part),
    };
    [&records[..at], &new, &records[last..]].concat()
}

fn join(rng: &mut Rng) -> Record {
    record(rng.pick(&[AND, OR]))
}

fn changed_join(rng: &mut Rng, part: &[Record]) -> Vec<Record> {
    let middle = end(part, 1);
    let (left, right) = (&part[1..middle], &part[middle..]);
    match rng.below(6) {
        0 => left.to_vec(),
        1 => right.to_vec(),
        2 => [&part[..1], right, left].concat(),
        3 => [&[join(rng)], &part[1..]].concat(),
        4 => [&[record(NOT)], part].concat(),
        _ => [&[join(rng)], part, &[long_leaf(rng)]].concat(),
    }
}

fn changed_not(rng: &mut Rng, part: &[Record]) -> Vec<Record> {
    match rng.below(3) {
        0 => part[1..].to_vec(),
        1 => [&[join(rng), long_leaf(rng)], part].concat(),
        _ => [&[join(rng)], part, &[long_leaf(rng)]].concat(),
    }
}

fn changed_leaf(rng: &mut Rng, part: &[Record]) -> Vec<Record> {
    let new = long_leaf(rng);
    match rng.below(5) {
        0 => vec![record(NOT), part[0]],
        1 => vec![join(rng), new, part[0]],
        2 => vec![join(rng), part[0], new],
        _ => vec![new],
    }
}

/// How many instructions a file has, 0 if it is refused; the builds are compared.
fn measured(file: &[u8], met: &mut Met) -> usize {
    let answer = answer_of(file);
    compare_once(file, &answer, met.parts);
    let length = answer.map_or(0, |program| program.len() / INSN);
    met.programs += (length > 0) as u64;
    met.refused += (length == 0) as u64;
    met.longest = met.longest.max(length);
    length
}

/// Runs and readings over the end of a climb.
fn look(rng: &mut Rng, file: &[u8], met: &mut Met) {
    const LOOKS: usize = 40;
    let Some(trial) = Trial::new(file, met.parts) else {
        return;
    };
    for _ in 0..LOOKS {
        let frame = frames::aimed(rng, file);
        trial.ask(&frame, met.parts);
        let length = rng.below(frame.len());
        trial.ask(&frame[..length], met.parts);
    }
}

fn climb(rng: &mut Rng, steps: u64, met: &mut Met) {
    let mut climber = Climber::new(rng);
    climber.length = measured(&climber.file(&climber.records), met);
    for step in 0..steps {
        let slack = rng.below(1 + (SLACK * (steps - step) / steps) as usize);
        let records = climber.next(rng);
        let length = measured(&climber.file(&records), met);
        if length + slack >= climber.length {
            (climber.records, climber.length) = (records, length);
        }
    }
    look(rng, &climber.file(&climber.records), met);
    met.climbs += 1;
}

/// So many changes, in climbs.
pub fn compare_all(seed: u64, count: u64, parts: &mut Parts) {
    let mut rng = Rng(seed ^ 0x6203);
    let mut met = Met {
        parts,
        programs: 0,
        refused: 0,
        longest: 0,
        climbs: 0,
    };
    for start in (0..count).step_by(CLIMB as usize) {
        climb(&mut rng, CLIMB.min(count - start), &mut met);
    }
    println!(
        "programs met by {} climbs: {}, instructions up to {}; trees refused: {}",
        met.climbs, met.programs, met.longest, met.refused
    );
}
