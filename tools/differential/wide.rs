//! Values of the whole range, put into a tree file in place of some of its few.

use std::ops::Range;

use crate::trees::Rng;
use crate::{HEADER, RECORD};

/// What a value is; the same value of the same sort stays the same in a file.
#[derive(Clone, Copy, PartialEq)]
pub enum Sort {
    Number,
    Prefix,
    Port,
    Ethertype,
    Address,
    Mask,
}

/// The values of a record.
pub fn values(r: &[u8]) -> Vec<(Sort, Range<usize>)> {
    match (r[0], r[2]) {
        (10, 11 | 12) | (23 | 24, _) => vec![(Sort::Number, 3..4)],
        (11, _) => vec![(Sort::Address, 8..12)],
        (12, _) => vec![(Sort::Address, 8..24)],
        (13, _) => vec![(Sort::Address, 8..12), (Sort::Mask, 12..16)],
        (14, _) => vec![(Sort::Prefix, 3..4), (Sort::Address, 8..24)],
        (15, 11 | 12) => vec![(Sort::Number, 3..4), (Sort::Port, 4..6)],
        (15, _) => vec![(Sort::Port, 4..6)],
        (16, 11 | 12) => vec![(Sort::Number, 3..4), (Sort::Port, 4..6), (Sort::Port, 6..8)],
        (16, _) => vec![(Sort::Port, 4..6), (Sort::Port, 6..8)],
        (17, _) => vec![(Sort::Address, 8..14)],
        (18, _) => vec![(Sort::Ethertype, 4..6)],
        _ => Vec::new(),
    }
}

/// What each value of a file has become.
type Drawn = Vec<(Sort, Vec<u8>, Vec<u8>)>;

/// A quarter of the values become others, of the whole range.
fn drawn(rng: &mut Rng, sort: Sort, old: &[u8], known: &mut Drawn) -> Vec<u8> {
    if let Some((_, _, new)) = known.iter().find(|(s, o, _)| *s == sort && o == old) {
        return new.clone();
    }
    let new = match rng.below(4) {
        0 => old.iter().map(|_| rng.draw() as u8).collect(),
        _ => old.to_vec(),
    };
    known.push((sort, old.to_vec(), new.clone()));
    new
}

/// The file with values of the whole range. Equal values stay equal, so facts meet
/// as before. RawIp keeps its ethertypes: nearly all others are refused there.
pub fn widened(rng: &mut Rng, mut file: Vec<u8>) -> Vec<u8> {
    let raw = file.get(5) == Some(&2);
    let mut known = Drawn::new();
    let start = HEADER.min(file.len());
    for r in file[start..].chunks_exact_mut(RECORD) {
        for (sort, place) in values(r) {
            if sort == Sort::Ethertype && raw {
                continue;
            }
            let new = drawn(rng, sort, &r[place.clone()], &mut known);
            r[place].copy_from_slice(&new);
        }
    }
    file
}
