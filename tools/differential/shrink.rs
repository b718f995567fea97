//! Smaller inputs on which the port and the Rust still differ.

use std::ops::Range;

use crate::pcap::{self, Order, CAPTURED, FILE_HEADER, FRAME_HEADER};
use crate::smaller::{by_parts, without};
use crate::{HEADER, INSN, RECORD};

/// Where the tree that starts at a record ends, if it does.
fn end_of<R: AsRef<[u8]>>(records: &[R], at: usize) -> Option<usize> {
    let mut open = 1;
    let mut next = at;
    while open > 0 {
        open = open - 1 + crate::parts(records.get(next)?.as_ref());
        next += 1;
    }
    Some(next)
}

/// Where the tree that starts at a record of one tree ends.
pub fn end<R: AsRef<[u8]>>(records: &[R], at: usize) -> usize {
    end_of(records, at).expect("a tree")
}

/// A file with the tree at a record replaced by one of its parts.
fn with_part(file: &[u8], records: &[&[u8]], at: usize, part: usize) -> Vec<u8> {
    let kept = [
        &records[..at],
        &records[part..end(records, part)],
        &records[end(records, at)..],
    ];
    let kept = kept.concat();
    let mut smaller = file[..HEADER].to_vec();
    smaller[6..].copy_from_slice(&(kept.len() as u16).to_be_bytes());
    smaller.extend(kept.concat());
    smaller
}

/// Files with a node less, those that lose most first.
fn smaller_trees(file: &[u8]) -> Vec<Vec<u8>> {
    let records: Vec<&[u8]> = file[HEADER..].chunks_exact(RECORD).collect();
    let mut smaller = Vec::new();
    for at in 0..records.len() {
        let (mut part, parts) = (at + 1, crate::parts(records[at]));
        for _ in 0..parts {
            smaller.push(with_part(file, &records, at, part));
            part = end(&records, part);
        }
    }
    smaller.sort_by_key(Vec::len);
    smaller
}

/// The first smaller one that still differs, again and again.
fn least(
    mut input: Vec<u8>,
    smaller: fn(&[u8]) -> Vec<Vec<u8>>,
    differs: impl Fn(&[u8]) -> bool,
) -> Vec<u8> {
    while let Some(next) = smaller(&input).into_iter().find(|i| differs(i)) {
        input = next;
    }
    input
}

/// A tree file; one that is not one tree stays as it is.
pub fn tree(file: &[u8], differs: impl Fn(&[u8]) -> bool) -> Vec<u8> {
    let behind = file.get(HEADER..).unwrap_or(&[]).chunks_exact(RECORD);
    let whole = behind.remainder().is_empty();
    let records: Vec<&[u8]> = behind.collect();
    if !whole || end_of(&records, 0) != Some(records.len()) {
        return file.to_vec();
    }
    least(file.to_vec(), smaller_trees, differs)
}

/// Programs without a half, a quarter, .. or one of their instructions.
fn smaller_programs(program: &[u8]) -> Vec<Vec<u8>> {
    let (mut smaller, mut size) = (Vec::new(), program.len() / INSN);
    while size > 1 {
        size = size.div_ceil(2);
        let without =
            |part: &[u8], at: usize| [&program[..at], &program[at + part.len()..]].concat();
        let parts = program.chunks(INSN * size).enumerate();
        smaller.extend(parts.map(|(i, part)| without(part, INSN * size * i)));
        if size == 1 {
            break;
        }
    }
    smaller
}

pub fn program(program: &[u8], differs: impl Fn(&[u8]) -> bool) -> Vec<u8> {
    least(program.to_vec(), smaller_programs, differs)
}

/// The shortest start of a frame that still differs.
pub fn frame(frame: &[u8], differs: impl Fn(&[u8]) -> bool) -> Vec<u8> {
    let length = (0..frame.len()).find(|n| differs(&frame[..*n]));
    frame[..length.unwrap_or(frame.len())].to_vec()
}

// ── Captures ─────────────────────────────────────────────────────────────────

fn with_zeros(bytes: &[u8], part: Range<usize>) -> Vec<u8> {
    let mut other = bytes.to_vec();
    other[part].fill(0);
    other
}

/// The file header, each frame with its header, and the rest.
fn pieces(file: &[u8]) -> Vec<Vec<u8>> {
    let given = pcap::walked(file);
    let (mut pieces, mut at) = (Vec::new(), 0);
    let ends = given.frames.iter().map(|f| FRAME_HEADER + f.len());
    for size in [FILE_HEADER].into_iter().chain(ends) {
        pieces.push(file[at..at + size].to_vec());
        at += size;
    }
    pieces.push(file[at..].to_vec());
    pieces
}

/// A frame without so many of its last bytes, its captured length with it.
fn shorter(piece: &[u8], order: Order, by: usize) -> Vec<u8> {
    let mut shorter = piece[..piece.len() - by].to_vec();
    let length = (shorter.len() - FRAME_HEADER) as u32;
    shorter[CAPTURED..CAPTURED + 4].copy_from_slice(&order.bytes(length));
    shorter
}

/// The frame at a place of the pieces, as short as it may be.
fn shorten(pieces: &mut [Vec<u8>], at: usize, order: Order, differs: &impl Fn(&[u8]) -> bool) {
    let mut by = pieces[at].len() - FRAME_HEADER;
    while by > 0 {
        let mut other = pieces.to_vec();
        if pieces[at].len() >= FRAME_HEADER + by {
            other[at] = shorter(&pieces[at], order, by);
        }
        if other[at] != pieces[at] && differs(&other.concat()) {
            pieces[at] = other[at].clone();
        } else {
            by /= 2;
        }
    }
}

/// A capture with fewer frames, shorter frames where they are few, fewer bytes, and zeros
/// for others.
pub fn capture(file: &[u8], differs: impl Fn(&[u8]) -> bool) -> Vec<u8> {
    const FEW: usize = 100;
    let mut file = file.to_vec();
    if let Ok(order) = pcap::order_of(&file) {
        let whole = |pieces: &[Vec<u8>]| differs(&pieces.concat());
        let bytes = |pieces: &[Vec<u8>]| pieces.iter().map(Vec::len).sum();
        let mut pieces = by_parts(pieces(&file), bytes, without, whole);
        let few = if pieces.len() < FEW { pieces.len() } else { 0 };
        for at in 1..few.max(2) - 1 {
            if pieces[at].len() >= FRAME_HEADER {
                shorten(&mut pieces, at, order, &differs);
            }
        }
        file = pieces.concat();
    }
    let fewer = by_parts(file, <[u8]>::len, without, &differs);
    by_parts(fewer, <[u8]>::len, with_zeros, &differs)
}
