//! Rows with less in them on which something still differs.

use std::ops::Range;

/// How many bytes the smaller inputs that are tried may have in all.
const TRIED: usize = 64 << 20;

/// A row with one part after another changed, where it still differs: halves, quarters, ..
/// and single items. `bytes` tells what a row weighs.
pub fn by_parts<T: Clone + PartialEq>(
    mut row: Vec<T>,
    bytes: impl Fn(&[T]) -> usize,
    change: impl Fn(&[T], Range<usize>) -> Vec<T>,
    differs: impl Fn(&[T]) -> bool,
) -> Vec<T> {
    let (mut size, mut tried) = (row.len(), 0);
    while size > 0 {
        let mut at = 0;
        while at < row.len() && tried < TRIED {
            let end = (at + size).min(row.len());
            let next = change(&row, at..end);
            tried += bytes(&next);
            let better = next != row && differs(&next);
            if !better || next.len() == row.len() {
                at = end;
            }
            if better {
                row = next;
            }
        }
        size /= 2;
    }
    row
}

pub fn without<T: Clone>(row: &[T], part: Range<usize>) -> Vec<T> {
    [&row[..part.start], &row[part.end..]].concat()
}

/// Where the bracket that opens at a word closes.
fn closing(words: &[Vec<u8>], at: usize) -> Option<usize> {
    let mut open = 0;
    (at..words.len()).find(|i| {
        open += (words[*i] == b"(") as i64 - (words[*i] == b")") as i64;
        open <= 0
    })
}

/// Rows without some words that stand together, with one in their place, and without a bracket
/// and the one that closes it.
fn fewer_words(words: &[Vec<u8>]) -> Vec<Vec<Vec<u8>>> {
    const MOST: usize = 8;
    let mut fewer = Vec::new();
    for size in (1..=MOST.min(words.len())).rev() {
        for at in 0..=words.len() - size {
            fewer.push(without(words, at..at + size));
            if size > 1 {
                let (before, behind) = (&words[..at], &words[at + size..]);
                fewer.push([before, &[b"ip".to_vec()], behind].concat());
            }
        }
    }
    let opened = (0..words.len()).filter(|at| words[*at] == b"(");
    let pairs = opened.filter_map(|at| Some((at, closing(words, at)?)));
    fewer.extend(pairs.map(|(at, end)| without(&without(words, end..end + 1), at..at + 1)));
    fewer
}

/// Words of a line, as few as still differ; many are left as they are.
pub fn words(mut words: Vec<Vec<u8>>, differs: impl Fn(&[Vec<u8>]) -> bool) -> Vec<Vec<u8>> {
    const MANY: usize = 400;
    while words.len() < MANY {
        match fewer_words(&words).into_iter().find(|fewer| differs(fewer)) {
            Some(fewer) => words = fewer,
            None => break,
        }
    }
    words
}
