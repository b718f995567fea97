//! The fewest words of which something still holds.

use crate::drawing::{unbracketed, Words};

/// Leaves words out of an allowed line for as long as it still holds.
pub fn fewest(mut words: Words, holds: &dyn Fn(&[String]) -> bool) -> Words {
    loop {
        let smaller = fewer(&words).find(|fewer| holds(fewer));
        match smaller {
            Some(smaller) => words = smaller,
            None => return words,
        }
    }
}

/// The line without a run of words, the longest first, or without a pair of brackets.
fn fewer(words: &[String]) -> impl Iterator<Item = Words> + '_ {
    let count = words.len();
    let runs = (1..=count).rev().flat_map(move |size| {
        let starts = 0..=count - size;
        starts.map(move |at| [&words[..at], &words[at + size..]].concat())
    });
    let opened = (0..count).filter(|&at| words[at] == "(");
    runs.chain(opened.map(|at| unbracketed(words, at)))
}
