//! Every line of up to five words: those of the list, an address, a number and one of none of
//! these.

use std::sync::atomic::Ordering;

use crate::asked::Met;
use crate::fail;
use crate::lines::joined;
use crate::part::FIRST;
use crate::trees::Rng;
use crate::typing::{self, Refusal, Word, UNFINISHED, UNKNOWN_WORD};

const LONGEST: usize = 5;
/// Lines of up to so many words are also asked of the grammar alone.
const BY_GRAMMAR: usize = 4;

const VALUES: [&str; 3] = ["10.0.0.1", "80", "x"];

/// Whether an allowed line begins with these words. The second parser's phrases alone are asked:
/// some end of a condition, a condition or none, and brackets that close, make one of them.
fn can_begin(words: &[Word]) -> bool {
    const ADDRESS: Word = Word::Address([10, 0, 0, 1]);
    const NUMBER: Word = Word::Number(80);
    let ends: [&[Word]; 6] = [
        &[],
        &[Word::Host, ADDRESS],
        &[ADDRESS],
        &[Word::Port, NUMBER],
        &[NUMBER],
        &[Word::Protocol(1)],
    ];
    let opens = words.iter().filter(|word| **word == Word::Open).count();
    ends.iter().any(|end| {
        (0..=opens).any(|n| {
            let line = [words, end, &vec![Word::Close; n][..]].concat();
            typing::phrase(&line).is_some()
        })
    })
}

/// The fault of a line by the grammar alone, if it has one.
fn fault(line: &[u8]) -> Option<Refusal> {
    let mut before = Vec::new();
    for (place, bytes) in typing::words(line) {
        let refused = |number| Some(Refusal { number, place });
        let Some(word) = typing::known(bytes) else {
            return refused(UNKNOWN_WORD);
        };
        before.push(word);
        if !can_begin(&before) {
            return refused(UNFINISHED);
        }
    }
    let (number, place) = (UNFINISHED, line.len());
    typing::phrase(&before)
        .is_none()
        .then_some(Refusal { number, place })
}

/// The second parser has to find what the grammar says.
fn check_parser(line: &[u8]) {
    if typing::read(1, line).err() != fault(line) && !FIRST.load(Ordering::Relaxed) {
        let line = line.escape_ascii();
        fail(&format!("the second parser is not the grammar: {line}"));
    }
}

fn compare_from(words: &mut Vec<&str>, all: &[&'static str], met: &mut Met) {
    let line = joined(words);
    met.ask(1 + (met.lines() % 3) as u8, &line);
    if words.len() <= BY_GRAMMAR {
        check_parser(&line);
    }
    if words.len() < LONGEST {
        for word in all {
            words.push(word);
            compare_from(words, all, met);
            words.pop();
        }
    }
}

pub fn compare_all(_: &mut Rng, _: u64, met: &mut Met) {
    let listed = typing::WORDS.iter().map(|(name, _)| *name);
    let all: Vec<&str> = listed.chain(VALUES).collect();
    compare_from(&mut Vec::new(), &all, met);
}
