//! What the lines of a run were: files and refusals, sizes, words, frames.

use std::collections::BTreeSet;

use crate::asked::{Outcome, Read, FAR_JUMP, KIND_ON_RAW, SHORT};
use crate::typing::{self, Refusal, Word, HEADER, LINK, MOST, RECORD};

/// Words as pairs are told apart: those of the list, an address, a number; also the start and
/// the end of a line.
const ADDRESS: usize = typing::WORDS.len();
const NUMBER: usize = ADDRESS + 1;
const EDGE: usize = NUMBER + 1;

fn index(word: &[u8]) -> usize {
    let listed = typing::WORDS.iter();
    let at = listed
        .map(|(name, _)| name.as_bytes())
        .position(|name| name == word);
    at.unwrap_or(match typing::known(word) {
        Some(Word::Address(_)) => ADDRESS,
        _ => NUMBER,
    })
}

/// What the files, the refusals and the frames were.
pub struct Seen {
    answers: [u64; typing::TOO_LARGE as usize + 1],
    longest: usize,
    /// The farthest place, of 16 and of 17, and how often 17 was at the end.
    farthest: [usize; 2],
    at_end: u64,
    /// 16 and 17 of lines that have too many records or brackets as well.
    before_too_large: u64,
    /// What could not follow what.
    pairs: BTreeSet<[usize; 2]>,
    /// Files by records and by brackets that are open at once.
    records: [u64; MOST + 1],
    brackets: [u64; MOST + 1],
    /// Too large by records alone, by brackets alone, by both.
    too_large: [u64; 3],
    /// Conditions by link, kind, direction and protocol.
    conditions: BTreeSet<[u8; 4]>,
    ports: Vec<bool>,
    bytes: [[bool; 256]; 4],
    /// Builds: a count, 5, 8.
    builds: [u64; 3],
    /// What lines said of frames: false, true; and verdicts.
    said: [u64; 2],
    verdicts: [u64; SHORT as usize + 1],
}

impl Seen {
    pub fn new() -> Seen {
        Seen {
            answers: [0; typing::TOO_LARGE as usize + 1],
            longest: 0,
            farthest: [0; 2],
            at_end: 0,
            before_too_large: 0,
            pairs: BTreeSet::new(),
            records: [0; MOST + 1],
            brackets: [0; MOST + 1],
            too_large: [0; 3],
            conditions: BTreeSet::new(),
            ports: vec![false; 1 << 16],
            bytes: [[false; 256]; 4],
            builds: [0; 3],
            said: [0; 2],
            verdicts: [0; SHORT as usize + 1],
        }
    }

    pub fn note(&mut self, link: u8, text: &[u8], read: &Read) {
        self.longest = self.longest.max(text.len());
        match read {
            Ok(phrase) => self.note_file(text, &phrase.file(link)),
            Err(refusal) => self.note_refusal(text, refusal),
        }
    }

    fn note_file(&mut self, text: &[u8], file: &[u8]) {
        self.answers[0] += 1;
        let size = typing::size_of(text).expect("a line without fault");
        self.records[size.records] += 1;
        self.brackets[size.brackets] += 1;
        for r in file[HEADER..].chunks_exact(RECORD).filter(|r| r[0] >= 10) {
            self.conditions.insert([file[LINK], r[0], r[1], r[2]]);
            match r[0] {
                11 => (0..4).for_each(|i| self.bytes[i][r[8 + i] as usize] = true),
                15 => self.ports[u16::from_be_bytes([r[4], r[5]]) as usize] = true,
                _ => (),
            }
        }
    }

    fn note_refusal(&mut self, text: &[u8], refusal: &Refusal) {
        self.answers[refusal.number as usize] += 1;
        match refusal.number {
            typing::UNKNOWN_WORD => self.farthest[0] = self.farthest[0].max(refusal.place),
            typing::UNFINISHED => self.note_unfinished(text, refusal.place),
            typing::TOO_LARGE => self.note_too_large(text),
            _ => return,
        }
        if refusal.number != typing::TOO_LARGE && text.len() > MOST {
            let over = typing::size_of_known(text).over();
            self.before_too_large += over.contains(&true) as u64;
        }
    }

    fn note_too_large(&mut self, text: &[u8]) {
        let over = typing::size_of_known(text).over();
        let which = [[true, false], [false, true], [true, true]];
        let which = which.iter().position(|w| *w == over);
        self.too_large[which.expect("too large")] += 1;
    }

    fn note_unfinished(&mut self, text: &[u8], place: usize) {
        self.farthest[1] = self.farthest[1].max(place);
        self.at_end += (place == text.len()) as u64;
        let last = |bytes: &[u8]| {
            let mut words = bytes.rsplit(|b| *b == b' ').filter(|w| !w.is_empty());
            words.next().map_or(EDGE, index)
        };
        let first = |bytes: &[u8]| {
            let mut words = bytes.split(|b| *b == b' ').filter(|w| !w.is_empty());
            words.next().map_or(EDGE, index)
        };
        self.pairs
            .insert([last(&text[..place]), first(&text[place..])]);
    }

    pub fn note_build(&mut self, answer: u32) {
        let at = [0, KIND_ON_RAW, FAR_JUMP]
            .iter()
            .position(|n| *n == answer >> 16);
        self.builds[at.expect("a build that a typed file can give")] += 1;
    }

    pub fn note_frame(&mut self, outcome: &Outcome) {
        self.said[outcome.says as usize] += 1;
        if let Some(verdict) = outcome.verdict {
            self.verdicts[verdict as usize % self.verdicts.len()] += 1;
        }
    }

    fn print_refusals(&self) {
        println!("refused 1: {}", self.answers[1]);
        let [unknown, unfinished] = self.farthest;
        println!(
            "refused 16: {}, the farthest at byte {unknown}",
            self.answers[16]
        );
        println!(
            "refused 17: {}, at the end {}, the farthest at byte {unfinished}",
            self.answers[17], self.at_end
        );
        let pairs = self.pairs.len();
        println!("what cannot follow: {pairs} pairs of 19 words, start and end");
        let before = self.before_too_large;
        println!("refused 16 or 17, with too many records or brackets as well: {before}");
        let [records, brackets, both] = self.too_large;
        println!(
            "refused 18: {}, by records alone {records}, by brackets alone {brackets}, both {both}",
            self.answers[18]
        );
    }

    pub fn print(&self) {
        let met = |counts: &[u64]| counts.iter().filter(|count| **count > 0).count();
        let files = self.answers[0];
        let lines: u64 = self.answers.iter().sum();
        println!("lines: {lines}, up to {} bytes", self.longest);
        println!("files: {files}");
        self.print_refusals();
        println!("files by records: {} of 128 counts", met(&self.records));
        println!(
            "files by brackets open at once: {} of 129 counts",
            met(&self.brackets)
        );
        println!(
            "conditions by link, protocol and direction: {} of 69",
            self.conditions.len()
        );
        let ports = self.ports.iter().filter(|port| **port).count();
        let bytes = self.bytes.map(|seen| seen.iter().filter(|b| **b).count());
        println!("ports: {ports} of 65536, bytes of an address: {bytes:?} of 256");
        let [built, five, eight] = self.builds;
        println!("files built: {built}, refused 5: {five}, refused 8: {eight}");
        let [no, yes] = self.said;
        println!("frames of which the line is true: {yes}, false: {no}");
        let [_, accepted, dropped, short] = self.verdicts;
        println!("verdicts: accepted {accepted}, dropped {dropped}, short {short}");
    }
}
