//! Lines that are allowed, drawn with the tree that they are to give; and each with a fault: a
//! word or a byte changed, dropped, doubled, put elsewhere; cut at every byte.

use std::sync::atomic::Ordering;

use crate::asked::Met;
use crate::fail;
use crate::part::FIRST;
use crate::trees::{put, record, Record, Rng, AND, DESTINATION, EITHER, NOT, OR, SOURCE};
use crate::typing::{self, HEADER, LINK, MOST, WORDS};

/// Frames for a drawn line.
const FRAMES: usize = 6;

// ── Conditions ───────────────────────────────────────────────────────────────

const BYTES: [u8; 12] = [0, 1, 9, 10, 99, 100, 127, 199, 200, 249, 250, 255];
pub const PORTS: [u16; 14] = [
    0, 9, 10, 53, 80, 99, 100, 255, 256, 999, 1000, 9999, 10000, 65535,
];

/// Protocols by their words, and those that a port goes with.
pub const PROTOCOLS: [(&str, u8); 8] = [
    ("ip", 1),
    ("ip6", 2),
    ("arp", 3),
    ("rarp", 4),
    ("tcp", 5),
    ("udp", 6),
    ("icmp", 7),
    ("sctp", 10),
];
pub const TRANSPORTS: [(&str, u8); 4] = [("", 0), ("tcp", 5), ("udp", 6), ("sctp", 10)];
pub const SIDES: [(&str, u8); 3] = [("", EITHER), ("src", SOURCE), ("dst", DESTINATION)];

fn address(rng: &mut Rng) -> [u8; 4] {
    [0; 4].map(|_| match rng.one_in(2) {
        true => rng.pick(&BYTES),
        false => rng.draw() as u8,
    })
}

fn port(rng: &mut Rng) -> u16 {
    match rng.one_in(2) {
        true => rng.pick(&PORTS),
        false => rng.draw() as u16,
    }
}

pub fn dotted(bytes: [u8; 4]) -> String {
    bytes.map(|byte| byte.to_string()).join(".")
}

/// Words of a condition and its record.
fn condition(rng: &mut Rng) -> (String, Record) {
    let (side, direction) = rng.pick(&SIDES);
    match rng.below(3) {
        0 => {
            let (word, protocol) = rng.pick(&PROTOCOLS);
            let mut record = record(10);
            record[2] = protocol;
            (word.into(), record)
        }
        1 => {
            let (bytes, mut record) = (address(rng), record(11));
            record[1] = direction;
            put(&mut record, 8, &bytes);
            (format!("{side} host {}", dotted(bytes)), record)
        }
        _ => {
            let ((word, protocol), number) = (rng.pick(&TRANSPORTS), port(rng));
            let mut record = record(15);
            put(&mut record, 1, &[direction, protocol]);
            put(&mut record, 4, &number.to_be_bytes());
            (format!("{word} {side} port {number}"), record)
        }
    }
}

// ── Trees and their words ────────────────────────────────────────────────────

enum Tree {
    Leaf(String, Record),
    Not(Box<Tree>),
    Join(u8, Box<Tree>, Box<Tree>),
}

/// How a tree grows, and its brackets that need not be.
struct Style {
    /// Nots in so many nodes of 8, joins to the left or to the right alone.
    nots: usize,
    left: bool,
    right: bool,
    /// One node in so many has further brackets, up to so many.
    wrapped: usize,
    wraps: usize,
}

fn style(rng: &mut Rng) -> Style {
    Style {
        nots: rng.pick(&[0, 1, 1, 2, 6]),
        left: rng.one_in(3),
        right: rng.one_in(4),
        wrapped: rng.pick(&[2, 8, 8, 1000]),
        wraps: if rng.one_in(64) { 140 } else { 3 },
    }
}

/// A tree of so many records.
fn tree(rng: &mut Rng, style: &Style, records: usize) -> Tree {
    if records == 1 {
        let (words, record) = condition(rng);
        return Tree::Leaf(words, record);
    }
    if records == 2 || rng.below(8) < style.nots {
        return Tree::Not(Box::new(tree(rng, style, records - 1)));
    }
    let most = records - 2;
    let left = match (style.left, style.right) {
        (true, _) => most,
        (_, true) => 1,
        _ => rng.between(1, most),
    };
    let kind = rng.pick(&[AND, OR]);
    let (left, right) = (left, records - 1 - left);
    let [left, right] = [left, right].map(|n| Box::new(tree(rng, style, n)));
    Tree::Join(kind, left, right)
}

/// A line in the making: its words, its tree's records, and its brackets.
#[derive(Default)]
pub struct Draft {
    pub words: Vec<Vec<u8>>,
    records: Vec<Record>,
    open: usize,
    most_open: usize,
}

impl Draft {
    fn word(&mut self, word: &str) {
        self.words.push(word.as_bytes().to_vec());
    }

    fn open(&mut self, brackets: usize) {
        (0..brackets).for_each(|_| self.word("("));
        self.open += brackets;
        self.most_open = self.most_open.max(self.open);
    }

    fn close(&mut self, brackets: usize) {
        (0..brackets).for_each(|_| self.word(")"));
        self.open -= brackets;
    }

    /// A tree's words. A join that stands on the right of another, or under not, needs
    /// brackets; further ones may stand anywhere.
    fn write(&mut self, rng: &mut Rng, style: &Style, tree: &Tree, needs: bool) {
        let mut brackets = (needs && matches!(tree, Tree::Join(..))) as usize;
        if rng.one_in(style.wrapped) {
            brackets += rng.between(1, style.wraps);
        }
        self.open(brackets);
        match tree {
            Tree::Leaf(words, record) => {
                self.records.push(*record);
                words.split_whitespace().for_each(|word| self.word(word));
            }
            Tree::Not(part) => {
                self.records.push(record(NOT));
                self.word("not");
                self.write(rng, style, part, true);
            }
            Tree::Join(kind, left, right) => {
                self.records.push(record(*kind));
                self.write(rng, style, left, false);
                self.word(if *kind == AND { "and" } else { "or" });
                self.write(rng, style, right, true);
            }
        }
        self.close(brackets);
    }

    /// The file that the line has to give; none where it is too large.
    fn file(&self, link: u8) -> Option<Vec<u8>> {
        let mut file = b"PFT\0\x01\0\0\0".to_vec();
        file[LINK] = link;
        file[HEADER - 1] = self.records.len() as u8;
        file.extend(self.records.concat());
        (self.records.len() <= MOST && self.most_open <= MOST).then_some(file)
    }
}

pub fn draft(rng: &mut Rng) -> Draft {
    let records = match rng.below(32) {
        0 => rng.between(100, 200),
        1..=4 => rng.between(10, 99),
        _ => rng.between(1, 9),
    };
    let style = style(rng);
    let tree = tree(rng, &style, records);
    let mut draft = Draft::default();
    draft.write(rng, &style, &tree, false);
    draft
}

// ── Lines ────────────────────────────────────────────────────────────────────

/// Words with one space between them.
pub fn joined<W: AsRef<[u8]>>(words: &[W]) -> Vec<u8> {
    let words: Vec<&[u8]> = words.iter().map(AsRef::as_ref).collect();
    words.join(&b' ')
}

/// Words with one or more spaces between them, and some first and last.
pub fn spaced<W: AsRef<[u8]>>(rng: &mut Rng, words: &[W]) -> Vec<u8> {
    let most = rng.pick(&[0, 0, 1, 4]);
    let mut line = vec![b' '; rng.between(0, most)];
    for (i, word) in words.iter().enumerate() {
        let least = (i > 0) as usize;
        line.extend(vec![b' '; least + rng.between(0, most)]);
        line.extend(word.as_ref());
    }
    line.extend(vec![b' '; rng.between(0, most)]);
    line
}

/// The second parser has to give the tree that was written. One that is broken on purpose is
/// left to the comparison.
fn check_parser(draft: &Draft, link: u8, text: &[u8]) {
    let read = typing::read(link, text);
    let right = match (&read, draft.file(link)) {
        (Ok(phrase), Some(file)) => phrase.file(link) == file,
        (Err(refusal), None) => refusal.number == typing::TOO_LARGE,
        _ => false,
    };
    if !right && !FIRST.load(Ordering::Relaxed) {
        let line = text.escape_ascii();
        fail(&format!(
            "the second parser does not give what was written: {line}"
        ));
    }
}

// ── Faults ───────────────────────────────────────────────────────────────────

pub const STRANGE: [&str; 14] = [
    "",
    "IP",
    "tcpp",
    "ipv4",
    "(ip)",
    "&&",
    "!",
    "080",
    "65536",
    "1.2.3",
    "1.2.3.256",
    "host:",
    "\t",
    "a",
];

/// One of the list, an address, a number, or none of these.
pub fn any_word(rng: &mut Rng) -> Vec<u8> {
    match rng.below(8) {
        0 => dotted(address(rng)).into(),
        1 => port(rng).to_string().into(),
        2 => rng.pick(&STRANGE).into(),
        _ => rng.pick(&WORDS).0.into(),
    }
}

/// Some of what lines are made of, and others.
pub fn any_byte(rng: &mut Rng) -> u8 {
    const NEAR: &[u8] = b"  ()0019.acdhimnoprstuIP6\t\n\r\0\x80\xA0";
    match rng.one_in(4) {
        true => rng.draw() as u8,
        false => rng.pick(NEAR),
    }
}

/// A row with one item changed, dropped, doubled, two exchanged, one more.
fn faulty<T: Clone>(rng: &mut Rng, row: &[T], any: fn(&mut Rng) -> T) -> Vec<Vec<T>> {
    let (at, other) = (rng.below(row.len()), rng.below(row.len()));
    let with = |change: &dyn Fn(&mut Vec<T>)| {
        let mut row = row.to_vec();
        change(&mut row);
        row
    };
    let [changed, added] = [any(rng), any(rng)];
    vec![
        with(&|row| row[at] = changed.clone()),
        with(&|row| drop(row.remove(at))),
        with(&|row| row.insert(at, row[at].clone())),
        with(&|row| row.swap(at, other)),
        with(&|row| row.insert(at, added.clone())),
        with(&|row| row.push(added.clone())),
    ]
}

/// Every word in turn left out, and in the place of another.
fn every_word(words: &[Vec<u8>], link: u8, met: &mut Met) {
    for at in 0..words.len() {
        let mut other = words.to_vec();
        other.remove(at);
        met.ask(link, &joined(&other));
        other.insert(at, Vec::new());
        let values = ["10.0.0.1", "80", "x"];
        for word in WORDS.iter().map(|(name, _)| *name).chain(values) {
            other[at] = word.into();
            met.ask(link, &joined(&other));
        }
    }
}

/// A drawn line, and what is near it.
fn compare(rng: &mut Rng, met: &mut Met) {
    const SHORT: usize = 12;
    const CUT: usize = 400;
    let (draft, link) = (draft(rng), rng.between(1, 3) as u8);
    let text = spaced(rng, &draft.words);
    check_parser(&draft, link, &text);
    met.ask_with(link, &text, FRAMES);
    met.ask_copy(link, &text);
    for words in faulty(rng, &draft.words, any_word) {
        met.ask(link, &spaced(rng, &words));
    }
    for text in faulty(rng, &text, any_byte) {
        met.ask(link, &text);
    }
    met.ask(link, &text[..rng.below(text.len())]);
    if rng.one_in(16) && text.len() <= CUT {
        met.ask_cuts(link, &text);
    }
    if rng.one_in(16) && draft.words.len() <= SHORT {
        every_word(&draft.words, link, met);
    }
}

pub fn compare_all(rng: &mut Rng, count: u64, met: &mut Met) {
    (0..count).for_each(|_| compare(rng, met));
}
