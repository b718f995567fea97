//! A tree that is written both as a tree file and in pcap-filter's words.

use crate::words;

pub const RECORD: usize = 24;
/// The bytes before the records, and the link's place among them.
const HEADER: usize = 8;
const LINK: usize = 5;
pub const AND: u8 = 1;
pub const OR: u8 = 2;
pub const NOT: u8 = 3;

pub type Record = [u8; RECORD];

/// A record of a kind that uses no other byte.
pub fn record(kind: u8) -> Record {
    let mut r = [0; RECORD];
    r[0] = kind;
    r
}

/// The records of a tree file.
pub fn records_of(file: &[u8]) -> Vec<Record> {
    let records = file[HEADER..].chunks_exact(RECORD);
    records.map(|r| r.try_into().expect("so many")).collect()
}

/// A condition, and which of its two ways to be said in words is taken.
#[derive(Clone, PartialEq)]
pub struct Leaf {
    pub record: Record,
    pub by_bytes: bool,
}

#[derive(Clone, PartialEq)]
pub enum Tree {
    Leaf(Leaf),
    Not(Box<Tree>),
    /// And or or.
    Join(u8, Box<Tree>, Box<Tree>),
}

impl Tree {
    pub fn count(&self) -> usize {
        match self {
            Tree::Leaf(_) => 1,
            Tree::Not(part) => 1 + part.count(),
            Tree::Join(_, left, right) => 1 + left.count() + right.count(),
        }
    }

    fn push_records(&self, out: &mut Vec<Record>) {
        match self {
            Tree::Leaf(leaf) => out.push(leaf.record),
            Tree::Not(part) => {
                out.push(record(NOT));
                part.push_records(out);
            }
            Tree::Join(kind, left, right) => {
                out.push(record(*kind));
                left.push_records(out);
                right.push_records(out);
            }
        }
    }

    pub fn records(&self) -> Vec<Record> {
        let mut records = Vec::new();
        self.push_records(&mut records);
        records
    }

    pub fn file(&self, link: u8) -> Vec<u8> {
        let records = self.records();
        let [high, low] = (records.len() as u16).to_be_bytes();
        let mut file = vec![b'P', b'F', b'T', 0, 1, link, high, low];
        file.extend(records.concat());
        file
    }

    pub fn words(&self, link: u8) -> String {
        match self {
            Tree::Leaf(leaf) => words::condition(link, leaf),
            Tree::Not(part) => format!("not {}", part.words(link)),
            Tree::Join(kind, left, right) => {
                let join = if *kind == AND { "and" } else { "or" };
                format!("({} {join} {})", left.words(link), right.words(link))
            }
        }
    }

    /// Its conditions from the left.
    pub fn leaves(&mut self) -> Vec<&mut Leaf> {
        match self {
            Tree::Leaf(leaf) => vec![leaf],
            Tree::Not(part) => part.leaves(),
            Tree::Join(_, left, right) => {
                let mut leaves = left.leaves();
                leaves.append(&mut right.leaves());
                leaves
            }
        }
    }

    /// Trees of fewer records: a part instead of the whole, or the whole with a smaller part.
    pub fn smaller(&self) -> Vec<Tree> {
        match self {
            Tree::Leaf(_) => vec![],
            Tree::Not(part) => {
                let mut trees = vec![*part.clone()];
                if let Tree::Not(inner) = &**part {
                    trees.push(*inner.clone());
                }
                let parts = part.smaller().into_iter();
                trees.extend(parts.map(|p| Tree::Not(Box::new(p))));
                trees
            }
            Tree::Join(kind, left, right) => {
                let join = |l: Tree, r: Tree| Tree::Join(*kind, Box::new(l), Box::new(r));
                let lefts = left.smaller().into_iter().map(|l| join(l, *right.clone()));
                let rights = right.smaller().into_iter().map(|r| join(*left.clone(), r));
                let parts = vec![*left.clone(), *right.clone()];
                parts.into_iter().chain(lefts).chain(rights).collect()
            }
        }
    }
}

// ── The notation of docs/DIFFERENCES.md ──────────────────────────────────────

pub fn hex(bytes: &[u8]) -> String {
    bytes.iter().map(|b| format!("{b:02x}")).collect()
}

/// Link, colon, records; zeros at a record's end are left out.
pub fn file_text(file: &[u8]) -> String {
    let record = |r: &[u8]| {
        let used = RECORD - r.iter().rev().take_while(|&&b| b == 0).count();
        format!(" {}", hex(&r[..used]))
    };
    let records: String = file[HEADER..].chunks(RECORD).map(record).collect();
    format!("{}:{records}", file[LINK])
}

pub fn tree_text(link: u8, tree: &Tree) -> String {
    file_text(&tree.file(link))
}

/// Runs of zeros of at least so many bytes are counted.
const ZEROS: usize = 3;

/// Bytes; `00*12` is twelve zeros.
pub fn frame_text(frame: &[u8]) -> String {
    let mut parts: Vec<String> = Vec::new();
    for run in frame.chunk_by(|a, b| (*a == 0) == (*b == 0)) {
        let long = run[0] == 0 && run.len() >= ZEROS;
        match parts.last_mut() {
            Some(last) if !long && !last.contains('*') => last.push_str(&hex(run)),
            _ if long => parts.push(format!("00*{}", run.len())),
            _ => parts.push(hex(run)),
        }
    }
    match parts.is_empty() {
        true => "-".into(),
        false => parts.join(" "),
    }
}
