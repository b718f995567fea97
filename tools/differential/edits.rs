//! Trees that are edited where they lie between the question and the load: loaded as they then
//! are where the count is the same, else refused. And the order of a load's refusals: trees
//! about number 8, and with several faults, each with every count and buffer.

use crate::builds::{answer_of, compare_exact, Answer};
use crate::lent::{lent, MARGIN};
use crate::loads::{self, asked, drawn_length, listed, wanted};
use crate::part::{to_hex, Part};
use crate::parts::Parts;
use crate::shrink::end;
use crate::trees::edges::{self, file_of};
use crate::trees::systematic::{conditions, LINKS};
use crate::trees::{self, record, Record, Rng, AND, MOST, NOT, OR, PORT_PROTOCOLS};
use crate::wide::{values, widened, Sort};
use crate::{exports, fail, HEADER, LINK, RECORD};

/// What an edit makes of an accepted tree.
const OUTCOMES: [&str; 4] = [
    "the same program",
    "another of equal count",
    "another count",
    "refused",
];
const EQUAL: usize = 1;
const MOVED: usize = 2;
const REFUSED: usize = 3;

fn outcome(before: &[u8], after: &Answer) -> usize {
    match after {
        Ok(program) if program == before => 0,
        Ok(program) if program.len() == before.len() => EQUAL,
        Ok(_) => MOVED,
        Err(_) => REFUSED,
    }
}

// ── Edits ────────────────────────────────────────────────────────────────────

/// A tree file as it is edited.
struct Tree {
    link: u8,
    records: Vec<Record>,
}

impl Tree {
    /// Of a file that is one tree.
    fn of(file: &[u8]) -> Tree {
        let records = file[HEADER..].chunks_exact(RECORD);
        Tree {
            link: file[LINK],
            records: records.map(|r| r.try_into().expect("a record")).collect(),
        }
    }

    fn file(&self) -> Vec<u8> {
        file_of(self.link, &self.records)
    }

    /// The place of a record that fits, drawn.
    fn place(&self, rng: &mut Rng, fits: impl Fn(&Record) -> bool) -> Option<usize> {
        let places = (0..self.records.len()).filter(|at| fits(&self.records[*at]));
        let places: Vec<usize> = places.collect();
        (!places.is_empty()).then(|| rng.pick(&places))
    }
}

/// None where the tree has nothing to edit so.
type Edit = fn(&mut Rng, &mut Tree) -> Option<()>;

/// Edits by name, each with outcomes that a run has to meet.
const EDITS: [(&str, Edit, &[usize]); 15] = [
    ("condition", condition, &[EQUAL, MOVED, REFUSED]),
    ("port", |rng, t| value(rng, t, Sort::Port), &[EQUAL]),
    ("address", |rng, t| value(rng, t, Sort::Address), &[EQUAL]),
    ("mask", |rng, t| value(rng, t, Sort::Mask), &[EQUAL]),
    (
        "prefix",
        |rng, t| value(rng, t, Sort::Prefix),
        &[EQUAL, MOVED],
    ),
    ("number", |rng, t| value(rng, t, Sort::Number), &[EQUAL]),
    (
        "ethertype",
        |rng, t| value(rng, t, Sort::Ethertype),
        &[EQUAL],
    ),
    ("direction", direction, &[EQUAL, MOVED]),
    ("protocol", protocol, &[EQUAL, MOVED]),
    ("join", join, &[MOVED]),
    ("sides", sides, &[EQUAL, MOVED]),
    ("not", not, &[MOVED]),
    ("link", link, &[EQUAL, MOVED, REFUSED]),
    ("part", part, &[MOVED]),
    ("byte", byte, &[EQUAL, REFUSED]),
];
/// The place of the first.
const CONDITION: usize = 0;

/// Another value in a field of a sort: a bit away, or drawn.
fn value(rng: &mut Rng, tree: &mut Tree, sort: Sort) -> Option<()> {
    let has = |r: &Record| values(r).iter().any(|(s, _)| *s == sort);
    let at = tree.place(rng, has)?;
    let fields = values(&tree.records[at]).into_iter();
    let fields: Vec<_> = fields.filter(|(s, _)| *s == sort).collect();
    let (_, field) = rng.pick(&fields);
    let bytes = &mut tree.records[at][field];
    match rng.one_in(2) {
        true => bytes[rng.below(bytes.len())] ^= 1 << rng.below(8),
        false => bytes.fill_with(|| rng.draw() as u8),
    }
    Some(())
}

fn direction(rng: &mut Rng, tree: &mut Tree) -> Option<()> {
    let at = tree.place(rng, |r| (11..=17).contains(&r[0]))?;
    let r = &mut tree.records[at];
    r[1] = (r[1] + rng.between(1, 3) as u8) % 4;
    Some(())
}

fn protocol(rng: &mut Rng, tree: &mut Tree) -> Option<()> {
    let at = tree.place(rng, |r| matches!(r[0], 10 | 15 | 16))?;
    let r = &mut tree.records[at];
    r[2] = match r[0] {
        10 => rng.between(1, 12) as u8,
        _ => rng.pick(&PORT_PROTOCOLS),
    };
    r[3] = if r[2] >= 11 { rng.draw() as u8 } else { 0 };
    Some(())
}

fn condition(rng: &mut Rng, tree: &mut Tree) -> Option<()> {
    let at = tree.place(rng, |r| r[0] >= 10)?;
    tree.records[at] = rng.pick(&conditions());
    Some(())
}

fn join(rng: &mut Rng, tree: &mut Tree) -> Option<()> {
    let at = tree.place(rng, |r| matches!(r[0], AND | OR))?;
    tree.records[at][0] ^= AND ^ OR;
    Some(())
}

/// Both sides of a join exchanged.
fn sides(rng: &mut Rng, tree: &mut Tree) -> Option<()> {
    let at = tree.place(rng, |r| matches!(r[0], AND | OR))?;
    let (middle, last) = (end(&tree.records, at + 1), end(&tree.records, at));
    tree.records[at + 1..last].rotate_left(middle - at - 1);
    Some(())
}

/// A not less, or one more.
fn not(rng: &mut Rng, tree: &mut Tree) -> Option<()> {
    match tree.place(rng, |r| r[0] == NOT) {
        Some(at) => drop(tree.records.remove(at)),
        None if tree.records.len() == MOST => return None,
        None => tree
            .records
            .insert(rng.below(tree.records.len()), record(NOT)),
    }
    Some(())
}

fn link(rng: &mut Rng, tree: &mut Tree) -> Option<()> {
    tree.link = 1 + (tree.link - 1 + rng.between(1, 2) as u8) % 3;
    Some(())
}

/// A part in place of the whole.
fn part(rng: &mut Rng, tree: &mut Tree) -> Option<()> {
    let at = tree.place(rng, |_| true).filter(|at| *at > 0)?;
    tree.records = tree.records[at..end(&tree.records, at)].to_vec();
    Some(())
}

/// Any byte of a record.
fn byte(rng: &mut Rng, tree: &mut Tree) -> Option<()> {
    let at = rng.below(tree.records.len());
    tree.records[at][rng.below(RECORD)] ^= 1 << rng.below(8);
    Some(())
}

// ── One edit ─────────────────────────────────────────────────────────────────

/// A tree file and a buffer that keep their places.
struct Slot {
    tree: Vec<u8>,
    space: Vec<u8>,
    length: usize,
}

impl Slot {
    fn new(length: usize) -> Slot {
        Slot {
            tree: Vec::with_capacity(HEADER + RECORD * MOST),
            space: lent(length, |_| ()).1,
            length,
        }
    }

    fn edit(&mut self, file: &[u8]) {
        self.tree.clear();
        self.tree.extend_from_slice(file);
    }

    fn ask(&self) -> u32 {
        exports::question(&self.tree)
    }

    fn load(&mut self, count: u32) -> u32 {
        let lent = &mut self.space[MARGIN..MARGIN + self.length];
        exports::load(&self.tree, count, lent)
    }
}

/// A tree as it was asked and as it is edited, what is made of both, and the count that the
/// question gave.
struct Edited {
    files: [Vec<u8>; 2],
    answers: [Answer; 2],
    count: u32,
}

const AS_ASKED: usize = 0;
const AS_EDITED: usize = 1;

impl Edited {
    /// How the question about the tree in a slot differs; it leaves the buffer as it is.
    fn question_wrong(&self, now: usize, slot: &Slot) -> Option<String> {
        let there = (asked(&self.answers[now]), slot.space.clone());
        let here = (slot.ask(), slot.space.clone());
        (here != there).then(|| loads::words("pft_question", &here, &there))
    }

    /// How the load of the tree in a slot differs, with the count that was asked.
    fn load_wrong(&self, now: usize, slot: &mut Slot) -> Option<String> {
        let there = wanted(&self.answers[now], self.count, slot.length);
        let here = (slot.load(self.count), slot.space.clone());
        (here != there).then(|| loads::words("pft_load", &here, &there))
    }

    /// Counts a call, and what was wrong with it.
    fn note(&self, wrong: Option<String>, now: usize, part: &mut Part) {
        part.compared += 1;
        if let Some(wrong) = wrong {
            let [asked, edited] = &self.files;
            let when = ["as asked", "edited"][now];
            let (asked, edited) = (to_hex(asked), to_hex(edited));
            part.differs(self.files[AS_ASKED].len(), || {
                format!("{wrong}, {when}, tree {asked} edited to {edited}")
            });
        }
    }
}

/// Asked and loaded, edited where it lies, asked and loaded, edited back, asked and loaded, all
/// into one buffer and with the count of the first question.
fn compare(edited: &Edited, length: usize, parts: &mut Parts) {
    let mut slot = Slot::new(length);
    for now in [AS_ASKED, AS_EDITED, AS_ASKED] {
        slot.edit(&edited.files[now]);
        let wrong = edited.question_wrong(now, &slot);
        edited.note(wrong, now, &mut parts.questions);
        let wrong = edited.load_wrong(now, &mut slot);
        edited.note(wrong, now, &mut parts.loads);
        let answer = &edited.answers[now];
        parts.loaded.note_question(asked(answer));
        let number = wanted(answer, edited.count, length).0;
        parts.loaded.note_load(number);
    }
}

// ── All edits ────────────────────────────────────────────────────────────────

struct Met<'p> {
    parts: &'p mut Parts,
    rng: Rng,
    edits: [[u64; OUTCOMES.len()]; EDITS.len()],
    /// Edited trees of another program and equal count, lent enough for it.
    as_edited: u64,
}

impl Met<'_> {
    /// An accepted tree edited to another file.
    fn edit(&mut self, name: usize, before: &[u8], program: &[u8], after: Vec<u8>) {
        let answer = answer_of(&after);
        if compare_exact(&after, &answer, self.parts) {
            return;
        }
        let length = self.length(program.len());
        let outcome = outcome(program, &answer);
        self.edits[name][outcome] += 1;
        self.as_edited += (outcome == EQUAL && length >= program.len()) as u64;
        let edited = Edited {
            files: [before.to_vec(), after],
            answers: [Ok(program.to_vec()), answer],
            count: exports::question(before),
        };
        compare(&edited, length, self.parts);
    }

    /// Exact, or of any class.
    fn length(&mut self, exact: usize) -> usize {
        match self.rng.one_in(2) {
            true => exact,
            false => drawn_length(&mut self.rng, exact),
        }
    }

    /// Every edit of a tree that is accepted.
    fn edit_all(&mut self, file: &[u8]) {
        let answer = answer_of(file);
        if compare_exact(file, &answer, self.parts) {
            return;
        }
        let Ok(program) = answer else { return };
        for (name, (_, edit, _)) in EDITS.iter().enumerate() {
            let mut tree = Tree::of(file);
            if edit(&mut self.rng, &mut tree).is_some() {
                self.edit(name, file, &program, tree.file());
            }
        }
    }

    /// Each condition alone edited to each other one.
    fn edit_conditions(&mut self, link: u8) {
        for before in conditions() {
            let file = file_of(link, &[before]);
            self.edit_all(&file);
            let Ok(program) = answer_of(&file) else {
                continue;
            };
            for after in conditions() {
                self.edit(CONDITION, &file, &program, file_of(link, &[after]));
            }
        }
    }

    fn print(&self) {
        for ((name, ..), outcomes) in EDITS.iter().zip(&self.edits) {
            let each = OUTCOMES.into_iter().zip(*outcomes);
            println!("edits, {name}: {}", listed(each));
        }
        println!(
            "trees edited to another program of equal count, and loaded as they then are: {}",
            self.as_edited
        );
    }

    /// Ends the run where an edit did not have an outcome that it has to.
    fn require_all(&self) {
        if self.as_edited == 0 {
            fail("no tree was loaded as it was edited");
        }
        for ((name, _, outcomes), met) in EDITS.iter().zip(&self.edits) {
            if let Some(missing) = outcomes.iter().find(|o| met[**o] == 0) {
                fail(&format!("no edit of a {name} gave {}", OUTCOMES[*missing]));
            }
        }
    }
}

/// Trees about number 8 and with several faults: every count with every buffer.
fn compare_orders(rng: &mut Rng, parts: &mut Parts) {
    const ROUNDS: usize = 400;
    for _ in 0..ROUNDS {
        let mut files = edges::tuned(rng, |file| crate::build(file).err());
        files.push(edges::faulty(rng).file);
        for file in files {
            let answer = answer_of(&file);
            if !compare_exact(&file, &answer, parts) {
                loads::compare_all_classes(&file, &answer, parts);
            }
        }
    }
}

/// So many drawn trees and some more, each edited in every way; the conditions; the order of
/// refusals.
pub fn compare_all(seed: u64, count: u64, parts: &mut Parts) {
    const ALWAYS: u64 = 500;
    let (mut rng, mut wide) = (Rng(seed ^ 0xED17), Rng(seed ^ 0x31E0));
    compare_orders(&mut rng, parts);
    let mut met = Met {
        parts,
        rng: Rng(seed ^ 0xED18),
        edits: [[0; OUTCOMES.len()]; EDITS.len()],
        as_edited: 0,
    };
    for link in LINKS {
        met.edit_conditions(link);
    }
    for _ in 0..count + ALWAYS {
        met.edit_all(&widened(&mut wide, trees::tree_file(&mut rng)));
    }
    met.print();
    if met.parts.differences() == 0 {
        met.require_all();
    }
}
