//! Tree files through `pft_question` and `pft_load`. A question answers what the Rust, or the
//! second generator, makes of a file without a buffer: a count, or 1 to 8 and 15. A load is
//! given a count, right or wrong, and a buffer of any length; its answer and every byte are
//! compared.

use crate::builds::{self, answer_of, judge, shown, Answer};
use crate::lent::{lent, other_byte};
use crate::part::to_hex;
use crate::parts::Parts;
use crate::trees::Rng;
use crate::{exports, fail, shrink, Number, INSN};

/// No refusal.
const DONE: Number = 0;
const FAR_JUMP: Number = 8;
const SHORT_BUFFER: Number = 9;
/// T-05: "count moved".
const COUNT_MOVED: Number = 19;
/// What refuses a tree whatever count and buffer it is given.
const OWN_REFUSALS: [Number; 9] = [1, 2, 3, 4, 5, 6, 7, 8, 15];

// ── What is wanted ───────────────────────────────────────────────────────────

fn count_of(program: &[u8]) -> u32 {
    (program.len() / INSN) as u32
}

/// The number that a question must answer.
pub fn asked(answer: &Answer) -> u32 {
    match answer {
        Ok(program) => count_of(program),
        Err(n) => n << 16,
    }
}

/// The number that a load must answer, and the lent bytes after it: those of a build, but
/// where an accepted tree has another count.
pub fn wanted(answer: &Answer, count: u32, length: usize) -> (u32, Vec<u8>) {
    match answer {
        Ok(program) if count_of(program) != count => builds::wanted(&Err(COUNT_MOVED), length),
        _ => builds::wanted(answer, length),
    }
}

// ── Counts and lengths ───────────────────────────────────────────────────────

/// The most instructions of a program.
const MOST: usize = 3_946;

/// A class of counts, made from the tree's own.
type Count = (&'static str, fn(&mut Rng, u32) -> u32);

const COUNTS: [Count; 10] = [
    ("right", |_, own| own),
    ("one less", |_, own| own - 1),
    ("one more", |_, own| own + 1),
    ("0", |_, _| 0),
    ("65,536 more", |_, own| own + (1 << 16)),
    ("a multiple of 65,536 more", |rng, own| {
        own + (rng.between(1, 0xFFFF) << 16) as u32
    }),
    ("with the highest bit", |_, own| own | 1 << 31),
    ("4,294,967,295", |_, _| u32::MAX),
    ("a bit away", |rng, own| own ^ 1 << rng.below(32)),
    ("drawn", |rng, _| match rng.one_in(2) {
        true => rng.between(2, MOST) as u32,
        false => rng.draw() as u32,
    }),
];
const RIGHT: usize = 0;

/// A class of lengths, made from that of the tree's own program.
type Length = (&'static str, fn(&mut Rng, usize) -> usize);

const LENGTHS: [Length; 7] = [
    ("exact", |_, exact| exact),
    ("a byte short", |_, exact| exact - 1),
    ("8 bytes short", |_, exact| exact - INSN),
    ("short", |rng, exact| rng.below(exact)),
    ("none", |_, _| 0),
    ("longer", |rng, exact| exact + rng.between(1, 64)),
    ("much longer", |rng, exact| {
        exact + rng.pick(&[1_000, INSN * MOST, 40_000])
    }),
];
const EXACT: usize = 0;

/// Places in the two tables.
#[derive(Clone, Copy)]
struct Class {
    count: usize,
    length: usize,
}

/// Every class of counts with every class of lengths.
fn classes() -> impl Iterator<Item = Class> {
    let lengths = 0..LENGTHS.len();
    (0..COUNTS.len())
        .flat_map(move |count| lengths.clone().map(move |length| Class { count, length }))
}

/// The tree's own count; a refused tree has none, and any will do.
fn own_count(rng: &mut Rng, answer: &Answer) -> u32 {
    match answer {
        Ok(program) => count_of(program),
        Err(_) => rng.between(2, 400) as u32,
    }
}

/// A count and a length of a class.
fn drawn(rng: &mut Rng, answer: &Answer, class: Class) -> (u32, usize) {
    let own = own_count(rng, answer);
    let count = COUNTS[class.count].1(rng, own);
    (count, LENGTHS[class.length].1(rng, INSN * own as usize))
}

pub fn drawn_length(rng: &mut Rng, exact: usize) -> usize {
    rng.pick(&LENGTHS).1(rng, exact)
}

// ── What was met ─────────────────────────────────────────────────────────────

const NUMBERS: usize = COUNT_MOVED as usize + 1;
const MOVED_AND_SHORT: &str = "another count and too few bytes at once";

/// How often each refusal was met, and none.
type Numbers = [u64; NUMBERS];

pub struct Met {
    rng: Rng,
    questions: Numbers,
    loads: Numbers,
    /// Loads of accepted trees.
    accepted: [[u64; LENGTHS.len()]; COUNTS.len()],
    /// Loads of refused trees, by the refusal.
    refused: [[u64; COUNTS.len()]; NUMBERS],
    /// Loads with another count and too few bytes at once.
    moved_and_short: u64,
}

fn refusal(number: u32) -> usize {
    (number >> 16) as usize
}

/// Names with how often each was met.
pub fn listed<'n>(each: impl Iterator<Item = (&'n str, u64)>) -> String {
    let each: Vec<String> = each.map(|(name, n)| format!("{name}: {n}")).collect();
    each.join(", ")
}

fn by_number(numbers: &Numbers) -> String {
    let [done, refused @ ..] = numbers;
    let met = (1..).zip(refused).filter(|(_, met)| **met > 0);
    let refused: String = met
        .map(|(n, met)| format!(", refused {n}: {met}"))
        .collect();
    format!("{}, a count: {done}{refused}", numbers.iter().sum::<u64>())
}

impl Met {
    pub fn new(seed: u64) -> Met {
        Met {
            rng: Rng(seed ^ 0x10AD),
            questions: [0; NUMBERS],
            loads: [0; NUMBERS],
            accepted: [[0; LENGTHS.len()]; COUNTS.len()],
            refused: [[0; COUNTS.len()]; NUMBERS],
            moved_and_short: 0,
        }
    }

    pub fn note_question(&mut self, number: u32) {
        self.questions[refusal(number)] += 1;
    }

    pub fn note_load(&mut self, number: u32) {
        self.loads[refusal(number)] += 1;
    }

    fn note(&mut self, answer: &Answer, class: Class, length: usize, number: u32) {
        self.note_load(number);
        match answer {
            Ok(program) => {
                let moved = refusal(number) == COUNT_MOVED as usize;
                self.accepted[class.count][class.length] += 1;
                self.moved_and_short += (moved && program.len() > length) as u64;
            }
            Err(n) => self.refused[*n as usize][class.count] += 1,
        }
    }

    pub fn print(&self) {
        println!("questions: {}", by_number(&self.questions));
        println!("loads: {}", by_number(&self.loads));
        let counts = COUNTS.iter().zip(&self.accepted);
        let counts = counts.map(|((name, _), by_length)| (*name, by_length.iter().sum()));
        println!("loads of accepted trees by count: {}", listed(counts));
        let lengths = LENGTHS.iter().enumerate();
        let lengths =
            lengths.map(|(l, (name, _))| (*name, self.accepted.iter().map(|by| by[l]).sum()));
        println!("loads of accepted trees by buffer: {}", listed(lengths));
        println!("{MOVED_AND_SHORT}: {}", self.moved_and_short);
        let far = COUNTS.iter().zip(self.refused[FAR_JUMP as usize]);
        let far = far.map(|((name, _), met)| (*name, met));
        println!("loads of trees refused 8, by count: {}", listed(far));
    }

    /// What a run has to meet: how often it did, and its name.
    fn needed(&self) -> Vec<(u64, String)> {
        let own = || [DONE].into_iter().chain(OWN_REFUSALS);
        let questions = own().map(|n| (self.questions[n as usize], format!("a question, {n}")));
        let loads = own().chain([SHORT_BUFFER, COUNT_MOVED]);
        let loads = loads.map(|n| (self.loads[n as usize], format!("a load, {n}")));
        let accepted = classes().map(|class| {
            let (count, length) = (COUNTS[class.count].0, LENGTHS[class.length].0);
            let name = format!("count {count}, buffer {length}");
            (self.accepted[class.count][class.length], name)
        });
        let refused = OWN_REFUSALS.into_iter().flat_map(|n| {
            let met = self.refused[n as usize].into_iter().zip(&COUNTS);
            met.map(move |(met, (count, _))| (met, format!("refused {n}, count {count}")))
        });
        let both = (self.moved_and_short, MOVED_AND_SHORT.into());
        let all = questions.chain(loads).chain(accepted).chain(refused);
        all.chain([both]).collect()
    }

    /// Ends the run where something was not met.
    pub fn require_all(&self) {
        let missing = self.needed().into_iter().filter(|(met, _)| *met == 0);
        let missing: Vec<String> = missing.map(|(_, name)| name).collect();
        if !missing.is_empty() {
            fail(&format!("loads did not meet: {}", missing.join("; ")));
        }
    }
}

// ── One question, one load ───────────────────────────────────────────────────

fn question_difference(file: &[u8], answer: &Answer) -> Option<String> {
    let (here, there) = (exports::question(file), asked(answer));
    let text = || {
        let (here, there, tree) = (shown(here), shown(there), to_hex(file));
        format!("pft_question {here}, {} {there}, tree {tree}", judge(file))
    };
    (here != there).then(text)
}

fn ask(file: &[u8], answer: &Answer, parts: &mut Parts) {
    parts.questions.compared += 1;
    parts.loaded.note_question(asked(answer));
    if question_difference(file, answer).is_some() {
        let text = || {
            let wrong = |f: &[u8]| question_difference(f, &answer_of(f));
            wrong(&shrink::tree(file, |f| wrong(f).is_some())).unwrap_or_default()
        };
        parts.questions.differs(file.len(), text);
    }
}

/// What a call answered and the lent bytes after it.
type Left = (u32, Vec<u8>);

fn loaded(file: &[u8], count: u32, length: usize) -> Left {
    lent(length, |program| exports::load(file, count, program))
}

/// How what a call left differs from what is wanted.
pub fn words(name: &str, here: &Left, there: &Left) -> String {
    let place = match here.0 == there.0 {
        true => other_byte(&here.1, &there.1),
        false => String::new(),
    };
    let (here, there) = (shown(here.0), shown(there.0));
    format!("{name} {here}, wanted {there}{place}")
}

fn load_words(file: &[u8], count: u32, length: usize, here: &Left, there: &Left) -> String {
    let (words, tree) = (words("pft_load", here, there), to_hex(file));
    format!("count {count}, buffer of {length}: {words}, tree {tree}")
}

/// How a load of any class differs, where the builds do not.
fn any_difference(file: &[u8]) -> Option<String> {
    let (answer, mut rng) = (answer_of(file), Rng(0));
    if builds::quick_difference(file, &answer) {
        return None;
    }
    classes().find_map(|class| {
        let (count, length) = drawn(&mut rng, &answer, class);
        let (here, there) = (loaded(file, count, length), wanted(&answer, count, length));
        (here != there).then(|| load_words(file, count, length, &here, &there))
    })
}

fn load(file: &[u8], answer: &Answer, class: Class, parts: &mut Parts) {
    let (count, length) = drawn(&mut parts.loaded.rng, answer, class);
    let (here, there) = (loaded(file, count, length), wanted(answer, count, length));
    parts.loads.compared += 1;
    parts.loaded.note(answer, class, length, there.0);
    if here != there {
        let least = || any_difference(&shrink::tree(file, |f| any_difference(f).is_some()));
        let text = || least().unwrap_or(load_words(file, count, length, &here, &there));
        parts.loads.differs(file.len(), text);
    }
}

// ── One tree ─────────────────────────────────────────────────────────────────

/// The question; the right count into an exact buffer, and a load of a class that is drawn.
pub fn compare_few(file: &[u8], answer: &Answer, parts: &mut Parts) {
    ask(file, answer, parts);
    let right = Class {
        count: RIGHT,
        length: EXACT,
    };
    let other = Class {
        count: parts.loaded.rng.below(COUNTS.len()),
        length: parts.loaded.rng.below(LENGTHS.len()),
    };
    load(file, answer, right, parts);
    load(file, answer, other, parts);
}

/// The question, and loads with a count of every class into a buffer of a class that is
/// drawn. The tree is lent as a copy, which has to stay as it is.
pub fn compare(file: &[u8], answer: &Answer, parts: &mut Parts) {
    let mut tree = file.to_vec();
    ask(&tree, answer, parts);
    for count in 0..COUNTS.len() {
        let length = parts.loaded.rng.below(LENGTHS.len());
        load(&tree, answer, Class { count, length }, parts);
    }
    std::hint::black_box(&mut tree);
    if tree != file {
        let text = || format!("the tree is written to, tree {}", to_hex(file));
        parts.loads.differs(file.len(), text);
    }
}

/// The question, and loads of all classes.
pub fn compare_all_classes(file: &[u8], answer: &Answer, parts: &mut Parts) {
    ask(file, answer, parts);
    for class in classes() {
        load(file, answer, class, parts);
    }
}
