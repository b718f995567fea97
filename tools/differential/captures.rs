//! Captures through `pft_count` and `pft_frame`, and through the reader of pcap.rs with
//! the Rust's program and vm.rs: the answer, every byte of the buffer, and the frame at
//! each place.

use std::collections::BTreeSet;
use std::sync::atomic::Ordering;

use crate::builds;
use crate::drafts::Spoiled;
use crate::filter::{bodies, drawn_filter, faults, written, Filter};
use crate::lent::{lent, other_byte};
use crate::machine::{ACCEPTED, BROKEN, DROPPED, SHORT};
use crate::part::{to_hex, Answers, FIRST};
use crate::parts::Parts;
use crate::pcap::{self, Given, Order, LONGEST, MARKS, NO_CAPTURE, OTHER_LINK};
use crate::trees::Rng;
use crate::{exports, fail, ranges, shrink, Number};

/// A refusal stands above a count or a length.
const REFUSAL: u32 = 32;

// ── One call of pft_count ────────────────────────────────────────────────────

fn refused(refusal: Number) -> u64 {
    (refusal as u64) << REFUSAL
}

/// A capture as the reader reads it for a tree.
pub struct Reading<'c> {
    pub given: Given<'c>,
    verdicts: [u64; 5],
}

impl<'c> Reading<'c> {
    pub fn new(filter: &Filter, capture: &'c [u8]) -> Reading<'c> {
        let given = pcap::given(capture, filter.link);
        let verdicts = filter.verdicts(&given.frames);
        Reading { given, verdicts }
    }

    pub fn kept(&self) -> u64 {
        self.verdicts[ACCEPTED as usize]
    }

    fn number(&self) -> u64 {
        refused(self.given.refusal.unwrap_or(0)) + self.kept()
    }

    /// The answer that a lent buffer of a length must give, and its bytes after.
    fn wanted(&self, filter: &Filter, length: usize) -> (u64, Vec<u8>) {
        let (built, space) = builds::wanted(&filter.answer, length);
        let number = match built >> 16 {
            0 => self.number(),
            refusal => refused(refusal),
        };
        (number, space)
    }
}

fn shown(number: u64, unit: &str) -> String {
    match (number >> REFUSAL, number & 0xFFFF_FFFF) {
        (0, n) => format!("{n} {unit}"),
        (refusal, 0) => format!("refused {refusal}"),
        (refusal, n) => format!("refused {refusal} and {n} {unit}"),
    }
}

/// A capture in hex, a long one by its beginning.
fn hex(capture: &[u8]) -> String {
    const LONG: usize = 4096;
    const BEGINNING: usize = 256;
    let text = to_hex(capture);
    match text.len() > 2 * LONG {
        true => format!("of {} bytes, {}..", capture.len(), &text[..2 * BEGINNING]),
        false => text,
    }
}

fn count(tree: &[u8], capture: &[u8], length: usize) -> (u64, Vec<u8>) {
    lent(length, |program| exports::count(tree, program, capture))
}

/// How a count differs.
fn difference(filter: &Filter, reading: &Reading, capture: &[u8], length: usize) -> Option<String> {
    let there = reading.wanted(filter, length);
    let here = count(&filter.file, capture, length);
    if here == there {
        return None;
    }
    let place = match here.0 == there.0 {
        true => other_byte(&here.1, &there.1),
        false => String::new(),
    };
    let (here, there) = (shown(here.0, "accepted"), shown(there.0, "accepted"));
    let (tree, capture) = (to_hex(&filter.file), hex(capture));
    Some(format!(
        "buffer of {length}: pft_count {here}, the reader {there}{place}, tree {tree} capture {capture}"
    ))
}

/// What a difference is put down to.
enum Blame {
    Build(String),
    Run(String),
    Capture,
}

/// The build and the machine come before the capture.
fn blame(filter: &Filter, reading: &Reading, length: usize) -> Blame {
    if let Some(words) = builds::difference(&filter.file, &filter.answer, length) {
        return Blame::Build(words);
    }
    let Ok(program) = &filter.answer else {
        return Blame::Capture;
    };
    let verdict = |frame: &[u8]| exports::run(program, frame) >> 16;
    let is_wrong = |frame: &[u8]| verdict(frame) != filter.run(frame) >> 16;
    // a frame that no run takes is the reader's fault
    let differs = |frame: &&&[u8]| frame.len() <= LONGEST && is_wrong(frame);
    match reading.given.frames.iter().find(differs) {
        Some(frame) => {
            let (program, frame) = (to_hex(program), to_hex(frame));
            Blame::Run(format!("another verdict, program {program} frame {frame}"))
        }
        None => Blame::Capture,
    }
}

/// How a count differs for one of a few lengths, by the capture's reading alone.
fn any_difference(tree: &[u8], capture: &[u8]) -> Option<String> {
    let filter = Filter::new(tree);
    let reading = Reading::new(&filter, capture);
    let exact = filter.exact();
    let mut lengths = [exact, exact + 9, exact - 1, 0].into_iter();
    lengths.find_map(|length| {
        let words = difference(&filter, &reading, capture, length)?;
        let mine = matches!(blame(&filter, &reading, length), Blame::Capture);
        mine.then_some(words)
    })
}

/// The smallest input that differs, or the words where another length is needed.
fn least_difference(tree: &[u8], capture: &[u8], words: String) -> String {
    if any_difference(tree, capture).is_none() {
        return words;
    }
    let capture = shrink::capture(capture, |c| any_difference(tree, c).is_some());
    let tree = shrink::tree(tree, |t| any_difference(t, &capture).is_some());
    any_difference(&tree, &capture).unwrap_or(words)
}

// ── One call of pft_frame ────────────────────────────────────────────────────

/// How the frame at a place differs.
fn place_difference(capture: &[u8], at: usize) -> Option<String> {
    let here = exports::frame(capture, at);
    let there = match pcap::frame_at(capture, at) {
        Ok(length) => length as u64,
        Err(refusal) => refused(refusal),
    };
    let text = || {
        let (here, there) = (shown(here, "bytes"), shown(there, "bytes"));
        let capture = hex(capture);
        format!("place {at}: pft_frame {here}, the reader {there}, capture {capture}")
    };
    (here != there).then(text)
}

/// Places that no file reaches.
const FAR: [usize; 6] = [
    usize::MAX,
    usize::MAX - 15,
    usize::MAX - 16,
    1 << 63,
    (1 << 32) + 24,
    1 << 32,
];

/// The smallest capture that differs at some place.
fn least_place(capture: &[u8], at: usize) -> String {
    const FEW: usize = 4096;
    let all = |c: &[u8]| {
        let end = if c.len() <= FEW { c.len() + 2 } else { 0 };
        let mut places = (0..end).chain(FAR).chain([at]);
        places.find_map(|at| place_difference(c, at))
    };
    let least = shrink::capture(capture, |c| all(c).is_some());
    all(&least).expect("it still differs")
}

// ── What was met ─────────────────────────────────────────────────────────────

pub struct Met<'p> {
    pub parts: &'p mut Parts,
    captures: u64,
    /// Calls of pft_count, by refusal.
    answers: Answers,
    /// Captures that 12 lets through, by byte order and mark.
    forms: [[u64; 2]; 2],
    /// Frames that were run, by verdict.
    verdicts: [u64; 5],
    /// Frames of 0 and of 65,535 bytes.
    ends: [u64; 2],
    /// The most frames of a capture, and the most accepted.
    most: [u64; 2],
    /// Calls of pft_frame: with a length, refused 12 and 14.
    places: [u64; 3],
    /// Captures made shorter by the end.
    pub cuts: u64,
    /// Trees that lie within the capture.
    within: u64,
    /// The build's answer and the faults of a capture, together.
    sets: BTreeSet<(Number, Vec<Number>)>,
}

impl Met<'_> {
    fn new(parts: &mut Parts) -> Met<'_> {
        Met {
            parts,
            captures: 0,
            answers: Answers::default(),
            forms: [[0; 2]; 2],
            verdicts: [0; 5],
            ends: [0; 2],
            most: [0; 2],
            places: [0; 3],
            cuts: 0,
            within: 0,
            sets: BTreeSet::new(),
        }
    }

    fn note(&mut self, capture: &[u8], reading: &Reading) {
        self.captures += 1;
        if let Ok(order) = pcap::order_of(capture) {
            let mark = order.number(capture, 0);
            self.forms[(order == Order::Little) as usize][(mark == MARKS[1]) as usize] += 1;
        }
        for (sum, verdict) in self.verdicts.iter_mut().zip(reading.verdicts) {
            *sum += verdict;
        }
        for frame in &reading.given.frames {
            self.ends[0] += frame.is_empty() as u64;
            self.ends[1] += (frame.len() == LONGEST) as u64;
        }
        let given = reading.given.frames.len() as u64;
        self.most = [self.most[0].max(given), self.most[1].max(reading.kept())];
    }

    fn print(&self) {
        let calls: u64 = self.answers.iter().sum();
        println!("captures: {} in {calls} calls of pft_count", self.captures);
        println!("read to the end: {}", self.answers[0]);
        for n in (1..=9).chain(12..=15) {
            println!("refused {n}: {}", self.answers[n]);
        }
        let [[a, b], [c, d]] = self.forms;
        println!("captures in big-endian, mark a1b2c3d4: {a}, a1b23c4d: {b}");
        println!("captures in little-endian, mark a1b2c3d4: {c}, a1b23c4d: {d}");
        let of = |verdict: u32| self.verdicts[verdict as usize];
        let given: u64 = self.verdicts.iter().sum();
        let (accepted, dropped) = (of(ACCEPTED), of(DROPPED));
        println!(
            "frames given: {given}, accepted {accepted}, dropped {dropped}, short {}, broken {}",
            of(SHORT),
            of(BROKEN)
        );
        let ([none, most], [frames, kept]) = (self.ends, self.most);
        println!("frames of 0 bytes: {none}, of 65,535: {most}");
        println!("most frames of a capture: {frames}, most accepted: {kept}");
        println!("captures cut short: {}", self.cuts);
        println!("trees within the capture: {}", self.within);
        println!(
            "answers of a build, by sets of faults of a capture: {} of 88",
            self.sets.len()
        );
        let [lengths, twelve, fourteen] = self.places;
        println!("frames at a place: {lengths}, refused 12: {twelve}, refused 14: {fourteen}");
    }

    /// A tree with which nothing can be said of captures: the builds differ.
    pub fn builds_differ(&mut self, filter: &Filter) -> bool {
        builds::compare_exact(&filter.file, &filter.answer, self.parts)
    }

    /// A capture with buffers of some lengths, and its frames one after the other.
    pub fn ask(&mut self, filter: &Filter, capture: &[u8], lengths: &[usize]) {
        let reading = Reading::new(filter, capture);
        self.note(capture, &reading);
        for length in lengths {
            self.ask_once(filter, &reading, capture, *length);
        }
        self.walk(capture);
    }

    fn ask_once(&mut self, filter: &Filter, reading: &Reading, capture: &[u8], length: usize) {
        self.parts.captures.compared += 1;
        let number = reading.wanted(filter, length).0;
        self.answers[(number >> REFUSAL) as usize] += 1;
        let Some(words) = difference(filter, reading, capture, length) else {
            return;
        };
        let size = filter.file.len() + capture.len();
        match blame(filter, reading, length) {
            Blame::Build(words) => self.parts.builds.differs(size, || words),
            Blame::Run(words) => self.parts.machine.differs(size, || words),
            Blame::Capture => {
                let text = || least_difference(&filter.file, capture, words);
                self.parts.captures.differs(size, text);
            }
        }
    }

    /// pft_frame from the first frame to where no more is given.
    fn walk(&mut self, capture: &[u8]) {
        let given = pcap::walked(capture);
        let mut at = pcap::FILE_HEADER;
        for frame in given.frames {
            self.ask_place(capture, at);
            at += pcap::FRAME_HEADER + frame.len();
        }
        self.ask_place(capture, at);
    }

    pub fn ask_place(&mut self, capture: &[u8], at: usize) {
        self.parts.captures.compared += 1;
        let answer = match pcap::frame_at(capture, at) {
            Ok(_) => 0,
            Err(NO_CAPTURE) => 1,
            Err(_) => 2,
        };
        self.places[answer] += 1;
        if place_difference(capture, at).is_some() {
            let text = || least_place(capture, at);
            self.parts.captures.differs(capture.len(), text);
        }
    }

    /// The capture shorter by one byte, by two, .. to nothing. What was cut off stands
    /// behind it: a read past its end would find the whole capture.
    pub fn ask_cuts(&mut self, filter: &Filter, capture: &[u8]) {
        for end in 0..capture.len() {
            self.cuts += 1;
            self.ask(filter, &capture[..end], &[filter.exact()]);
        }
    }
}

// ── Drawn captures ───────────────────────────────────────────────────────────

/// The reader has to find what was written: the least fault, and the frames before it.
/// One that is broken on purpose is left to the comparison.
fn check_reader(filter: &Filter, written: &Spoiled, bodies: &[Vec<u8>]) {
    if FIRST.load(Ordering::Relaxed) {
        return;
    }
    let given = pcap::given(&written.bytes, filter.link);
    let least = written.faults.iter().min().copied();
    let good = match least {
        Some(NO_CAPTURE | OTHER_LINK) => &[],
        _ => &bodies[..written.good],
    };
    if given.refusal != least || given.frames != good {
        let capture = hex(&written.bytes);
        fail(&format!(
            "the reader does not give what was written: {capture}"
        ));
    }
}

/// Tree and capture are lent as copies, which have to stay as they are.
fn compare_copies(filter: &Filter, capture: &[u8], met: &mut Met) {
    let mut lent = (filter.file.clone(), capture.to_vec());
    count(&lent.0, &lent.1, filter.exact());
    exports::frame(&lent.1, pcap::FILE_HEADER);
    std::hint::black_box(&mut lent);
    if lent.0 != filter.file || lent.1 != capture {
        let (tree, capture) = (to_hex(&filter.file), hex(capture));
        let text = || format!("tree or capture is written to, tree {tree} capture {capture}");
        met.parts.captures.differs(capture.len(), text);
    }
}

/// Buffers of several lengths over one capture.
pub fn compare_set(rng: &mut Rng, filter: &Filter, faults: &[Number], met: &mut Met) {
    let bodies = bodies(rng, filter);
    let written = written(rng, filter, &bodies, faults);
    let (capture, lengths) = (&written.bytes, builds::lengths(rng, &filter.answer));
    for length in &lengths {
        let (built, _) = builds::wanted(&filter.answer, *length);
        met.sets.insert((built >> 16, faults.to_vec()));
    }
    met.ask(filter, capture, &lengths);
    check_reader(filter, &written, &bodies);
    compare_copies(filter, capture, met);
    places(rng, capture, met);
    if rng.one_in(64) && capture.len() < 2000 {
        met.ask_cuts(filter, capture);
    }
}

/// Places within the file, about its ends and far beyond; at times all of them.
fn places(rng: &mut Rng, capture: &[u8], met: &mut Met) {
    const ABOUT: usize = 20;
    let end = capture.len();
    let most = if rng.one_in(32) && end < 2000 {
        end + ABOUT
    } else {
        0
    };
    let some = [
        rng.below(end + ABOUT),
        rng.below(end + ABOUT),
        rng.below(pcap::FILE_HEADER + 1),
        end.saturating_sub(rng.below(ABOUT)),
        end,
        end + 1,
        rng.pick(&FAR),
        rng.draw() as usize,
    ];
    for at in (0..most).chain(some) {
        met.ask_place(capture, at);
    }
}

/// A capture one of whose frames is the tree file itself, which is lent from there.
fn compare_within(rng: &mut Rng, filter: &Filter, met: &mut Met) {
    let mut bodies = bodies(rng, filter);
    bodies.insert(0, filter.file.clone());
    let capture = written(rng, filter, &bodies, &[]).bytes;
    let start = pcap::FILE_HEADER + pcap::FRAME_HEADER;
    let tree = &capture[start..start + filter.file.len()];
    let length = filter.exact();
    met.ask(filter, &capture, &[length]);
    met.within += 1;
    met.parts.captures.compared += 1;
    if count(tree, &capture, length) != count(&filter.file, &capture, length) {
        let text = || format!("not as with the tree elsewhere, capture {}", hex(&capture));
        met.parts.captures.differs(capture.len(), text);
    }
}

/// So many drawn captures, then those without a draw.
pub fn compare_all(seed: u64, count: u64, parts: &mut Parts) {
    let (mut rng, mut wide) = (Rng(seed ^ 0xCA97), Rng(seed ^ 0x31E0));
    let mut met = Met::new(parts);
    for _ in 0..count {
        let filter = drawn_filter(&mut rng, &mut wide);
        if met.builds_differ(&filter) {
            continue;
        }
        let faults = faults(&mut rng);
        compare_set(&mut rng, &filter, &faults, &mut met);
        if rng.one_in(16) {
            compare_within(&mut rng, &filter, &mut met);
        }
    }
    ranges::compare_all(&mut rng, &mut met);
    met.print();
}
