//! Typed lines through `pft_type` and the second parser: the answer and every byte of the tree.
//! The file that both give goes through `pft_build`, and through `pft_direct` and `pft_run` over
//! frames of which the second parser reads the line itself.

use crate::lent::{lent, other_byte, CANARY, MARGIN};
use crate::part::{print_all, to_hex, Part};
use crate::seen::Seen;
use crate::trees::{Rng, RAWIP};
use crate::typing::{self, words, Phrase, Refusal, HEADER, LINK, RECORD, REFUSAL, TREE};
use crate::{exports, frames, smaller};

/// What `pft_build` may need at most.
const PROGRAM: usize = 31_568;

const INSN: usize = 8;

pub const KIND_ON_RAW: u32 = 5;
pub const FAR_JUMP: u32 = 8;

const ACCEPTED: u32 = 1;
const DROPPED: u32 = 2;
pub const SHORT: u32 = 3;

pub type Read = Result<Phrase, Refusal>;

// ── One call of pft_type ─────────────────────────────────────────────────────

/// The answer that a lent tree must give, and its bytes after.
fn wanted(link: u8, read: &Read) -> (u64, Vec<u8>) {
    let (number, tree) = typing::answer(read, link);
    let margin = [CANARY; MARGIN];
    (number, [&margin[..], &tree, &margin].concat())
}

fn got(link: u8, text: &[u8]) -> (u64, Vec<u8>) {
    lent(TREE, |tree| {
        exports::typed(link, text, tree.try_into().expect("a tree's length"))
    })
}

fn said(number: u64) -> String {
    match (number >> REFUSAL, number & 0xFFFF_FFFF) {
        (0, length) => format!("a file of {length} bytes"),
        (refusal, place) => format!("refused {refusal} at {place}"),
    }
}

/// A line as it can be typed again, a long one by its beginning.
fn shown(text: &[u8]) -> String {
    const LONG: usize = 1000;
    match text.get(..LONG) {
        Some(start) => format!("\"{}..\" of {} bytes", start.escape_ascii(), text.len()),
        None => format!("\"{}\"", text.escape_ascii()),
    }
}

/// How a line differs.
fn difference(link: u8, text: &[u8], read: &Read) -> Option<String> {
    let (here, there) = (got(link, text), wanted(link, read));
    if here == there {
        return None;
    }
    let place = match here.0 == there.0 {
        true => other_byte(&here.1, &there.1),
        false => String::new(),
    };
    let (here, there, text) = (said(here.0), said(there.0), shown(text));
    Some(format!(
        "pft_type {here}, the second parser {there}{place}, link {link} line {text}"
    ))
}

// ── Smaller lines ────────────────────────────────────────────────────────────

/// A line with fewer words, then fewer bytes, that still differs.
fn least(text: &[u8], differs: impl Fn(&[u8]) -> bool) -> Vec<u8> {
    let words: Vec<Vec<u8>> = words(text)
        .into_iter()
        .map(|(_, word)| word.into())
        .collect();
    let mut text = text.to_vec();
    if differs(&words.join(&b' ')) {
        let bytes = |words: &[Vec<u8>]| words.iter().map(Vec::len).sum();
        let whole = |words: &[Vec<u8>]| differs(&words.join(&b' '));
        let fewer = smaller::by_parts(words, bytes, smaller::without, whole);
        text = smaller::words(fewer, whole).join(&b' ');
    }
    smaller::by_parts(text, <[u8]>::len, smaller::without, differs)
}

fn least_difference(link: u8, text: &[u8]) -> String {
    let differs = |text: &[u8]| difference(link, text, &typing::read(link, text));
    let text = least(text, |text| differs(text).is_some());
    differs(&text).unwrap_or_default()
}

// ── The file and frames ──────────────────────────────────────────────────────

/// Whether a file asks for another ethertype than IPv4's alone.
fn has_other_kinds(file: &[u8]) -> bool {
    const PROTOCOL: u8 = 10;
    const OTHERS: std::ops::RangeInclusive<u8> = 2..=4;
    let mut records = file[HEADER..].chunks_exact(RECORD);
    records.any(|r| r[0] == PROTOCOL && OTHERS.contains(&r[2]))
}

/// How a build goes that a typed file can't give: any refusal but 5 and 8, 5 where no other kind
/// is asked for on RawIp, a count where one is.
fn wrong_build(file: &[u8], answer: u32) -> Option<String> {
    let on_raw = file[LINK] == RAWIP && has_other_kinds(file);
    let fits = match answer >> 16 {
        0 => !on_raw,
        KIND_ON_RAW => on_raw,
        refusal => refusal == FAR_JUMP,
    };
    (!fits).then(|| format!("pft_build answers {answer:#x}, tree {}", to_hex(file)))
}

/// A line's phrase and file, and the file's program where it is built.
struct Tried<'p> {
    phrase: &'p Phrase,
    file: &'p [u8],
    program: Option<&'p [u8]>,
}

/// What is made of a frame: by the line itself, by the direct reading, by the program; and
/// whether it reaches so far that no run over it is short.
pub struct Outcome {
    pub says: bool,
    direct: u32,
    pub verdict: Option<u32>,
    reaches: bool,
}

impl Tried<'_> {
    fn outcome(&self, frame: &[u8]) -> Outcome {
        let link = self.file[LINK];
        Outcome {
            says: self.phrase.says(link, frame),
            direct: exports::direct(self.file, frame),
            verdict: self
                .program
                .map(|program| exports::run(program, frame) >> 16),
            reaches: frame.len() >= frames::network(link) + frames::REACH,
        }
    }
}

impl Outcome {
    /// Whether reading and verdict are what the line says; a frame that reaches far enough is
    /// not short.
    fn fits(&self) -> bool {
        let verdict = match self.verdict {
            None => true,
            Some(SHORT) => !self.reaches,
            Some(verdict) => verdict == if self.says { ACCEPTED } else { DROPPED },
        };
        self.direct == self.says as u32 && verdict
    }
}

/// What a line and its file make of a frame, where there is a file.
fn outcome_of(link: u8, text: &[u8], frame: &[u8]) -> Option<Outcome> {
    let phrase = typing::read(link, text).ok()?;
    let (file, mut program) = (phrase.file(link), vec![0; PROGRAM]);
    let length = INSN * exports::build(&file, &mut program) as u16 as usize;
    let tried = Tried {
        phrase: &phrase,
        file: &file,
        program: (length > 0).then_some(&program[..length]),
    };
    Some(tried.outcome(frame))
}

/// The smallest line, and the shortest start of a frame, that still differ.
fn least_reading(link: u8, text: &[u8], frame: &[u8]) -> String {
    let differs = |text: &[u8], frame: &[u8]| {
        outcome_of(link, text, frame).is_some_and(|outcome| !outcome.fits())
    };
    let text = least(text, |text| differs(text, frame));
    let length = (0..frame.len()).find(|n| differs(&text, &frame[..*n]));
    let frame = &frame[..length.unwrap_or(frame.len())];
    let outcome = outcome_of(link, &text, frame).expect("a file");
    let (text, frame) = (shown(&text), to_hex(frame));
    let Outcome { says, direct, .. } = outcome;
    let verdict = outcome.verdict.map_or("none".into(), |v| v.to_string());
    format!("the line says {says}, pft_direct {direct}, verdict {verdict}, link {link} line {text} frame {frame}")
}

// ── All lines of a run ───────────────────────────────────────────────────────

pub struct Met {
    typing: Part,
    builds: Part,
    readings: Part,
    seen: Seen,
    /// Draws frames.
    rng: Rng,
    program: Vec<u8>,
}

impl Met {
    pub fn new(seed: u64) -> Met {
        Met {
            typing: Part::new("typing"),
            builds: Part::new("builds"),
            readings: Part::new("readings"),
            seen: Seen::new(),
            rng: Rng(seed ^ 0xF4A3),
            program: vec![0; PROGRAM],
        }
    }

    pub fn lines(&self) -> u64 {
        self.typing.compared
    }

    /// A line, with one frame where it gives a file.
    pub fn ask(&mut self, link: u8, text: &[u8]) {
        self.ask_with(link, text, 1);
    }

    /// A line, with so many frames where it gives a file.
    pub fn ask_with(&mut self, link: u8, text: &[u8], frames: usize) {
        let read = typing::read(link, text);
        self.typing.compared += 1;
        if difference(link, text, &read).is_some() {
            self.typing
                .differs(text.len(), || least_difference(link, text));
            return;
        }
        self.seen.note(link, text, &read);
        if let Ok(phrase) = &read {
            self.try_file(link, text, phrase, frames);
        }
    }

    /// A line on every link.
    pub fn ask_links(&mut self, text: &[u8]) {
        (1..=3).for_each(|link| self.ask(link, text));
    }

    /// Every start of a line. What was cut off stands behind it: a read past its end would
    /// find the whole line.
    pub fn ask_cuts(&mut self, link: u8, text: &[u8]) {
        (0..text.len()).for_each(|end| self.ask(link, &text[..end]));
    }

    /// The line is lent as a copy, which has to stay as it is.
    pub fn ask_copy(&mut self, link: u8, text: &[u8]) {
        let mut copy = text.to_vec();
        got(link, &copy);
        std::hint::black_box(&mut copy);
        self.typing.compared += 1;
        if copy != text {
            let words = || format!("the line is written to, link {link} line {}", shown(text));
            self.typing.differs(text.len(), words);
        }
    }

    fn try_file(&mut self, link: u8, text: &[u8], phrase: &Phrase, frames: usize) {
        let file = phrase.file(link);
        let answer = exports::build(&file, &mut self.program);
        self.builds.compared += 1;
        if let Some(words) = wrong_build(&file, answer) {
            let text = shown(text);
            self.builds
                .differs(text.len(), || format!("{words}, line {text}"));
            return;
        }
        self.seen.note_build(answer);
        let length = INSN * answer as u16 as usize;
        let tried = Tried {
            phrase,
            file: &file,
            program: (length > 0).then_some(&self.program[..length]),
        };
        for _ in 0..frames {
            let frame = drawn_frame(&mut self.rng, &file);
            let outcome = tried.outcome(&frame);
            self.readings.compared += 1;
            self.seen.note_frame(&outcome);
            if !outcome.fits() {
                let words = || least_reading(link, text, &frame);
                self.readings.differs(text.len(), words);
            }
        }
    }

    pub fn print(&self) {
        self.seen.print();
    }

    pub fn print_parts(&self) -> u64 {
        print_all(&[&self.typing, &self.builds, &self.readings])
    }
}

/// A frame that the file looks at, at times one of ARP, at times cut.
fn drawn_frame(rng: &mut Rng, file: &[u8]) -> Vec<u8> {
    let mut frame = frames::aimed(rng, file);
    if rng.one_in(8) {
        frame = with_arp(rng, file, frame);
    }
    if rng.one_in(4) {
        frame.truncate(rng.below(frame.len() + 1));
    }
    frame
}

/// ARP or RARP about a host of the file, which is to be of no concern to it.
fn with_arp(rng: &mut Rng, file: &[u8], frame: Vec<u8>) -> Vec<u8> {
    const HOST: u8 = 11;
    const KINDS: [u16; 2] = [0x0806, 0x8035];
    const ADDRESSES: [usize; 2] = [14, 24];
    let records = file[HEADER..].chunks_exact(RECORD);
    let hosts: Vec<&[u8]> = records.filter(|r| r[0] == HOST).collect();
    let mut sketch = frames::Sketch::new(file[LINK], frame);
    if !hosts.is_empty() {
        sketch.kind(rng.pick(&KINDS));
        let address = &rng.pick(&hosts)[8..12];
        for at in ADDRESSES {
            sketch.put(sketch.n + at, address);
        }
    }
    sketch.frame
}
