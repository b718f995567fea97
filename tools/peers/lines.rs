//! Holds typed lines to libpcap's compiler: what is built of a line, what is read directly, and
//! libpcap's program for the line in its words judge the same frames.

use dabberpearl::{direct, Error, Instruction, Program, Refusal, Verdict};

use crate::drawing::{allowed, altered, spaced, Size, Words};
use crate::fewest::fewest;
use crate::frames::Maker;
use crate::libpcap::{self, Compiler, Insn};
use crate::pool::Pool;
use crate::short::Short;
use crate::shrink::ENOUGH;
use crate::translation::translated;
use crate::traps::trap;
use crate::tree::{frame_text, records_of, NOT};
use crate::trees::Rng;
use crate::typing::{typed, TOO_LARGE};
use crate::values::{network, Values};

const RAWIP: u8 = 2;
/// Words for a kind that RawIp has not.
const OTHER_KINDS: [&str; 3] = ["ip6", "arp", "rarp"];
/// Frames for each line besides those of the pool: made for the program here, for libpcap's, and
/// traps for its words.
const MADE: usize = 16;
const THEIRS: usize = 16;
const TRAPS: usize = 8;
/// The most conditions of a line, drawn from these.
const MOST: [usize; 7] = [1, 3, 6, 12, 24, 60, 64];
/// How many differences are shown.
const SHOWN: u64 = 10;

// ── One line ─────────────────────────────────────────────────────────────────

/// A line's tree file, its program unless the build refuses it, and libpcap's without its
/// optimizer.
struct Judge {
    link: u8,
    file: Vec<u8>,
    ours: Option<Program>,
    theirs: Vec<Insn>,
}

/// What all say of a frame.
struct Answers {
    run: Option<Verdict>,
    direct: bool,
    theirs: bool,
}

enum Unjudged {
    /// Number 18, of a line that is too large.
    TooLarge,
    /// A line that ought to be typed, built or taken by libpcap.
    Untaken(String),
}

/// Whether a number of the build may stand for a line: 5 of a kind that RawIp has not, and 8.
fn may_refuse(link: u8, words: &[String], refusal: &Error) -> bool {
    match refusal {
        Error::Refused(Refusal::KindOnRaw) => {
            link == RAWIP && words.iter().any(|w| OTHER_KINDS.contains(&&**w))
        }
        Error::Refused(Refusal::FarJump) => true,
        _ => false,
    }
}

impl Judge {
    /// libpcap is given the words of another line if they are to be wrong.
    fn new(
        compiler: &Compiler,
        link: u8,
        line: &str,
        words: &[String],
        said: &[String],
    ) -> Result<Judge, Unjudged> {
        let untaken = |what: String| Unjudged::Untaken(format!("{link}: `{line}`: {what}"));
        let fits = Size::of(words).fits();
        let file = match typed(link, line) {
            Ok(file) if fits => file,
            Err(refused) if refused.number == TOO_LARGE && !fits => return Err(Unjudged::TooLarge),
            Ok(_) => return Err(untaken("a file of over 128 records or brackets".into())),
            Err(r) => return Err(untaken(format!("refused {} at {}", r.number, r.place))),
        };
        let ours = match Program::from_tree(&file) {
            Ok(program) => Some(program),
            Err(refusal) if may_refuse(link, words, &refusal) => None,
            Err(refusal) => return Err(untaken(refusal.to_string())),
        };
        let said = translated(&said.join(" "));
        let theirs = compiler.compile(link, &said, false);
        let theirs = theirs.map_err(|e| untaken(format!("libpcap of `{said}`: {e}")))?;
        Ok(Judge {
            link,
            file,
            ours,
            theirs,
        })
    }

    fn answers(&self, frame: &[u8]) -> Answers {
        let refused = "no frame is longer than 65,535 bytes";
        let run = |program: &Program| program.run(frame).expect(refused).verdict;
        Answers {
            run: self.ours.as_ref().map(run),
            direct: direct(&self.file, frame).expect(refused),
            theirs: libpcap::filter(&self.theirs, frame) != 0,
        }
    }

    fn enough(&self) -> usize {
        network(self.link) + ENOUGH
    }

    /// Frames made for the program here, for libpcap's, and for a condition.
    fn made(&self, rng: &mut Rng) -> Vec<Vec<u8>> {
        let ours: Vec<Instruction> = self.ours.iter().flat_map(|p| p.instructions()).collect();
        let theirs: Vec<Instruction> = self.theirs.iter().map(|&i| i.into()).collect();
        let mut frames = Vec::new();
        for (program, count) in [(&ours, MADE), (&theirs, THEIRS)] {
            let maker = Maker::new(&self.file, program);
            let count = if program.is_empty() { 0 } else { count };
            frames.extend((0..count).map(|_| maker.frame(rng)));
        }
        let records = records_of(&self.file);
        let conditions: Vec<_> = records.iter().filter(|r| r[0] > NOT).collect();
        frames.extend((0..TRAPS).map(|_| {
            let condition = rng.pick(&conditions);
            trap(rng, self.link, condition)
        }));
        frames
    }
}

impl Answers {
    fn differ(&self) -> bool {
        let run = match self.run {
            Some(Verdict::Accepted) => true,
            Some(Verdict::Dropped) => false,
            Some(_) => return true,
            None => self.direct,
        };
        run != self.direct || run != self.theirs
    }
}

// ── What was met ─────────────────────────────────────────────────────────────

#[derive(Default)]
pub struct Met {
    lines: u64,
    links: [u64; 4],
    conditions: usize,
    brackets: usize,
    bytes: usize,
    /// Lines whose program is compared, and lines that the build refuses.
    built: u64,
    unbuilt: u64,
    too_large: u64,
    instructions: usize,
    theirs: usize,
    frames: u64,
    accepted: u64,
    short: Short,
    pub differences: u64,
    pub told_apart: u64,
}

impl Met {
    /// Verdicts compared: a frame that is too short is compared as it is, and filled up.
    pub fn compared(&self) -> u64 {
        self.frames + self.short.count()
    }

    fn note(&mut self, judge: &Judge, line: &str, words: &[String]) {
        let size = Size::of(words);
        self.links[judge.link as usize] += 1;
        self.conditions = self.conditions.max(size.conditions);
        self.brackets = self.brackets.max(size.brackets);
        self.bytes = self.bytes.max(line.len());
        self.theirs = self.theirs.max(judge.theirs.len());
        match &judge.ours {
            Some(program) => {
                self.built += 1;
                self.instructions = self.instructions.max(program.len());
            }
            None => self.unbuilt += 1,
        }
    }

    pub fn print(&self) {
        let [_, ethernet, raw, sll] = self.links;
        println!("typed lines: {ethernet} of Ethernet, {raw} of RawIp, {sll} of LinuxSll");
        println!(
            "  of up to {} conditions, {} brackets open at once and {} bytes; {} others refused with 18",
            self.conditions, self.brackets, self.bytes, self.too_large
        );
        println!(
            "  {} built, programs of up to {} instructions here, {} by libpcap without its optimizer; \
             {} refused with 5 or 8 and read directly alone",
            self.built, self.instructions, self.theirs, self.unbuilt
        );
        println!(
            "  {} frames judged, those below n + 64 bytes filled up; {} accepted",
            self.frames, self.accepted
        );
        self.short.print();
    }
}

// ── All lines ────────────────────────────────────────────────────────────────

pub struct Lines<'a> {
    compiler: Compiler,
    pool: &'a Pool,
    rng: Rng,
    spoils: bool,
    pub met: Met,
}

impl<'a> Lines<'a> {
    pub fn new(seed: u64, pool: &'a Pool, spoils: bool) -> Lines<'a> {
        Lines {
            compiler: Compiler::new(),
            pool,
            rng: Rng(seed),
            spoils,
            met: Met::default(),
        }
    }

    pub fn compare(&mut self, count: u64) {
        while self.met.lines < count {
            let link = self.rng.pick(&[1, 1, 2, 3]);
            let drawn = self.pool.drawn(&mut self.rng, link);
            let sources = self.rng.between(1, 3).min(drawn.len());
            let values = Values::of(&mut self.rng, link, &drawn[..sources]);
            let most = self.rng.pick(&MOST);
            let words = allowed(&mut self.rng, link, &values, most);
            self.line(link, &words, &drawn);
        }
    }

    fn line(&mut self, link: u8, words: &Words, drawn: &[&[u8]]) {
        let line = spaced(&mut self.rng, words);
        let said = match self.spoils {
            true => altered(&mut self.rng, words),
            false => words.clone(),
        };
        match Judge::new(&self.compiler, link, &line, words, &said) {
            Ok(judge) => {
                self.met.lines += 1;
                self.met.note(&judge, &line, words);
                self.frames(&judge, words, drawn);
            }
            Err(Unjudged::TooLarge) => self.met.too_large += 1,
            Err(Unjudged::Untaken(what)) => {
                self.met.lines += 1;
                self.differs(&what);
            }
        }
    }

    fn differs(&mut self, what: &str) {
        self.met.differences += 1;
        if self.met.differences <= SHOWN {
            println!("{what}");
        }
    }

    // ── Frames ───────────────────────────────────────────────────────────────

    fn frames(&mut self, judge: &Judge, words: &Words, drawn: &[&[u8]]) {
        let (made, before) = (judge.made(&mut self.rng), self.met.differences);
        let made = made.iter().map(|f| &f[..]);
        for frame in drawn.iter().copied().chain(made) {
            self.frame(judge, words, frame);
        }
        self.met.told_apart += (self.met.differences > before) as u64;
    }

    fn frame(&mut self, judge: &Judge, words: &Words, frame: &[u8]) {
        if frame.len() >= judge.enough() {
            self.whole(judge, words, frame);
            return;
        }
        let mut filled = frame.to_vec();
        filled.resize(judge.enough(), 0);
        let holds = self.whole(judge, words, &filled);
        let answers = judge.answers(frame);
        let good = match answers.run {
            Some(run) => self.met.short.note(run, answers.theirs, holds),
            None => holds || !answers.theirs,
        };
        if !good {
            self.show_difference(judge, words, frame);
        }
    }

    /// All have to say the same. Answers what the direct reading says.
    fn whole(&mut self, judge: &Judge, words: &Words, frame: &[u8]) -> bool {
        let answers = judge.answers(frame);
        self.met.frames += 1;
        self.met.accepted += answers.direct as u64;
        if answers.differ() {
            self.show_difference(judge, words, frame);
        }
        answers.direct
    }

    /// Shows the line, made smaller for as long as it differs on the frame.
    fn show_difference(&mut self, judge: &Judge, words: &Words, frame: &[u8]) {
        if self.met.differences >= SHOWN {
            self.met.differences += 1;
            return;
        }
        let mut words = words.clone();
        if !self.spoils && frame.len() >= judge.enough() {
            words = fewest(words, &|words| self.differs_on(judge.link, words, frame));
        }
        let line = words.join(" ");
        let Answers {
            run,
            direct,
            theirs,
        } = judge.answers(frame);
        let (link, said, frame) = (judge.link, translated(&line), frame_text(frame));
        self.differs(&format!(
            "differs: {link}: `{line}`, `{said}`, frame {frame}: {run:?}, direct reading {direct}, \
             libpcap accepts {theirs}"
        ));
    }

    fn differs_on(&self, link: u8, words: &[String], frame: &[u8]) -> bool {
        let line = words.join(" ");
        let judge = Judge::new(&self.compiler, link, &line, words, words);
        judge.is_ok_and(|judge| judge.answers(frame).differ())
    }
}
