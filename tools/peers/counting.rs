//! Holds what is counted in captures to libpcap's reader and machine.

use std::borrow::Cow;
use std::collections::BTreeMap;
use std::path::{Path, PathBuf};

use dabberpearl::{Instruction, Program};

use crate::frames::Maker;
use crate::libpcap::{self, Insn};
use crate::pool::{captures, files};
use crate::rules::{read, Opened, Reading, Rule, Rules, RULES};
use crate::savefiles;
use crate::tree::{file_text, frame_text, hex};
use crate::trees::{self, Rng, ETHERNET, RAWIP, SLL};
use crate::values::network;

const NO_CAPTURE: u8 = 12;
const OTHER_LINK: u8 = 13;
const CUT_FRAME: u8 = 14;
/// Stands for whatever libpcap makes of pcapng.
const ANYTHING: u8 = 255;
const FILE_HEADER: usize = 24;
const FRAME_HEADER: usize = 16;
/// The places of the link in a file header and of the captured length in a frame header.
const LINK: usize = 20;
const CAPTURED: usize = 8;
/// The size of a tree file of one record.
const ONE_RECORD: usize = 32;
/// Drawn captures for each tree.
const EACH: u64 = 4;
/// Frames of a drawn capture.
const FRAMES: [usize; 8] = [0, 1, 1, 2, 3, 5, 8, 40];
/// How many differences are shown.
const SHOWN: u64 = 10;

extern "C" {
    fn pft_count(
        tree: *const u8,
        tree_length: usize,
        program: *mut u8,
        program_length: usize,
        capture: *const u8,
        capture_length: usize,
    ) -> u64;
    fn pft_frame(capture: *const u8, length: usize, at: usize) -> u64;
}

// ── What is told of a capture ────────────────────────────────────────────────

/// A tree's link, file and program. libpcap's machine is given `theirs`.
#[derive(Clone)]
struct Judge {
    link: u8,
    tree: Vec<u8>,
    theirs: Vec<Insn>,
}

/// The number, the frames before it and how many of them are accepted.
#[derive(PartialEq)]
struct Told<'a> {
    number: u8,
    accepted: u64,
    frames: Vec<Cow<'a, [u8]>>,
}

impl Told<'_> {
    fn refused(number: u8) -> Self {
        Told {
            number,
            accepted: 0,
            frames: vec![],
        }
    }

    /// In the words of docs/DIFFERENCES.md: for Here, and for libpcap.
    fn texts(&self) -> [String; 2] {
        let kept = format!("{} kept", self.accepted);
        match self.number {
            0 => [kept.clone(), kept],
            NO_CAPTURE => ["refused 12".into(), "not opened".into()],
            OTHER_LINK => ["refused 13".into(), "other link".into()],
            n => [format!("{kept}, refused {n}"), format!("{kept}, error")],
        }
    }
}

impl Judge {
    fn new(tree: &[u8]) -> Option<Judge> {
        let program = Program::from_tree(tree).ok()?;
        Some(Judge {
            link: tree[5],
            tree: tree.to_vec(),
            theirs: program.instructions().map(Insn::from).collect(),
        })
    }

    /// Tcp's.
    fn tcp(link: u8) -> Judge {
        let mut tree = vec![b'P', b'F', b'T', 0, 1, link, 0, 1, 10, 0, 5];
        tree.resize(ONE_RECORD, 0);
        Judge::new(&tree).expect("Tcp is built on every link")
    }

    /// By libpft.a: the count, and each frame as the piece of the capture that it is.
    fn ours<'a>(&self, capture: &'a [u8]) -> Told<'a> {
        let mut program = vec![0; 8 * self.theirs.len()];
        // SAFETY: each pointer and length is that of a slice which lives through the call, and the
        // program overlaps nothing.
        let answer = unsafe {
            pft_count(
                self.tree.as_ptr(),
                self.tree.len(),
                program.as_mut_ptr(),
                program.len(),
                capture.as_ptr(),
                capture.len(),
            )
        };
        let number = (answer >> 32) as u8;
        Told {
            number,
            accepted: answer & 0xffff_ffff,
            frames: match number {
                0 | CUT_FRAME => pieces(capture),
                _ => vec![],
            },
        }
    }

    /// What a reading tells, with libpcap's machine over the frames.
    fn told<'a>(&self, reading: Reading<'a>) -> Told<'a> {
        let (link, frames, cut) = match reading {
            Reading::Opened(Opened { link, frames, cut }) => (link, frames, cut),
            Reading::Closed => return Told::refused(NO_CAPTURE),
            Reading::Pcapng => return Told::refused(ANYTHING),
        };
        if link != Some(self.link) {
            return Told::refused(OTHER_LINK);
        }
        let accepted = |f: &&Cow<[u8]>| libpcap::filter(&self.theirs, f) != 0;
        Told {
            number: if cut { CUT_FRAME } else { 0 },
            accepted: frames.iter().filter(accepted).count() as u64,
            frames,
        }
    }
}

/// The frames that `pft_frame` finds, one behind the other.
fn pieces(capture: &[u8]) -> Vec<Cow<'_, [u8]>> {
    let (mut frames, mut at) = (Vec::new(), FILE_HEADER);
    while at < capture.len() {
        // SAFETY: the pointer and the length are those of a slice.
        let answer = unsafe { pft_frame(capture.as_ptr(), capture.len(), at) };
        if answer >> 32 != 0 {
            break;
        }
        let from = at + FRAME_HEADER;
        at = from + answer as usize;
        frames.push(capture[from..at].into());
    }
    frames
}

/// libpcap's reading. Its number for RAW is 12.
fn reading(capture: &Result<libpcap::Capture, String>) -> Reading<'_> {
    let Ok(capture) = capture else {
        return Reading::Closed;
    };
    Reading::Opened(Opened {
        link: match capture.link {
            1 => Some(ETHERNET),
            12 => Some(RAWIP),
            113 => Some(SLL),
            _ => None,
        },
        frames: capture.frames.iter().map(|f| f.into()).collect(),
        cut: capture.cut,
    })
}

/// The rules by which a capture is something else to libpcap.
fn rules_shown(judge: &Judge, capture: &[u8]) -> Vec<Rule> {
    let told = |rules| judge.told(read(capture, rules));
    let (none, all) = (told(Rules::NONE), told(Rules::ALL));
    let shows =
        |&rule: &Rule| told(Rules::only(rule)) != none || told(Rules::ALL.without(rule)) != all;
    RULES.iter().map(|(rule, _)| *rule).filter(shows).collect()
}

// ── What was met ─────────────────────────────────────────────────────────────

#[derive(Default)]
pub struct Met {
    /// Captures that were drawn, swept, and read from files.
    drawn: u64,
    swept: u64,
    files: u64,
    /// Of the files, those with a link that is ours, no captures, and those of which libpcap alone
    /// takes the link as ours.
    ours: u64,
    none: u64,
    theirs: u64,
    /// Captures by trees.
    pub counts: u64,
    /// Of these, what libpft.a answered: nothing refused, 12, 13, 14.
    numbers: [u64; 4],
    frames: u64,
    accepted: u64,
    most: usize,
    longest: usize,
    /// Counts in which libpcap does otherwise, and by rule.
    otherwise: u64,
    rules: BTreeMap<Rule, u64>,
    /// The shortest capture that shows a rule alone.
    shortest: BTreeMap<Rule, (Judge, Vec<u8>)>,
    pub differences: u64,
    /// Captures with a difference.
    pub told_apart: u64,
}

impl Met {
    fn note(&mut self, ours: &Told) {
        self.counts += 1;
        self.numbers[(ours.number as usize).saturating_sub(11)] += 1;
        self.frames += ours.frames.len() as u64;
        self.accepted += ours.accepted;
        self.most = self.most.max(ours.frames.len());
        let longest = ours.frames.iter().map(|f| f.len()).max().unwrap_or(0);
        self.longest = self.longest.max(longest);
    }

    fn note_file(&mut self, capture: &[u8], theirs: &Result<libpcap::Capture, String>) {
        let links = [ETHERNET, RAWIP, SLL].map(Judge::tcp);
        let read = |told: Told| matches!(told.number, 0 | CUT_FRAME);
        let ours = links.iter().any(|judge| read(judge.ours(capture)));
        let none = links[0].ours(capture).number == NO_CAPTURE;
        let pcap = links.iter().any(|judge| read(judge.told(reading(theirs))));
        self.files += 1;
        self.ours += ours as u64;
        self.none += none as u64;
        self.theirs += (pcap && !ours && !none) as u64;
    }

    fn note_rules(&mut self, judge: &Judge, capture: &[u8]) {
        self.otherwise += 1;
        let rules = rules_shown(judge, capture);
        for &rule in &rules {
            *self.rules.entry(rule).or_default() += 1;
        }
        let [rule] = rules[..] else { return };
        let known = self.shortest.get(&rule);
        if known.is_none_or(|(_, shortest)| capture.len() < shortest.len()) {
            let case = (judge.clone(), capture.to_vec());
            self.shortest.insert(rule, case);
        }
    }

    pub fn print(&self, small: bool) {
        let [whole, none, other, cut] = self.numbers;
        println!(
            "captures: {} drawn, {} swept, {} files; {} counts of a capture by a tree",
            self.drawn, self.swept, self.files, self.counts
        );
        println!(
            "  of the files {} with a link that is ours, {} no captures; in {} others it is ours to libpcap alone",
            self.ours, self.none, self.theirs
        );
        println!("  {whole} to the end, {none} refused with 12, {other} with 13, {cut} with 14");
        println!(
            "  {} frames given, up to {} of a capture and up to {} bytes long; {} accepted",
            self.frames, self.most, self.longest, self.accepted
        );
        println!(
            "  libpcap does otherwise in {} counts, by these rules:",
            self.otherwise
        );
        for (rule, name) in RULES {
            let count = self.rules.get(&rule).unwrap_or(&0);
            println!("    {name}: {count}");
            if let (true, Some(case)) = (small, self.shortest.get(&rule)) {
                println!("      {}", row(rule, case));
            }
        }
    }
}

// ── The smallest capture of a rule ───────────────────────────────────────────

/// Whether a capture is something else to libpcap by this rule and no other.
fn shows(rule: Rule, judge: &Judge, capture: &[u8]) -> bool {
    let theirs = libpcap::read_bytes(capture);
    let differs = judge.ours(capture) != judge.told(reading(&theirs));
    differs && rules_shown(judge, capture) == [rule]
}

/// A row of a table: tree, capture, here, libpcap.
fn row(rule: Rule, (judge, capture): &(Judge, Vec<u8>)) -> String {
    let tcp = Judge::tcp(judge.link);
    let judge = if shows(rule, &tcp, capture) {
        &tcp
    } else {
        judge
    };
    let capture = smallest(capture.clone(), &|c| shows(rule, judge, c));
    let [here, _] = judge.ours(&capture).texts();
    let [_, there] = judge.told(reading(&libpcap::read_bytes(&capture))).texts();
    let (tree, capture) = (file_text(&judge.tree), frame_text(&capture));
    format!("| `{tree}` | `{capture}` | {here} | {there} |")
}

/// Fewer bytes at its end, a frame less at its beginning, or a byte zero, for as long as it shows.
fn smallest(mut capture: Vec<u8>, shows: &dyn Fn(&[u8]) -> bool) -> Vec<u8> {
    loop {
        let length = capture.len();
        let cuts = (0..usize::BITS).map(|n| length >> n).take_while(|&n| n > 0);
        let shorter = cuts.map(|n| capture[..length - n].to_vec());
        let frame = pieces(&capture).first().map(|f| f.len() + FRAME_HEADER);
        let later =
            frame.map(|size| [&capture[..FILE_HEADER], &capture[FILE_HEADER + size..]].concat());
        let zeroed = (0..length).filter(|&at| capture[at] != 0).map(|at| {
            let mut with = capture.clone();
            with[at] = 0;
            with
        });
        let Some(next) = shorter.chain(later).chain(zeroed).find(|c| shows(c)) else {
            return capture;
        };
        capture = next;
    }
}

// ── All captures ─────────────────────────────────────────────────────────────

pub struct Counting {
    rng: Rng,
    spoils: bool,
    pub met: Met,
}

impl Counting {
    pub fn new(seed: u64, spoils: bool) -> Counting {
        Counting {
            rng: Rng(seed),
            spoils,
            met: Met::default(),
        }
    }

    /// One capture by one tree: here as T-01 says, in libpcap as the rules say besides.
    fn count(&mut self, judge: &Judge, capture: &[u8], theirs: &Result<libpcap::Capture, String>) {
        let (ours, pcap) = (judge.ours(capture), judge.told(reading(theirs)));
        self.met.note(&ours);
        let told = |rules| judge.told(read(capture, rules));
        let there = told(Rules::ALL);
        if ours != told(Rules::NONE) || there.number != ANYTHING && pcap != there {
            self.differs(judge, capture, &ours, &pcap);
        } else if ours != pcap {
            self.met.note_rules(judge, capture);
        }
    }

    fn differs(&mut self, judge: &Judge, capture: &[u8], ours: &Told, pcap: &Told) {
        self.met.differences += 1;
        if self.met.differences <= SHOWN {
            let ([here, _], [_, there]) = (ours.texts(), pcap.texts());
            let (tree, capture) = (file_text(&judge.tree), hex(capture));
            println!("here {here}, libpcap {there}: tree {tree}, capture {capture}");
        }
    }

    // ── Drawn and swept ──────────────────────────────────────────────────────

    pub fn compare(&mut self, count: u64) {
        while self.met.drawn < count {
            let tree = trees::tree_file(&mut self.rng);
            if let Some(judge) = Judge::new(&tree) {
                (0..EACH).for_each(|_| self.drawn(&judge));
            }
        }
        if !self.spoils {
            (ETHERNET..=SLL).for_each(|link| self.sweep(link));
        }
    }

    fn drawn(&mut self, judge: &Judge) {
        let instructions = Program::from_tree(&judge.tree).map(|p| p.instructions().collect());
        let instructions: Vec<Instruction> = instructions.expect("it was built");
        let maker = Maker::new(&judge.tree, &instructions);
        let frames = self.rng.pick(&FRAMES);
        let frames: Vec<Vec<u8>> = (0..frames).map(|_| maker.frame(&mut self.rng)).collect();
        let capture = savefiles::drawn(&mut self.rng, judge.link, &frames);
        let (mut judge, mut given) = (judge.clone(), capture.clone());
        if self.spoils {
            spoil(&mut self.rng, &mut judge, &mut given);
        }
        let differences = self.met.differences;
        self.count(&judge, &capture, &libpcap::read_bytes(&given));
        self.met.drawn += 1;
        self.met.told_apart += (self.met.differences > differences) as u64;
    }

    /// Tcp, on two frames of which the first is accepted.
    fn sweep(&mut self, link: u8) {
        let judge = Judge::tcp(link);
        let frames = [6, 17].map(|protocol| ip_frame(link, protocol));
        savefiles::sweep(link, &frames, |capture| {
            self.met.swept += 1;
            self.count(&judge, capture, &libpcap::read_bytes(capture));
        });
    }

    // ── Files ────────────────────────────────────────────────────────────────

    /// The captures among the samples and those that are named, each by every sample tree.
    pub fn files(&mut self, samples: &Path, named: &[&str]) -> Result<(), String> {
        let mut judges = Vec::new();
        let mut paths = Vec::new();
        for folder in folders(samples)? {
            for path in files(&folder, &["pft"])? {
                judges.extend(Judge::new(&bytes(&path)?));
            }
            paths.extend(captures(&folder)?);
        }
        for path in named {
            paths.extend(captures(Path::new(path))?);
        }
        for path in paths {
            let (capture, theirs) = (bytes(&path)?, libpcap::read_file(&path));
            judges
                .iter()
                .for_each(|judge| self.count(judge, &capture, &theirs));
            self.met.note_file(&capture, &theirs);
        }
        Ok(())
    }
}

/// An IPv4 header of a protocol on a link.
fn ip_frame(link: u8, protocol: u8) -> Vec<u8> {
    let n = network(link);
    let mut frame = vec![0; n + 20];
    if n > 0 {
        frame[n - 2] = 8;
    }
    (frame[n], frame[n + 9]) = (0x45, protocol);
    frame
}

/// Alters what libpcap is given: the mark, the link, a length, the end, or the program's accept.
fn spoil(rng: &mut Rng, judge: &mut Judge, capture: &mut Vec<u8>) {
    let accept = judge.theirs.len() - 2;
    let low = if capture.starts_with(&[0xa1]) { 3 } else { 0 };
    let place = match rng.below(5) {
        0 => low,
        1 => LINK + low,
        2 => FILE_HEADER + CAPTURED + low,
        3 => {
            capture.pop();
            return;
        }
        _ => {
            judge.theirs[accept].k = 0;
            return;
        }
    };
    if let Some(byte) = capture.get_mut(place) {
        *byte ^= 1;
    }
}

fn bytes(path: &Path) -> Result<Vec<u8>, String> {
    std::fs::read(path).map_err(|e| format!("{}: {e}", path.display()))
}

/// A folder's folders, by name.
fn folders(folder: &Path) -> Result<Vec<PathBuf>, String> {
    let told = |e: std::io::Error| format!("{}: {e}", folder.display());
    let entries = std::fs::read_dir(folder).map_err(told)?;
    let paths: Result<Vec<PathBuf>, _> = entries.map(|entry| Ok(entry?.path())).collect();
    let mut paths = paths.map_err(told)?;
    paths.retain(|path| path.is_dir());
    paths.sort();
    Ok(paths)
}
