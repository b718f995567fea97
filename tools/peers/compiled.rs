//! Holds trees to libpcap's compiler: our program, our direct reading and libpcap's program for the
//! same words judge the same frames.

use std::collections::{BTreeMap, HashSet};

use dabberpearl::{direct, Error, Instruction, Program, Refusal, Verdict};

use crate::frames::Maker;
use crate::libpcap::{self, Compiler, Insn};
use crate::pool::Pool;
use crate::short::Short;
use crate::shrink::{shrink, Case, ENOUGH};
use crate::traps::trap;
use crate::tree::{frame_text, tree_text, Record, Tree, NOT};
use crate::trees::Rng;
use crate::values::{self, network, Values};

/// Frames for each tree besides those of the pool: made for it, and traps for its words.
const MADE: usize = 24;
const TRAPS: usize = 8;
/// How many differences are shown.
const SHOWN: u64 = 10;
/// How many faults of libpcap's optimizer of each sort are made small, and shown.
const SHRUNK_FAULTS: u64 = 200;
const SHOWN_FAULTS: usize = 3;

// ── One tree ─────────────────────────────────────────────────────────────────

/// A tree's program, and libpcap's for its words without and with its optimizer.
struct Judge {
    link: u8,
    file: Vec<u8>,
    ours: Program,
    plain: Vec<Insn>,
    optimized: Vec<Insn>,
}

/// What all say of a frame.
struct Answers {
    run: Verdict,
    direct: bool,
    plain: bool,
    optimized: bool,
}

enum Unjudged {
    Refused(Error),
    /// libpcap does not take the words.
    Words(String),
}

impl Judge {
    /// The words are those of another tree if they are to be wrong.
    fn new(compiler: &Compiler, link: u8, tree: &Tree, said: &Tree) -> Result<Judge, Unjudged> {
        let file = tree.file(link);
        let ours = Program::from_tree(&file).map_err(Unjudged::Refused)?;
        let words = said.words(link);
        let compile = |optimize| {
            let program = compiler.compile(link, &words, optimize);
            program.map_err(|e| Unjudged::Words(format!("{words}: {e}")))
        };
        Ok(Judge {
            link,
            ours,
            plain: compile(false)?,
            optimized: compile(true)?,
            file,
        })
    }

    fn answers(&self, frame: &[u8]) -> Answers {
        let refused = "no frame is longer than 65,535 bytes";
        Answers {
            run: self.ours.run(frame).expect(refused).verdict,
            direct: direct(&self.file, frame).expect(refused),
            plain: libpcap::filter(&self.plain, frame) != 0,
            optimized: libpcap::filter(&self.optimized, frame) != 0,
        }
    }

    fn enough(&self) -> usize {
        network(self.link) + ENOUGH
    }
}

impl Answers {
    fn differ(&self) -> bool {
        let run = match self.run {
            Verdict::Accepted => true,
            Verdict::Dropped => false,
            _ => return true,
        };
        run != self.direct || run != self.plain
    }

    /// libpcap's optimizer alone judges otherwise.
    fn fault(&self) -> bool {
        !self.differ() && self.optimized != self.plain
    }
}

// ── What was met ─────────────────────────────────────────────────────────────

#[derive(Default)]
pub struct Met {
    trees: u64,
    links: [u64; 4],
    conditions: HashSet<[u8; 4]>,
    by_bytes: u64,
    leaves: u64,
    records: usize,
    instructions: usize,
    theirs: usize,
    /// Trees that were refused with 8.
    far: u64,
    frames: u64,
    accepted: u64,
    short: Short,
    pub differences: u64,
    pub told_apart: u64,
    fault_trees: u64,
    /// Frames that libpcap's optimizer loses, and that it lets through.
    fault_frames: [u64; 2],
    /// Rows for both, by the kinds of their smallest tree.
    faults: [BTreeMap<Vec<u8>, String>; 2],
}

impl Met {
    /// Verdicts compared: a frame that is too short is compared as it is, and filled up.
    pub fn compared(&self) -> u64 {
        self.frames + self.short.count()
    }

    fn note(&mut self, judge: &Judge, tree: &mut Tree) {
        self.trees += 1;
        self.links[judge.link as usize] += 1;
        self.records = self.records.max(tree.count());
        self.instructions = self.instructions.max(judge.ours.len());
        self.theirs = self.theirs.max(judge.plain.len());
        for leaf in tree.leaves() {
            let r = leaf.record;
            self.conditions.insert([judge.link, r[0], r[1], r[2]]);
            self.leaves += 1;
            self.by_bytes += leaf.by_bytes as u64;
        }
    }

    pub fn print(&self) {
        let [_, ethernet, raw, sll] = self.links;
        println!("trees in words: {ethernet} of Ethernet, {raw} of RawIp, {sll} of LinuxSll");
        println!(
            "  of up to {} records, {} different conditions, {} of {} conditions said by bytes; \
             {} others refused with 8",
            self.records,
            self.conditions.len(),
            self.by_bytes,
            self.leaves,
            self.far
        );
        println!(
            "  programs of up to {} instructions here, {} by libpcap without its optimizer",
            self.instructions, self.theirs
        );
        println!(
            "  {} frames judged, those below n + 64 bytes filled up; {} accepted",
            self.frames, self.accepted
        );
        self.short.print();
        self.print_faults();
    }

    fn print_faults(&self) {
        let [lost, let_through] = self.fault_frames;
        println!(
            "  libpcap's optimizer against libpcap without it: in {} trees {lost} frames lost, \
             {let_through} let through",
            self.fault_trees
        );
        for sort in &self.faults {
            let mut rows: Vec<&String> = sort.values().collect();
            rows.sort_by_key(|row| row.len());
            for row in rows.iter().take(SHOWN_FAULTS) {
                println!("    {row}");
            }
        }
    }
}

// ── All trees ────────────────────────────────────────────────────────────────

pub struct Compiled<'a> {
    compiler: Compiler,
    pool: &'a Pool,
    rng: Rng,
    spoils: bool,
    pub met: Met,
}

impl<'a> Compiled<'a> {
    pub fn new(seed: u64, pool: &'a Pool, spoils: bool) -> Compiled<'a> {
        Compiled {
            compiler: Compiler::new(),
            pool,
            rng: Rng(seed),
            spoils,
            met: Met::default(),
        }
    }

    pub fn compare(&mut self, count: u64) {
        while self.met.trees < count {
            let link = self.rng.pick(&[1, 1, 2, 3]);
            let drawn = self.pool.drawn(&mut self.rng, link);
            let sources = self.rng.between(1, 3).min(drawn.len());
            let values = Values::of(&mut self.rng, link, &drawn[..sources]);
            let tree = values::tree(&mut self.rng, link, &values);
            self.tree(link, tree, &drawn);
        }
    }

    fn tree(&mut self, link: u8, mut tree: Tree, drawn: &[&[u8]]) {
        let said = match self.spoils {
            true => values::altered(&mut self.rng, link, &tree),
            false => tree.clone(),
        };
        match Judge::new(&self.compiler, link, &tree, &said) {
            Ok(judge) => {
                self.met.note(&judge, &mut tree);
                self.frames(&judge, &tree, drawn);
            }
            Err(Unjudged::Refused(Error::Refused(Refusal::FarJump))) => self.met.far += 1,
            Err(Unjudged::Refused(error)) => self.untaken(&error.to_string()),
            Err(Unjudged::Words(what)) => self.untaken(&what),
        }
    }

    /// A tree that the build or libpcap ought to take.
    fn untaken(&mut self, what: &str) {
        self.met.trees += 1;
        self.differs(what);
    }

    fn differs(&mut self, what: &str) {
        self.met.differences += 1;
        if self.met.differences <= SHOWN {
            println!("{what}");
        }
    }

    // ── Frames ───────────────────────────────────────────────────────────────

    fn frames(&mut self, judge: &Judge, tree: &Tree, drawn: &[&[u8]]) {
        let instructions: Vec<Instruction> = judge.ours.instructions().collect();
        let maker = Maker::new(&judge.file, &instructions);
        let mut made: Vec<Vec<u8>> = (0..MADE).map(|_| maker.frame(&mut self.rng)).collect();
        made.extend((0..TRAPS).map(|_| self.trap(judge.link, tree)));
        let made = made.iter().map(|f| &f[..]);
        let (differences, faults) = (self.met.differences, self.met.fault_frames);
        for frame in drawn.iter().copied().chain(made) {
            self.frame(judge, tree, frame);
        }
        self.met.told_apart += (self.met.differences > differences) as u64;
        self.met.fault_trees += (self.met.fault_frames != faults) as u64;
    }

    fn trap(&mut self, link: u8, tree: &Tree) -> Vec<u8> {
        let records = tree.records();
        let conditions: Vec<&Record> = records.iter().filter(|r| r[0] > NOT).collect();
        let condition = self.rng.pick(&conditions);
        trap(&mut self.rng, link, condition)
    }

    fn frame(&mut self, judge: &Judge, tree: &Tree, frame: &[u8]) {
        if frame.len() >= judge.enough() {
            self.whole(judge, tree, frame);
            return;
        }
        let mut filled = frame.to_vec();
        filled.resize(judge.enough(), 0);
        let holds = self.whole(judge, tree, &filled);
        self.short(judge, tree, frame, holds);
    }

    /// All have to say the same. Answers what the direct reading says.
    fn whole(&mut self, judge: &Judge, tree: &Tree, frame: &[u8]) -> bool {
        let answers = judge.answers(frame);
        self.met.frames += 1;
        self.met.accepted += answers.direct as u64;
        if answers.differ() {
            self.show_difference(judge, tree, frame);
        } else if answers.fault() {
            self.note_fault(judge, tree, frame, answers.optimized);
        }
        answers.direct
    }

    fn short(&mut self, judge: &Judge, tree: &Tree, frame: &[u8], filled: bool) {
        let answers = judge.answers(frame);
        if !self.met.short.note(answers.run, answers.plain, filled) {
            self.show_difference(judge, tree, frame);
        }
    }

    // ── What is shown ────────────────────────────────────────────────────────

    fn show_difference(&mut self, judge: &Judge, tree: &Tree, frame: &[u8]) {
        if self.met.differences >= SHOWN {
            self.met.differences += 1;
            return;
        }
        let mut case = case(judge, tree, frame);
        if !self.spoils && frame.len() >= judge.enough() {
            case = shrink(case, &|c| shows(&self.compiler, c, &Answers::differ));
        }
        let row = self.row(&case);
        self.differs(&format!("differs: {row}"));
    }

    /// Counts a fault of libpcap's optimizer, and keeps one of each shape.
    fn note_fault(&mut self, judge: &Judge, tree: &Tree, frame: &[u8], let_through: bool) {
        let sort = let_through as usize;
        self.met.fault_frames[sort] += 1;
        if self.met.fault_frames[sort] > SHRUNK_FAULTS || self.spoils {
            return;
        }
        let fault = |a: &Answers| a.fault() && a.optimized == let_through;
        let case = case(judge, tree, frame);
        let case = shrink(case, &|c| shows(&self.compiler, c, &fault));
        let kinds = case.tree.records().iter().map(|r| r[0]).collect();
        let row = self.row(&case);
        self.met.faults[sort].entry(kinds).or_insert(row);
    }

    /// A row of a table: tree, frame, here, words, libpcap without and with its optimizer.
    fn row(&self, case: &Case) -> String {
        let Case { link, tree, frame } = case;
        let said = |accepted| if accepted { "accepted" } else { "dropped" };
        let tail = match Judge::new(&self.compiler, *link, tree, tree) {
            Ok(judge) => {
                let Answers {
                    run,
                    plain,
                    optimized,
                    ..
                } = judge.answers(frame);
                let (plain, optimized) = (said(plain), said(optimized));
                format!("{run} | `{}` | {plain} | {optimized}", tree.words(*link))
            }
            Err(_) => "not built".into(),
        };
        format!(
            "| `{}` | `{}` | {tail} |",
            tree_text(*link, tree),
            frame_text(frame)
        )
    }
}

fn case(judge: &Judge, tree: &Tree, frame: &[u8]) -> Case {
    Case {
        link: judge.link,
        tree: tree.clone(),
        frame: frame.to_vec(),
    }
}

fn shows(compiler: &Compiler, case: &Case, what: &dyn Fn(&Answers) -> bool) -> bool {
    match Judge::new(compiler, case.link, &case.tree, &case.tree) {
        Ok(judge) => what(&judge.answers(&case.frame)),
        Err(_) => false,
    }
}
