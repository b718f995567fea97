//! Holds the programs of random trees to libpcap's machine and to Linux.

use std::collections::{BTreeSet, HashSet};
use std::hash::{DefaultHasher, Hash, Hasher};
use std::io::ErrorKind;

use dabberpearl::{Instruction, Program, Verdict};

use crate::frames::Maker;
use crate::libpcap::{self, Insn};
use crate::linux::Linux;
use crate::or_fail;
use crate::tree::hex;
use crate::trees::{self, Rng};

/// Frames for each program.
const FRAMES: usize = 24;
/// How many differences are shown.
const SHOWN: u64 = 10;
/// What a built program returns to accept.
const ALL: u32 = 0xffff_ffff;

// ── What was met ─────────────────────────────────────────────────────────────

#[derive(Default)]
pub struct Met {
    programs: u64,
    pub frames: u64,
    pub differences: u64,
    /// Programs with a difference.
    pub told_apart: u64,
    /// Programs for which Linux had no memory.
    pub no_memory: u64,
    /// By link.
    links: [u64; 4],
    /// Accepted, dropped, short.
    verdicts: [u64; 3],
    /// Hashes of the programs.
    different: HashSet<u64>,
    /// Link, kind, direction and protocol.
    conditions: HashSet<[u8; 4]>,
    codes: BTreeSet<u16>,
    records: usize,
    instructions: usize,
    shortest: usize,
    longest: usize,
}

impl Met {
    fn note(&mut self, tree: &[u8], program: &[Instruction]) {
        let records = tree[8..].chunks_exact(24);
        let mut hasher = DefaultHasher::new();
        program.hash(&mut hasher);
        self.different.insert(hasher.finish());
        self.programs += 1;
        self.links[tree[5] as usize] += 1;
        self.records = self.records.max(records.len());
        self.instructions = self.instructions.max(program.len());
        self.codes.extend(program.iter().map(|i| i.code));
        for r in records.filter(|r| r[0] >= 10) {
            self.conditions.insert([tree[5], r[0], r[1], r[2]]);
        }
    }

    fn differs(&mut self, tree: &[u8], frame: &[u8], what: &str) {
        self.differences += 1;
        if self.differences <= SHOWN {
            println!("{what}, tree {}, frame {}", hex(tree), hex(frame));
        }
    }

    pub fn print(&self) {
        let [_, ethernet, raw, sll] = self.links;
        let [accepted, dropped, short] = self.verdicts;
        let codes: Vec<String> = self.codes.iter().map(|c| format!("{c:02x}")).collect();
        let different = self.different.len();
        println!("programs: {ethernet} of Ethernet, {raw} of RawIp, {sll} of LinuxSll; {different} different ones");
        println!(
            "  trees of up to {} records, programs of up to {} instructions, {} different conditions",
            self.records,
            self.instructions,
            self.conditions.len()
        );
        println!("  codes: {}", codes.join(" "));
        println!(
            "  {} frames of {} to {} bytes: {accepted} accepted, {dropped} dropped, {short} short",
            self.frames, self.shortest, self.longest
        );
        if self.no_memory > 0 {
            println!(
                "  {} programs not compared: Linux has no memory for them (net.core.optmem_max is {}; raise it)",
                self.no_memory,
                crate::read_line("/proc/sys/net/core/optmem_max")
            );
        }
    }
}

// ── The comparison ───────────────────────────────────────────────────────────

/// Whether both peers take a program. Without memory for it Linux cannot say.
fn taken(tree: &[u8], program: &[Insn], linux: &Linux, met: &mut Met) -> bool {
    if !libpcap::validates(program) {
        met.differs(tree, &[], "bpf_validate turns it down");
        return false;
    }
    match linux.attach(program) {
        Ok(()) => (),
        Err(error) if error.kind() == ErrorKind::OutOfMemory => {
            met.no_memory += 1;
            return false;
        }
        Err(error) => {
            met.differs(tree, &[], &format!("Linux turns it down, {error}"));
            return false;
        }
    }
    if or_fail("SO_GET_FILTER", linux.attached()) != program {
        met.differs(tree, &[], "Linux has another program");
    }
    true
}

/// What libpcap and Linux have to say where pft_run gives a verdict.
fn compare(
    tree: &[u8],
    ours: &Program,
    theirs: &[Insn],
    frame: &[u8],
    linux: &mut Linux,
    met: &mut Met,
) {
    let outcome = match ours.run(frame) {
        Ok(outcome) => outcome,
        Err(refusal) => return met.differs(tree, frame, &refusal.to_string()),
    };
    met.frames += 1;
    match outcome.verdict {
        Verdict::Accepted => met.verdicts[0] += 1,
        Verdict::Dropped => met.verdicts[1] += 1,
        Verdict::Short => met.verdicts[2] += 1,
        _ => return met.differs(tree, frame, "broken"),
    }
    met.longest = met.longest.max(frame.len());
    met.shortest = met.shortest.min(frame.len());
    let accepted = outcome.verdict == Verdict::Accepted;
    let pcap = libpcap::filter(theirs, frame);
    let kept = or_fail("a datagram", linux.receive(frame));
    let wanted = accepted.then_some(frame);
    if pcap != if accepted { ALL } else { 0 } || kept != wanted {
        let kept = kept.map(<[u8]>::len);
        met.differs(
            tree,
            frame,
            &format!("{outcome:?}, bpf_filter {pcap}, Linux {kept:?}"),
        );
    }
}

/// One test changed: jt and jf exchanged, or another k. Without a test the accept drops.
fn spoil(rng: &mut Rng, program: &mut [Insn]) {
    let tests: Vec<usize> = (0..program.len())
        .filter(|&i| program[i].jt != program[i].jf)
        .collect();
    if tests.is_empty() {
        program[program.len() - 2].k = 0;
        return;
    }
    let i = &mut program[rng.pick(&tests)];
    match rng.below(2) {
        0 => (i.jt, i.jf) = (i.jf, i.jt),
        _ => i.k ^= 1,
    }
}

pub struct Programs {
    linux: Linux,
    rng: Rng,
    spoils: bool,
    pub met: Met,
}

impl Programs {
    pub fn new(seed: u64, spoils: bool) -> Programs {
        let met = Met {
            shortest: usize::MAX,
            ..Met::default()
        };
        Programs {
            linux: or_fail("a pair of sockets", Linux::new()),
            rng: Rng(!seed),
            spoils,
            met,
        }
    }

    /// 0 to 127 nots over Ip on each link, then so many random accepted trees.
    pub fn compare(&mut self, seed: u64, count: u64) {
        for (link, n) in (1..=3).flat_map(|link| (0..128).map(move |n| (link, n))) {
            self.program(&trees::nots(link, n));
        }
        let (mut rng, nots) = (Rng(seed), self.met.programs);
        while self.met.programs < nots + count {
            self.program(&trees::tree_file(&mut rng));
        }
    }

    fn program(&mut self, tree: &[u8]) {
        let Ok(ours) = Program::from_tree(tree) else {
            return;
        };
        let instructions: Vec<Instruction> = ours.instructions().collect();
        let mut theirs: Vec<Insn> = instructions.iter().map(|&i| i.into()).collect();
        if self.spoils {
            spoil(&mut self.rng, &mut theirs);
        }
        self.met.note(tree, &instructions);
        if !taken(tree, &theirs, &self.linux, &mut self.met) {
            return;
        }
        let (maker, before) = (Maker::new(tree, &instructions), self.met.differences);
        for _ in 0..FRAMES {
            let frame = maker.frame(&mut self.rng);
            compare(tree, &ours, &theirs, &frame, &mut self.linux, &mut self.met);
        }
        self.met.told_apart += (self.met.differences > before) as u64;
        or_fail("SO_DETACH_FILTER", self.linux.detach());
    }
}
