//! Tree files through `pft_build` and through the published Rust, cooked ones through
//! the second generator: the answer and every byte of the buffer.

use std::collections::{BTreeMap, HashMap};

use crate::bpf::Insn;
use crate::lent::{lent, other_byte, CANARY, MARGIN, STALE};
use crate::part::{to_hex, Answers};
use crate::parts::Parts;
use crate::trees::{self, edges, systematic, Rng};
use crate::wide::widened;
use crate::{exports, insn, loads, second, shrink, Number};
use crate::{HEADER, INSN, LINK, MAX_PROGRAM, MAX_RECORDS, RECORD};

/// What a generator makes of a file: the program's bytes, or the refusal.
pub type Answer = Result<Vec<u8>, Number>;

pub fn bytes_of(built: &Result<Vec<Insn>, Number>) -> Answer {
    let insns = built.as_ref().map_err(|n| *n)?.iter();
    Ok(insns.flat_map(|i| i.to_le_bytes()).collect())
}

/// The answer that the port's has to be: the Rust's, or the second generator's of a cooked
/// tree.
pub fn answer_of(file: &[u8]) -> Answer {
    bytes_of(&crate::build(file))
}

fn is_cooked(file: &[u8]) -> bool {
    let cooked = |(link, records): (_, Vec<_>)| crate::is_cooked(link, &records);
    file.get(LINK) == Some(&trees::SLL) && crate::check(file).is_ok_and(cooked)
}

/// Whose answer the port's has to be.
pub fn judge(file: &[u8]) -> &'static str {
    match is_cooked(file) {
        true => "the second generator",
        false => "the Rust",
    }
}

/// Counts a build that is compared.
fn note(file: &[u8], answer: &Answer, parts: &mut Parts) {
    parts.builds.compared += 1;
    if is_cooked(file) {
        parts.cooked[answer.as_ref().err().copied().unwrap_or(0) as usize] += 1;
    }
}

// ── The second generator ─────────────────────────────────────────────────────

/// What the second generator makes of a tree that the Rust judges.
fn second_answer(file: &[u8]) -> Option<Answer> {
    let (link, records) = crate::check(file).ok()?;
    let rusts = !crate::is_cooked(link, &records);
    rusts.then(|| bytes_of(&second::program(file[LINK], &records)))
}

/// How the second generator differs from the Rust.
fn second_difference(file: &[u8]) -> Option<String> {
    let (here, there) = (second_answer(file)?, answer_of(file));
    let said = |answer: &Answer| match answer {
        Ok(program) => format!("count {}", program.len() / INSN),
        Err(n) => format!("refused {n}"),
    };
    let text = || {
        let (here, there, tree) = (said(&here), said(&there), to_hex(file));
        format!("it answers {here}, the Rust {there}, tree {tree}")
    };
    (here != there).then(text)
}

/// Holds the second generator to the Rust's answer, wherever that is at hand.
pub fn hold_second(file: &[u8], answer: &Answer, parts: &mut Parts) {
    let Some(second) = second_answer(file) else {
        return;
    };
    parts.second.compared += 1;
    if second != *answer {
        let text = || {
            let least = shrink::tree(file, |f| second_difference(f).is_some());
            second_difference(&least).unwrap_or_default()
        };
        parts.second.differs(file.len(), text);
    }
}

// ── One call ─────────────────────────────────────────────────────────────────

/// The answer that a lent buffer of a length must give, and its bytes after.
pub fn wanted(answer: &Answer, length: usize) -> (u32, Vec<u8>) {
    let (number, program): (u32, &[u8]) = match answer {
        Err(n) => (n << 16, &[]),
        Ok(p) if p.len() > length => (9 << 16, &[]),
        Ok(p) => ((p.len() / INSN) as u32, p),
    };
    let mut space = vec![CANARY; MARGIN];
    space.extend(program);
    space.resize(MARGIN + length, 0);
    space.resize(length + 2 * MARGIN, CANARY);
    (number, space)
}

fn got(file: &[u8], length: usize) -> (u32, Vec<u8>) {
    lent(length, |program| exports::build(file, program))
}

/// Exact, longer, one byte short and empty; at times as long as a program may be.
pub fn lengths(rng: &mut Rng, answer: &Answer) -> Vec<usize> {
    let exact = match answer {
        Ok(program) => program.len(),
        Err(_) => rng.between(1, 600),
    };
    let mut all = vec![exact, exact + rng.between(1, 64), exact - 1, 0];
    if rng.below(16) == 0 {
        all.push(rng.pick(&[MAX_PROGRAM, MAX_PROGRAM + 8, 40_000]));
        all.push(rng.below(exact));
    }
    all
}

/// Whether an exact buffer differs; a refused file is lent some bytes.
pub fn quick_difference(file: &[u8], answer: &Answer) -> bool {
    const REFUSED: usize = 24;
    let (number, wanted) = match answer {
        Ok(program) => ((program.len() / INSN) as u32, &program[..]),
        Err(n) => (n << 16, &[0; REFUSED][..]),
    };
    let mut lent = vec![STALE; wanted.len()];
    exports::build(file, &mut lent) != number || lent != wanted
}

// ── What was met ─────────────────────────────────────────────────────────────

pub struct Met {
    calls: u64,
    /// Calls that answered 9.
    short: u64,
    answers: Answers,
    /// Files that are one tree, and those accepted, by link, kind, direction and
    /// protocol of a condition.
    conditions: HashMap<[u8; 4], [u64; 2]>,
    /// Accepted trees of 127 or 128 records.
    large: u64,
    instructions: usize,
    /// Accepted trees by their longest jump, and by the longest of jt, jf and ja.
    longest: Vec<u64>,
    by_field: [Vec<u64>; 3],
    /// Files made to pass the limit: by how many instructions they do.
    passed: [u64; 2],
    /// Files with these faults, by the refusal.
    faults: BTreeMap<Vec<u32>, Answers>,
}

/// The longest way that a program's jt, jf and ja go.
fn distances(program: &[u8]) -> [u32; 3] {
    let mut most = [0; 3];
    for b in program.chunks_exact(INSN) {
        let ja = if b[0] == 0x05 { insn(b).k } else { 0 };
        for (most, way) in most.iter_mut().zip([b[2] as u32, b[3] as u32, ja]) {
            *most = way.max(*most);
        }
    }
    most
}

impl Met {
    fn new() -> Met {
        let none = || vec![0; 256];
        Met {
            calls: 0,
            short: 0,
            answers: Answers::default(),
            conditions: HashMap::new(),
            large: 0,
            instructions: 0,
            longest: none(),
            by_field: [none(), none(), none()],
            passed: [0; 2],
            faults: BTreeMap::new(),
        }
    }

    fn note(&mut self, file: &[u8], answer: &Answer) {
        if !matches!(answer, Err(1..=4)) {
            self.note_conditions(file, answer.is_ok());
        }
        match answer {
            Err(n) => self.answers[*n as usize] += 1,
            Ok(program) => self.note_accepted(file, program),
        }
    }

    fn note_conditions(&mut self, file: &[u8], accepted: bool) {
        for r in file[HEADER..].chunks_exact(RECORD).filter(|r| r[0] >= 10) {
            let counts = self
                .conditions
                .entry([file[5], r[0], r[1], r[2]])
                .or_default();
            counts[0] += 1;
            counts[1] += accepted as u64;
        }
    }

    fn note_accepted(&mut self, file: &[u8], program: &[u8]) {
        self.answers[0] += 1;
        self.large += (file.len() / RECORD >= MAX_RECORDS - 1) as u64;
        self.instructions = self.instructions.max(program.len() / INSN);
        let ways = distances(program).map(|way| way.min(255) as usize);
        self.longest[*ways.iter().max().expect("three")] += 1;
        for (field, way) in self.by_field.iter_mut().zip(ways) {
            field[way] += 1;
        }
    }

    fn print(&self) {
        println!("accepted: {}", self.answers[0]);
        for n in (1..=8).chain([15]) {
            println!("refused {n}: {}", self.answers[n]);
        }
        println!(
            "refused 9: {} of {} calls of pft_build",
            self.short, self.calls
        );
        println!(
            "accepted trees of 127 or 128 records: {}, instructions up to {}",
            self.large, self.instructions
        );
        self.print_conditions();
        self.print_jumps();
        self.print_faults();
    }

    /// There are 429 conditions in all, and 189 that can be accepted.
    fn print_conditions(&self) {
        let counts = || {
            self.conditions
                .values()
                .map(|[_, accepted]| *accepted)
                .filter(|n| *n > 0)
        };
        println!(
            "conditions by link, kind, direction, protocol: {} in one tree, {} in accepted trees, the rarest {} times",
            self.conditions.len(),
            counts().count(),
            counts().min().unwrap_or(0)
        );
    }

    fn print_jumps(&self) {
        let some = |of: &[u64]| {
            let each: Vec<String> = (252..256)
                .map(|way| format!("{way}: {}", of[way]))
                .collect();
            each.join(", ")
        };
        println!("longest jump: {}", some(&self.longest));
        for (name, field) in ["jt", "jf", "ja"].iter().zip(&self.by_field) {
            println!("longest {name}: {}", some(field));
        }
        println!(
            "refused 8 at 256: {}, at 257: {}",
            self.passed[0], self.passed[1]
        );
    }

    fn print_faults(&self) {
        let files: u64 = self.faults.values().flatten().sum();
        println!(
            "files with two or three faults: {files}, {} sets of faults",
            self.faults.len()
        );
        for (faults, answers) in self.faults.iter().filter(|(faults, _)| faults[0] >= 5) {
            let each: Vec<String> = faults
                .iter()
                .map(|n| format!("{n}: {}", answers[*n as usize]))
                .collect();
            println!("faults {faults:?}, met first {}", each.join(", "));
        }
    }
}

// ── The comparison ───────────────────────────────────────────────────────────

/// Compares every buffer of one file, counting one difference at most; then the question and
/// loads.
fn compare(file: &[u8], answer: &Answer, sizes: &mut Rng, met: &mut Met, parts: &mut Parts) {
    met.note(file, answer);
    note(file, answer, parts);
    let lengths = lengths(sizes, answer);
    let differs = lengths.iter().find_map(|length| {
        met.calls += 1;
        met.short += answer.as_ref().is_ok_and(|p| p.len() > *length) as u64;
        difference(file, answer, *length)
    });
    match differs {
        Some(words) => {
            let text = || any_difference(file).map_or(words, |_| least_difference(file));
            parts.builds.differs(file.len(), text);
        }
        None => loads::compare(file, answer, parts),
    }
    hold_second(file, answer, parts);
}

/// Whether an exact buffer of one file differs, which is then noted.
pub fn compare_exact(file: &[u8], answer: &Answer, parts: &mut Parts) -> bool {
    note(file, answer, parts);
    let differs = quick_difference(file, answer);
    if differs {
        parts.builds.differs(file.len(), || least_difference(file));
    }
    hold_second(file, answer, parts);
    differs
}

/// The same with a question and loads, where the builds agree.
pub fn compare_once(file: &[u8], answer: &Answer, parts: &mut Parts) -> bool {
    let differs = compare_exact(file, answer, parts);
    if !differs {
        loads::compare_few(file, answer, parts);
    }
    differs
}

/// The smallest input that differs for one of a few lengths.
fn least_difference(file: &[u8]) -> String {
    let least = shrink::tree(file, |f| any_difference(f).is_some());
    any_difference(&least).unwrap_or_default()
}

/// How a buffer of a length differs.
pub fn difference(file: &[u8], answer: &Answer, length: usize) -> Option<String> {
    let (here, there) = (got(file, length), wanted(answer, length));
    if here == there {
        return None;
    }
    let place = other_byte(&here.1, &there.1);
    let (here, there, tree) = (shown(here.0), shown(there.0), to_hex(file));
    let place = if here == there { place } else { String::new() };
    let judge = judge(file);
    Some(format!(
        "buffer of {length}: pft_build {here}, {judge} {there}{place}, tree {tree}"
    ))
}

/// The same for the exact length, more, less and none.
fn any_difference(file: &[u8]) -> Option<String> {
    let answer = answer_of(file);
    let exact = answer.as_ref().map_or(600, Vec::len);
    let mut lengths = [exact, exact + 9, exact - 1, 0].into_iter();
    lengths.find_map(|length| difference(file, &answer, length))
}

fn compare_file(file: &[u8], sizes: &mut Rng, met: &mut Met, parts: &mut Parts) {
    compare(file, &answer_of(file), sizes, met, parts);
}

pub fn shown(number: u32) -> String {
    match number >> 16 {
        0 => format!("count {number}"),
        n => format!("refused {n}"),
    }
}

/// Files around the limit of 255, and how far beyond it they are.
fn compare_tuned(rng: &mut Rng, sizes: &mut Rng, met: &mut Met, parts: &mut Parts) -> u64 {
    let files = edges::tuned(rng, |file| crate::build(file).err());
    let mut at_limit = false;
    let mut beyond = 0;
    for file in &files {
        let answer = answer_of(file);
        compare(file, &answer, sizes, met, parts);
        match answer {
            Ok(program) => at_limit = distances(&program).contains(&255),
            Err(_) if at_limit => {
                met.passed[beyond] += 1;
                beyond += 1;
            }
            Err(_) => (),
        }
    }
    files.len() as u64
}

/// A file with several faults; the refusal has to be one that they allow.
fn compare_faulty(rng: &mut Rng, sizes: &mut Rng, met: &mut Met, parts: &mut Parts) {
    let faulty = edges::faulty(rng);
    let answer = answer_of(&faulty.file);
    compare(&faulty.file, &answer, sizes, met, parts);
    let refusal = answer.err();
    if !faulty.fits(refusal) {
        parts.builds.differs(faulty.file.len(), || {
            format!(
                "faults {:?}, {} {refusal:?}, tree {}",
                faulty.faults,
                judge(&faulty.file),
                to_hex(&faulty.file)
            )
        });
    }
    let answers = met.faults.entry(faulty.faults).or_default();
    answers[refusal.unwrap_or(0) as usize] += 1;
}

/// Files without a draw.
fn systematic_files() -> impl Iterator<Item = Vec<u8>> {
    let nots = (1..=3).flat_map(|link| (0..MAX_RECORDS).map(move |n| trees::nots(link, n)));
    let headers = systematic::headers()
        .chain(systematic::lengths())
        .chain(systematic::counts());
    let records = systematic::record_bytes().chain(systematic::pairs());
    nots.chain(headers).chain(records)
}

/// So many random files, then the systematic ones.
pub fn compare_all(seed: u64, count: u64, parts: &mut Parts) {
    let (mut rng, mut edge, mut sizes) = (Rng(seed), Rng(seed ^ 0xED6E), Rng(!seed));
    let mut wide = Rng(seed ^ 0x31DE);
    let mut met = Met::new();
    for _ in 0..count / 2 {
        let file = widened(&mut wide, trees::tree_file(&mut rng));
        compare_file(&file, &mut sizes, &mut met, parts);
    }
    for _ in 0..count / 4 {
        compare_faulty(&mut edge, &mut sizes, &mut met, parts);
    }
    for _ in 0..count / 8 {
        compare_file(&edges::junk(&mut edge), &mut sizes, &mut met, parts);
    }
    let mut made = 0;
    while made < count / 8 {
        made += 1 + compare_tuned(&mut edge, &mut sizes, &mut met, parts);
    }
    for file in systematic_files() {
        compare_file(&file, &mut sizes, &mut met, parts);
    }
    met.print();
}

/// The second generator alone, on files as above: what is wrong in it, and not only with
/// cooked trees, is found without the port.
pub fn hold_all(seed: u64, count: u64, parts: &mut Parts) {
    let (mut rng, mut edge, mut wide) = (Rng(seed), Rng(seed ^ 0xED6E), Rng(seed ^ 0x31DE));
    let drawn = (0..count).flat_map(|i| match i % 8 {
        0 => edges::tuned(&mut edge, |file| crate::build(file).err()),
        1 => vec![edges::junk(&mut edge)],
        2 | 3 => vec![edges::faulty(&mut edge).file],
        _ => vec![widened(&mut wide, trees::tree_file(&mut rng))],
    });
    for file in drawn.chain(systematic_files()) {
        hold_second(&file, &answer_of(&file), parts);
    }
}
