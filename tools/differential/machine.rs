//! Programs over frames through `pft_run` and through vm.rs: verdict and steps.
//!
//! vm.rs answers an Option. Steps, and whether None is short or broken, come
//! from a copy of it that counts (trace.py); its answer has to be vm.rs's.

use std::collections::HashSet;

use crate::bpf::Insn;
use crate::part::to_hex;
use crate::parts::Parts;
use crate::trees::Rng;
use crate::{exports, fail, insn, shrink, traced, vm, INSN, MAX_FRAME, MAX_PROGRAM};

pub const ACCEPTED: u32 = 1;
pub const DROPPED: u32 = 2;
pub const SHORT: u32 = 3;
pub const BROKEN: u32 = 4;

/// What `pft_run` has to say of a run that is not refused.
pub fn rust_run(insns: &[Insn], frame: &[u8]) -> u32 {
    let answer = vm::verdict(insns, frame);
    let told = traced::told(insns, frame);
    if told.answer != answer {
        fail("vm.rs and its copy that counts differ");
    }
    let verdict = match answer {
        Some(true) => ACCEPTED,
        Some(false) => DROPPED,
        None if told.left => SHORT,
        None => BROKEN,
    };
    (verdict << 16) + told.steps
}

pub fn decoded(program: &[u8]) -> Vec<Insn> {
    program.chunks_exact(INSN).map(insn).collect()
}

/// The number of a run; 11, then 10 are document 01's.
fn wanted(program: &[u8], frame: &[u8]) -> u32 {
    match crate::run(program, frame) {
        Err(n) => (256 + n) << 16,
        Ok(_) => rust_run(&decoded(program), frame),
    }
}

pub fn shown(number: u32) -> String {
    let word = ["", "accepted", "dropped", "short", "broken"];
    match number >> 16 {
        v @ 1..=4 => format!("{} after {} steps", word[v as usize], number & 0xFFFF),
        n @ 256.. => format!("refused {}", n - 256),
        _ => format!("{number:#x}"),
    }
}

// ── What was met ─────────────────────────────────────────────────────────────

/// One stage's runs.
struct Met<'p> {
    parts: &'p mut Parts,
    /// Runs by verdict, and refused with 10 and 11.
    verdicts: [u64; 5],
    refused: [u64; 2],
    /// Codes of one byte, and longer ones, that were certainly fetched.
    codes: HashSet<u8>,
    high: HashSet<u16>,
    steps: u32,
}

impl Met<'_> {
    fn note(&mut self, number: u32) {
        self.parts.machine.compared += 1;
        match number >> 16 {
            n @ 1..=4 => self.verdicts[n as usize] += 1,
            266 => self.refused[0] += 1,
            _ => self.refused[1] += 1,
        }
        self.steps = self.steps.max(number & 0xFFFF);
    }

    fn note_code(&mut self, code: u16) {
        if code < 256 {
            self.codes.insert(code as u8);
        } else {
            self.high.insert(code);
        }
    }

    fn print(&self) {
        let [_, accepted, dropped, short, broken] = self.verdicts;
        println!("runs: {accepted} accepted, {dropped} dropped, {short} short, {broken} broken, up to {} steps", self.steps);
        println!(
            "refused 10: {}, refused 11: {}",
            self.refused[0], self.refused[1]
        );
        println!(
            "codes put to the test: {} of one byte, {} with a high byte",
            self.codes.len(),
            self.high.len()
        );
    }
}

/// One run. Program and frame are lent as copies, which have to stay as they are.
fn compare(program: &[u8], frame: &[u8], met: &mut Met) {
    let there = wanted(program, frame);
    let mut lent = (program.to_vec(), frame.to_vec());
    let here = exports::run(&lent.0, &lent.1);
    std::hint::black_box(&mut lent);
    met.note(there);
    let size = program.len() + frame.len();
    if here != there {
        met.parts
            .machine
            .differs(size, || least_difference(program, frame));
    } else if lent.0 != program || lent.1 != frame {
        met.parts.machine.differs(size, || {
            format!(
                "written to: program {} frame {}",
                to_hex(program),
                to_hex(frame)
            )
        });
    }
}

fn least_difference(program: &[u8], frame: &[u8]) -> String {
    let differs = |p: &[u8], f: &[u8]| exports::run(p, f) != wanted(p, f);
    let program = shrink::program(program, |p| differs(p, frame));
    let frame = shrink::frame(frame, |f| differs(&program, f));
    format!(
        "pft_run {}, the Rust {}, program {} frame {}",
        shown(exports::run(&program, &frame)),
        shown(wanted(&program, &frame)),
        to_hex(&program),
        to_hex(&frame)
    )
}

// ── Programs ─────────────────────────────────────────────────────────────────

type Program = Vec<u8>;

fn jump(code: u16, k: u32, jt: usize, jf: usize) -> Program {
    let insn = Insn {
        code,
        jt: jt as u8,
        jf: jf as u8,
        k,
    };
    insn.to_le_bytes().to_vec()
}

fn op(code: u16, k: u32) -> Program {
    jump(code, k, 0, 0)
}

/// Accepts exactly when A, X and a scratch word are as the copy that counts said.
fn observe(words: &traced::Words, place: u32) -> Program {
    let parts = [
        jump(0x15, words.a, 0, 5),
        op(0x87, 0),
        jump(0x15, words.x, 0, 3),
        op(0x60, place),
        jump(0x15, words.scratch[place as usize], 0, 1),
        op(0x06, 1),
        op(0x06, 0),
    ];
    parts.concat()
}

/// The program with a look at what it has made; at times for a value next to it.
fn observed(rng: &mut Rng, program: Program, frame: &[u8], place: u32) -> Program {
    let ended = [&program[..], &op(0x06, 1)].concat();
    let mut words = traced::told(&decoded(&ended), frame).words;
    match rng.below(12) {
        0 => words.a ^= 1 << rng.below(32),
        1 => words.x ^= 1 << rng.below(32),
        2 => words.scratch[place as usize] ^= 1 << rng.below(32),
        _ => (),
    }
    [program, observe(&words, place)].concat()
}

const BYTES: [u8; 12] = [0, 1, 2, 4, 5, 6, 8, 0x11, 0x45, 0x46, 0x50, 0xFF];
const VALUES: [u32; 24] = [
    0,
    1,
    2,
    3,
    4,
    5,
    6,
    8,
    12,
    16,
    20,
    31,
    32,
    33,
    0x45,
    0x50,
    0xFF,
    0x0101,
    0x0800,
    0xFFFF,
    0x7FFF_FFFF,
    0x8000_0000,
    0xFFFF_FFFE,
    0xFFFF_FFFF,
];

/// A quarter are of the whole range.
fn any_value(rng: &mut Rng) -> u32 {
    if rng.below(4) == 0 {
        rng.draw() as u32
    } else {
        rng.pick(&VALUES)
    }
}

// ── Every code ───────────────────────────────────────────────────────────────

/// A scratch word, X and A set, then the code; what follows looks at them.
fn staged(rng: &mut Rng, code: u16, met: &mut Met) {
    let size = rng.pick(&[0, 1, 2, 3, 4, 5, 8, 8, 8, 40]);
    let frame: Vec<u8> = (0..size).map(|_| rng.draw() as u8).collect();
    let near = size as u32;
    let values = [
        near.wrapping_sub(4),
        near.wrapping_sub(2),
        near.wrapping_sub(1),
        near,
    ];
    let mut value = || {
        if rng.below(4) == 0 {
            rng.pick(&values)
        } else {
            any_value(rng)
        }
    };
    let (a, x, k) = (value(), value(), value());
    let place = if k < 16 { k } else { 7 };
    let (jt, jf) = (rng.pick(&[0, 0, 1, 2, 255]), rng.pick(&[0, 0, 1, 2, 255]));
    let before = [
        op(0x00, rng.draw() as u32),
        op(0x02, place),
        op(0x01, x),
        op(0x00, a),
    ];
    let after = [jump(code, k, jt, jf), op(0x05, 0), op(0x05, 0)];
    let program = [before.concat(), after.concat()].concat();
    let program = observed(rng, program, &frame, place);
    met.note_code(code);
    compare(&program, &frame, met);
}

// ── Random programs ──────────────────────────────────────────────────────────

const SIZES: [(usize, u16, u16); 3] = [(4, 0x20, 0x40), (2, 0x28, 0x48), (1, 0x30, 0x50)];

/// One random run: the few values of its program, and its frame.
struct Draws<'r> {
    rng: &'r mut Rng,
    frame: Vec<u8>,
    values: Vec<u32>,
}

impl Draws<'_> {
    fn new(rng: &mut Rng) -> Draws<'_> {
        let some: Vec<u8> = (0..4).map(|_| rng.pick(&BYTES)).collect();
        let frame = (0..rng.between(0, 80)).map(|_| rng.pick(&some)).collect();
        let mut values: Vec<u32> = (0..3).map(|_| rng.pick(&VALUES)).collect();
        values.extend(some[..2].iter().map(|b| *b as u32));
        Draws { rng, frame, values }
    }

    fn one_in(&mut self, n: usize) -> bool {
        self.rng.below(n) == 0
    }

    fn value(&mut self) -> u32 {
        if self.one_in(4) {
            self.rng.draw() as u32
        } else {
            self.rng.pick(&self.values)
        }
    }

    /// Mostly a place where so many bytes are in the frame.
    fn place(&mut self, size: usize) -> u32 {
        let length = self.frame.len();
        if length < size || self.one_in(30) {
            let past = (length as u32 + 1).wrapping_sub(size as u32);
            let value = self.value();
            return self.rng.pick(&[past, past.wrapping_add(1), value]);
        }
        self.rng.between(0, length - size) as u32
    }

    fn load(&mut self) -> Program {
        let (size, fixed, _) = self.rng.pick(&SIZES);
        op(fixed, self.place(size))
    }

    /// X is set first, so that X + k is mostly inside; it may wrap.
    fn indexed(&mut self) -> Program {
        let (size, _, code) = self.rng.pick(&SIZES);
        let x: u32 = self.rng.pick(&[0, 1, 2, 4, u32::MAX, u32::MAX - 2]);
        [op(0x01, x), op(code, self.place(size).wrapping_sub(x))].concat()
    }

    fn indexed_by_header(&mut self) -> Program {
        let (_, _, code) = self.rng.pick(&SIZES);
        [
            op(0xB1, self.place(1)),
            op(code, self.rng.pick(&[0, 1, 2, 4])),
        ]
        .concat()
    }

    fn number(&mut self) -> Program {
        op(self.rng.pick(&[0x00, 0x01, 0x80, 0x81]), self.value())
    }

    fn memory(&mut self) -> Program {
        let k = if self.one_in(80) {
            16
        } else {
            self.rng.pick(&[0, 1, 2, 15])
        };
        op(self.rng.pick(&[0x02, 0x02, 0x03, 0x60, 0x60, 0x61]), k)
    }

    fn sum(&mut self) -> Program {
        let code = self
            .rng
            .pick(&[0x04, 0x14, 0x24, 0x34, 0x44, 0x54, 0x64, 0x74, 0x84, 0xA4]);
        let code = if self.one_in(3) { code | 0x08 } else { code };
        let k = self.value();
        op(code, if k == 0 { self.rng.below(3) as u32 } else { k })
    }

    /// Mostly to a place of the program, of which so many instructions are left.
    fn test(&mut self, left: usize) -> Program {
        let most = if self.one_in(40) {
            256
        } else {
            (left + 1).min(6)
        };
        let (jt, jf) = (self.rng.below(most), self.rng.below(most));
        if self.one_in(8) {
            return op(0x05, jt as u32);
        }
        let code = self.rng.pick(&[0x15, 0x25, 0x35, 0x45]);
        let code = if self.one_in(4) { code | 0x08 } else { code };
        jump(code, self.value(), jt, jf)
    }

    fn end(&mut self) -> Program {
        op(
            self.rng.pick(&[0x06, 0x16]),
            self.rng.pick(&[0, 1, u32::MAX]),
        )
    }

    fn any(&mut self) -> Program {
        let code = self.rng.draw() as u16;
        jump(code, self.value(), self.rng.below(3), self.rng.below(3))
    }

    fn part(&mut self, left: usize) -> Program {
        if self.one_in(40) {
            return if self.one_in(2) {
                self.end()
            } else {
                self.any()
            };
        }
        match self.rng.below(37) {
            0..=5 => self.load(),
            6..=8 => self.indexed(),
            9 => self.indexed_by_header(),
            10..=14 => self.number(),
            15..=19 => self.memory(),
            20..=26 => self.sum(),
            27..=34 => self.test(left),
            _ => op(self.rng.pick(&[0x07, 0x87]), 0),
        }
    }

    /// An instruction that ends no run, unless its jump leads past the program.
    fn calm_part(&mut self, left: usize) -> Program {
        match self.rng.below(6) {
            0 => op(self.rng.pick(&[0x00, 0x01, 0x80, 0x81]), self.value()),
            1 => op(
                self.rng.pick(&[0x02, 0x03, 0x60, 0x61]),
                self.rng.below(16) as u32,
            ),
            2 => op(
                self.rng
                    .pick(&[0x04, 0x1C, 0x2C, 0x44, 0x5C, 0x64, 0x7C, 0x84, 0xA4]),
                self.value(),
            ),
            3 => op(self.rng.pick(&[0x07, 0x87]), 0),
            4 if left > 300 && self.one_in(8) => op(0x05, self.rng.below(300) as u32),
            4 if left > 300 && self.one_in(8) => {
                jump(0x25, self.value(), self.rng.below(256), self.rng.below(256))
            }
            _ => jump(
                self.rng.pick(&[0x15, 0x2D, 0x35, 0x4D]),
                self.value(),
                self.rng.below(2),
                0,
            ),
        }
    }

    /// A long program that mostly runs to its end.
    fn calm(&mut self, count: usize) -> Program {
        (0..count)
            .flat_map(|i| self.calm_part(count - i - 1))
            .collect()
    }

    /// So many instructions, now and then one with a high byte.
    fn program(&mut self, count: usize) -> Program {
        let mut program = Vec::new();
        while program.len() < INSN * count {
            let left = count - program.len() / INSN;
            let mut part = self.part(left - 1);
            if self.one_in(30) {
                part[1] = self.rng.below(256) as u8;
            }
            program.extend(part);
        }
        program
    }
}

fn random(rng: &mut Rng, met: &mut Met) {
    let long = rng.below(1000) == 0;
    let count = if long {
        rng.between(200, 4089)
    } else {
        rng.between(1, 29)
    };
    let mut draws = Draws::new(rng);
    let program = if long {
        draws.calm(count)
    } else {
        draws.program(count)
    };
    let frame = draws.frame;
    let program = if rng.below(25) == 0 {
        program
    } else {
        let place = rng.below(16) as u32;
        observed(rng, program, &frame, place)
    };
    compare(&program, &frame, met);
}

// ── Limits ───────────────────────────────────────────────────────────────────

/// Programs and frames whose lengths are at the limits of 11 and 10.
fn limit(rng: &mut Rng, met: &mut Met) {
    const PROGRAMS: [usize; 11] = [
        0,
        1,
        7,
        8,
        9,
        16,
        MAX_PROGRAM - 8,
        MAX_PROGRAM - 1,
        MAX_PROGRAM,
        MAX_PROGRAM + 1,
        MAX_PROGRAM + 8,
    ];
    const FRAMES: [usize; 6] = [0, 1, MAX_FRAME - 1, MAX_FRAME, MAX_FRAME + 1, MAX_FRAME + 9];
    let size = rng.pick(&FRAMES);
    let near = (size + rng.below(5)).saturating_sub(4) as u32;
    let length = rng.pick(&PROGRAMS);
    let last = [
        op(0x06, 1),
        op(0x05, 4094),
        op(0x05, 4095),
        op(0x80, 0),
        op(0x20, near),
        op(0x30, near),
        op(0x28, near),
        op(0xB1, near),
    ];
    let mut program = [rng.pick(&last), op(0x14, size as u32), jump(0x15, 0, 1, 0)].concat();
    program.resize(length, 0);
    if let (Some(start), 0..=2) = (length.checked_sub(INSN), rng.below(4)) {
        program[start..].copy_from_slice(&op(0x06, 1));
    }
    let frame = vec![rng.draw() as u8; size];
    compare(&program, &frame, met);
}

/// Staged codes in turn, random programs, limits: so many runs; then every code of
/// 16 bits once.
pub fn compare_all(seed: u64, count: u64, parts: &mut Parts) {
    let mut rng = Rng(seed ^ 0x3AC1);
    let mut met = Met {
        parts,
        verdicts: [0; 5],
        refused: [0; 2],
        codes: HashSet::new(),
        high: HashSet::new(),
        steps: 0,
    };
    for i in 0..count {
        match i % 8 {
            0..=3 => {
                let high = if rng.below(4) == 0 {
                    rng.below(256) as u16
                } else {
                    0
                };
                let code = (i / 8 * 4 + i % 8) as u16 % 256;
                staged(&mut rng, 256 * high + code, &mut met);
            }
            _ if i % 512 == 7 => limit(&mut rng, &mut met),
            _ => random(&mut rng, &mut met),
        }
    }
    for code in 0..=u16::MAX {
        staged(&mut rng, code, &mut met);
    }
    met.print();
}
