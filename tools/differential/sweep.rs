//! Every value of a field in turn: all ports, ethertypes, protocol numbers and
//! prefixes, addresses and masks by their halves, every byte of a record. Each is
//! built, run and read directly on frames that hold it or just miss it.
//!
//! Directions and links that are not taken in full change with the value and the
//! seed.

use crate::frames::{self, network, Sketch, ETHER_LENGTH, REACH};
use crate::parts::Parts;
use crate::readings::refused_reading;
use crate::trees::edges::file_of;
use crate::trees::systematic::{conditions, with, KINDS_AND_OTHERS, LINKS};
use crate::trees::{put, record, Record, Rng, ADDRS6, AND, ETHERNET, NOT, OR, PORT_PROTOCOLS};
use crate::trees::{RAWIP, SLL, SOURCE};
use crate::trial::Trial;
use crate::RECORD;

/// Links with an ethertype.
const WITH_KIND: [u8; 2] = [ETHERNET, SLL];

struct Sweep<'p> {
    parts: &'p mut Parts,
    rng: Rng,
    /// Grows with every tree; it chooses what a value is not tried with in full.
    turn: usize,
    trees: u64,
    frames: u64,
}

// ── Frames ───────────────────────────────────────────────────────────────────

/// A frame of n + 64 bytes that are not the same everywhere.
fn ground(link: u8, turn: usize) -> Sketch {
    let size = network(link) + REACH;
    let frame = (0..size).map(|i| (11 * i + 7 * turn) as u8).collect();
    Sketch::new(link, frame)
}

/// The sides that make a direction true: one of them where either does.
fn sides(direction: u8, turn: usize) -> u8 {
    match direction {
        0 => 1 + (turn % 2) as u8,
        other => other,
    }
}

fn flipped(bytes: &[u8], bit: usize) -> Vec<u8> {
    let mut other = bytes.to_vec();
    other[bit / 8 % bytes.len()] ^= 0x80 >> (bit % 8);
    other
}

fn inverted(bytes: &[u8]) -> Vec<u8> {
    bytes.iter().map(|b| !b).collect()
}

/// A number of the set of a port's protocol.
fn member(r: &Record, turn: usize) -> u8 {
    match r[2] {
        0 => [6, 17][turn % 2],
        5 => 6,
        6 => 17,
        10 => 132,
        _ => r[3],
    }
}

/// The port on the sides that the record looks at, another on the other side; IPv4
/// and IPv6 by turns.
fn port_frame(link: u8, r: &Record, port: u16, turn: usize) -> Vec<u8> {
    let mut sketch = ground(link, turn);
    let number = member(r, turn);
    let at = if link != RAWIP && turn / 2 % 2 == 1 {
        sketch.transport6(number)
    } else {
        sketch.transport4(number, 5, [0x40, 0])
    };
    sketch.sides(3, at, at + 2, &(!port).to_be_bytes());
    sketch.sides(sides(r[1], turn), at, at + 2, &port.to_be_bytes());
    sketch.frame
}

/// The bytes on the sides that the record looks at, others on the other side.
fn address_frame(link: u8, r: &Record, bytes: &[u8], turn: usize) -> Vec<u8> {
    let mut sketch = ground(link, turn);
    let n = sketch.n;
    let (source, destination) = match r[0] {
        11 | 13 => (n + 12, n + 16),
        12 | 14 => (n + 8, n + 24),
        _ => (6, 0),
    };
    sketch.kind(if r[0] % 2 == 1 { 0x0800 } else { 0x86DD });
    sketch.sides(3, source, destination, &inverted(bytes));
    sketch.sides(sides(r[1], turn), source, destination, bytes);
    // by turns a cooked frame has the whole of what others have at the destination
    if r[0] == 17 && (r[1] == SOURCE || turn / 8 % 2 == 0) {
        sketch.sender_length(ETHER_LENGTH);
    }
    sketch.frame
}

/// A sender's address of a length, over TCP.
fn sender_frame(address: &[u8], length: u16, turn: usize) -> Vec<u8> {
    let mut sketch = ground(SLL, turn);
    sketch.transport4(6, 5, [0, 0]);
    sketch.sides(SOURCE, 6, 0, address);
    sketch.sender_length(length.to_be_bytes());
    sketch.frame
}

fn number_frame(link: u8, six: bool, number: u8, turn: usize) -> Vec<u8> {
    let mut sketch = ground(link, turn);
    if six {
        sketch.protocol6(number);
    } else {
        sketch.transport4(number, 5, [0, 0]);
    }
    sketch.frame
}

fn kind_frame(link: u8, kind: u16, turn: usize) -> Vec<u8> {
    let mut sketch = ground(link, turn);
    sketch.kind(kind);
    sketch.frame
}

// ── Fields ───────────────────────────────────────────────────────────────────

/// A host number, and networks: halves of IPv4 addresses as they are given out.
const LOW_HALVES: [u16; 20] = [
    0, 1, 2, 3, 4, 5, 6, 7, 8, 9, 10, 20, 50, 100, 200, 254, 255, 257, 0xFFFE, 0xFFFF,
];
const HIGH_HALVES: [u16; 8] = [0, 0x0A00, 0x0A14, 0x7F00, 0xA9FE, 0xAC10, 0xC0A8, 0xE000];
const HALF_MASKS: [u32; 6] = [
    0xFFFF_0000,
    0xFFF0_0000,
    0xFF00_0000,
    0xFFFF_FF00,
    0xFFFF_FFFF,
    0xFFFF_8001,
];

fn halves(high: u16, low: u16) -> [u8; 4] {
    ((high as u32) << 16 | low as u32).to_be_bytes()
}

impl Sweep<'_> {
    fn tree(&mut self, link: u8, records: &[Record], frames: &[Vec<u8>]) {
        self.turn += 1;
        self.trees += 1;
        let Some(trial) = Trial::new(&file_of(link, records), self.parts) else {
            return;
        };
        self.frames += frames.len() as u64;
        for frame in frames {
            trial.ask(frame, self.parts);
        }
    }

    fn ports(&mut self, link: u8, protocol: u8) {
        for port in 0..=u16::MAX {
            for direction in 0..4 {
                self.port(link, with(15, &[(1, direction), (2, protocol)]), port);
            }
        }
    }

    /// A port, the low side and the high side of a range.
    fn port(&mut self, link: u8, mut r: Record, port: u16) {
        let span = [0, 1, 100, u16::MAX][self.turn % 4];
        let (below, above) = (port.wrapping_sub(1), port.wrapping_add(1));
        put(&mut r, 4, &port.to_be_bytes());
        self.port_tree(link, r, &[port, below, above]);
        r[0] = 16;
        put(&mut r, 6, &port.saturating_add(span).to_be_bytes());
        self.port_tree(link, r, &[port, below]);
        put(&mut r, 4, &port.saturating_sub(span).to_be_bytes());
        put(&mut r, 6, &port.to_be_bytes());
        self.port_tree(link, r, &[port, above]);
    }

    fn port_tree(&mut self, link: u8, r: Record, ports: &[u16]) {
        let turn = self.turn;
        let frames = ports.iter().map(|port| port_frame(link, &r, *port, turn));
        self.tree(link, &[r], &frames.collect::<Vec<_>>());
    }

    /// Alone, negated, and joined with what tests or needs an ethertype too.
    fn ethertype(&mut self, link: u8, kind: u16) {
        let [high, low] = kind.to_be_bytes();
        let r = with(18, &[(4, high), (5, low)]);
        let (ip, port) = (with(10, &[(2, 1)]), with(15, &[(5, 53)]));
        let kinds = [kind, kind.wrapping_sub(1), kind.wrapping_add(1)];
        let frames = kinds.map(|k| kind_frame(link, k, self.turn));
        self.tree(link, &[r], &frames);
        self.tree(link, &[record(NOT), r], &frames);
        self.tree(link, &[record(AND), r, port], &frames);
        self.tree(link, &[record(OR), ip, r], &frames);
        self.tree(link, &[record(OR), r, record(AND), r, port], &frames);
    }

    /// A protocol number in each of its four forms, joined with every condition.
    fn number(&mut self, link: u8, number: u8, others: &[Record]) {
        for (kind, protocol) in [(10, 11), (10, 12), (23, 0), (24, 0)] {
            let r = with(kind, &[(2, protocol), (3, number)]);
            let six = kind == 24 || protocol == 12;
            let near = [number, number.wrapping_sub(1), number.wrapping_add(1)];
            let frames = near.map(|n| number_frame(link, six, n, self.turn));
            self.tree(link, &[r], &frames);
            for other in others {
                self.joined(link, [r, *other], &frames[0]);
                self.joined(link, [*other, r], &frames[0]);
            }
        }
    }

    /// Two conditions under and, and under or.
    fn joined(&mut self, link: u8, [left, right]: [Record; 2], frame: &[u8]) {
        for join in [AND, OR] {
            let records = [record(join), left, right];
            let aimed = frames::aimed(&mut self.rng, &file_of(link, &records));
            self.tree(link, &records, &[frame.to_vec(), aimed]);
        }
    }

    /// A port with a protocol number, which 6 refuses: its set is empty.
    fn numbered_port(&mut self, link: u8, number: u8) {
        for i in 0..16 {
            let bytes = [
                (1, i % 4),
                (2, 11 + i / 4 % 2),
                (3, number),
                (5, 53),
                (7, 53),
            ];
            let mut r = with(15 + i / 8, &bytes);
            if r[0] == 15 {
                r[7] = 0;
            }
            self.port_tree(link, r, &[53]);
        }
    }

    fn prefix(&mut self, link: u8, prefix: u8, address: u128) {
        for direction in 0..4 {
            let mut r = with(14, &[(1, direction), (3, prefix)]);
            put(&mut r, 8, &address.to_be_bytes());
            let bits = [prefix.saturating_sub(1), prefix.min(127), 127];
            self.address_tree(link, r, 8..24, bits.map(usize::from));
        }
    }

    /// The address itself, and with each of the bits changed.
    fn address_tree(&mut self, link: u8, r: Record, at: std::ops::Range<usize>, bits: [usize; 3]) {
        let turn = self.turn;
        let address = &r[at];
        let mut frames = vec![address_frame(link, &r, address, turn)];
        frames.extend(bits.map(|bit| address_frame(link, &r, &flipped(address, bit), turn)));
        self.tree(link, &[r], &frames);
    }

    fn host4(&mut self, address: [u8; 4]) {
        let mut r = with(11, &[(1, (self.turn % 4) as u8)]);
        put(&mut r, 8, &address);
        let link = LINKS[self.turn / 4 % 3];
        self.address_tree(link, r, 8..12, [31, 15, self.turn % 32]);
    }

    fn net4(&mut self, address: [u8; 4], mask: u32) {
        let mut r = with(13, &[(1, (self.turn % 4) as u8)]);
        put(&mut r, 8, &address);
        put(&mut r, 12, &mask.to_be_bytes());
        let link = LINKS[self.turn / 4 % 3];
        let edge = mask.count_ones() as usize;
        self.address_tree(
            link,
            r,
            8..12,
            [edge.saturating_sub(1), edge % 32, self.turn % 32],
        );
    }

    /// A half of an IPv6 or ether address, the rest as drawn.
    fn half(&mut self, kind: u8, at: usize, value: u16) {
        let size = if kind == 17 { 6 } else { 16 };
        let mut r = with(kind, &[(1, (self.turn % 4) as u8)]);
        if kind == 14 {
            r[3] = (8 * at + 1 + self.turn % 16) as u8;
        }
        for byte in &mut r[8..8 + size] {
            *byte = self.rng.draw() as u8;
        }
        put(&mut r, 8 + at, &value.to_be_bytes());
        let link = WITH_KIND[self.turn / 4 % 2];
        let bits = [8 * at, 8 * at + 15, self.turn % (8 * size)];
        self.address_tree(link, r, 8..8 + size, bits);
    }

    /// A half of a sender's address on LinuxSll, the rest as drawn: alone, and negated or
    /// joined with what tests more.
    fn sender(&mut self, at: usize, value: u16) {
        let r = self.drawn_sender(at, value);
        let bits = [8 * at, 8 * at + 15, self.turn % 48];
        self.address_tree(SLL, r, 8..14, bits);
        let records = &around_sender(r)[self.turn % 6];
        let (turn, address) = (self.turn, &r[8..14]);
        let frames = [address.to_vec(), flipped(address, bits[2])];
        let frames = frames.map(|a| address_frame(SLL, &r, &a, turn));
        self.tree(SLL, records, &frames);
    }

    fn drawn_sender(&mut self, at: usize, value: u16) -> Record {
        let mut r = with(17, &[(1, SOURCE)]);
        for byte in &mut r[8..14] {
            *byte = self.rng.draw() as u8;
        }
        put(&mut r, 8 + at, &value.to_be_bytes());
        r
    }

    /// Every length of a sender's address, which itself is the wanted one or just misses it.
    fn lengths(&mut self, records: &[Record], r: &Record) {
        self.turn += 1;
        self.trees += 1;
        let Some(trial) = Trial::new(&file_of(SLL, records), self.parts) else {
            return;
        };
        let address = &r[8..14];
        for length in 0..=u16::MAX {
            let other = flipped(address, length as usize);
            for bytes in [address, &other] {
                let frame = sender_frame(bytes, length, self.turn);
                trial.ask(&frame, self.parts);
                self.frames += 1;
            }
        }
    }

    /// A record with one of its bytes at one value: nearly all are refused with 3.
    fn byte(&mut self, base: Record, at: usize, value: u8) {
        let link = LINKS[self.turn % 3];
        let mut records = vec![base];
        records.extend(vec![record(20); crate::parts(&base)]);
        records[0][at] = value;
        let file = file_of(link, &records);
        self.tree(link, &records, &[]);
        if let Err(number) = crate::check(&file) {
            self.parts.readings.compared += 1;
            refused_reading(&file, &[], 256 + number, self.parts);
        }
    }
}

/// A sender test negated, and joined with what tests more.
fn around_sender(r: Record) -> [Vec<Record>; 6] {
    let (tcp, port) = (with(10, &[(2, 5)]), with(15, &[(5, 53)]));
    [
        vec![record(NOT), r],
        vec![record(AND), r, port],
        vec![record(AND), tcp, r],
        vec![record(OR), r, port],
        vec![record(OR), tcp, r],
        vec![record(OR), record(NOT), r, record(AND), tcp, r],
    ]
}

// ── All of them ──────────────────────────────────────────────────────────────

fn every_number(sweep: &mut Sweep) {
    let others = conditions();
    for link in LINKS {
        for number in 0..=u8::MAX {
            sweep.number(link, number, &others);
            sweep.numbered_port(link, number);
            ADDRS6.iter().for_each(|a| sweep.prefix(link, number, *a));
        }
    }
}

fn every_ethertype(sweep: &mut Sweep) {
    for link in LINKS {
        (0..=u16::MAX).for_each(|kind| sweep.ethertype(link, kind));
    }
}

fn every_half4(sweep: &mut Sweep) {
    for half in 0..=u16::MAX {
        LOW_HALVES
            .iter()
            .for_each(|low| sweep.host4(halves(half, *low)));
        HIGH_HALVES
            .iter()
            .for_each(|high| sweep.host4(halves(*high, half)));
        HALF_MASKS
            .iter()
            .for_each(|mask| sweep.net4(halves(half, 0), *mask));
        for mask in [half as u32, (half as u32) << 16] {
            sweep.net4(halves(half, !half), mask);
            sweep.net4(halves(half, !half), !mask);
        }
    }
}

fn every_half6(sweep: &mut Sweep) {
    for (kind, count) in [(12, 8), (14, 8), (17, 3)] {
        for at in (0..count).map(|i| 2 * i) {
            (0..=u16::MAX).for_each(|value| sweep.half(kind, at, value));
        }
    }
}

fn every_sender(sweep: &mut Sweep) {
    for at in (0..3).map(|i| 2 * i) {
        (0..=u16::MAX).for_each(|value| sweep.sender(at, value));
    }
    let r = sweep.drawn_sender(0, 0);
    sweep.lengths(&[r], &r);
    for records in around_sender(r) {
        sweep.lengths(&records, &r);
    }
}

fn every_byte(sweep: &mut Sweep) {
    for kind in KINDS_AND_OTHERS {
        for protocol in [0, 1, 5, 11, 12] {
            let base = with(kind, &[(2, protocol)]);
            for at in 0..RECORD * 256 {
                sweep.byte(base, at / 256, at as u8);
            }
        }
    }
}

fn every_port(sweep: &mut Sweep) {
    for link in LINKS {
        PORT_PROTOCOLS
            .iter()
            .for_each(|protocol| sweep.ports(link, *protocol));
    }
}

/// A field's name, what is taken of it, and how.
type Field = (&'static str, &'static str, fn(&mut Sweep));

const FIELDS: [Field; 7] = [
    (
        "numbers",
        "protocol numbers, prefixes, small numbers, 256 each",
        every_number,
    ),
    ("ethertypes", "ethertypes, 65,536", every_ethertype),
    (
        "addresses",
        "IPv4 addresses and masks by halves",
        every_half4,
    ),
    (
        "segments",
        "IPv6 and ether addresses by halves",
        every_half6,
    ),
    (
        "senders",
        "cooked senders by halves, and all 65,536 lengths of their address",
        every_sender,
    ),
    ("bytes", "every byte of a record, 256 each", every_byte),
    (
        "ports",
        "ports, low and high sides of ranges, 65,536 each",
        every_port,
    ),
];

/// One field, or all for the name `values`.
pub fn compare(name: &str, seed: u64, parts: &mut Parts) {
    let wanted = |field: &&Field| name == "values" || name == field.0;
    for (_, words, every) in FIELDS.iter().filter(wanted) {
        let mut sweep = Sweep {
            parts,
            rng: Rng(seed ^ 0x5EE9),
            turn: seed as usize % 65_536,
            trees: 0,
            frames: 0,
        };
        every(&mut sweep);
        println!("{words}: {} trees, {} frames", sweep.trees, sweep.frames);
    }
}

pub fn is_field(name: &str) -> bool {
    FIELDS.iter().any(|field| field.0 == name)
}
