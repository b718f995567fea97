//! Frames for a tree and its program. Places are those of document 01's direct reading.

use dabberpearl::Instruction;

use crate::trees::Rng;

const RECORD: usize = 24;
/// A frame before it is cut; no program reads so far.
const WHOLE: usize = 160;
/// Beyond these the frame is filled with zeros.
const LONG: [usize; 5] = [1_514, 4_096, 9_000, 32_768, 65_535];
const SLL: u8 = 3;
/// How long the sender's address is by a cooked header: mostly six bytes.
const LENGTHS: [u16; 8] = [6, 6, 6, 6, 6, 6, 8, 0];
const LENGTH_PLACE: usize = 4;

pub struct Maker<'a> {
    tree: &'a [u8],
    program: &'a [Instruction],
    /// Where the network header starts, and the ethertype if there is one.
    network: usize,
    ethertype: Option<usize>,
}

impl Maker<'_> {
    pub fn new<'a>(tree: &'a [u8], program: &'a [Instruction]) -> Maker<'a> {
        let (network, ethertype) = match tree[5] {
            1 => (14, Some(12)),
            2 => (0, None),
            _ => (16, Some(14)),
        };
        Maker {
            tree,
            program,
            network,
            ethertype,
        }
    }

    /// A frame that some conditions of the tree hold of, or that a way through the program leads
    /// to, or any; at times a bit is changed; then it is cut or made longer.
    pub fn frame(&self, rng: &mut Rng) -> Vec<u8> {
        let mut frame = start(rng);
        match rng.below(8) {
            0 => (),
            1 | 2 => {
                for _ in 0..rng.between(1, 4) {
                    self.satisfy(rng, &mut frame);
                }
            }
            _ => self.steer(rng, &mut frame),
        }
        for _ in 0..rng.pick(&[0, 0, 1, 2]) {
            frame[rng.below(self.network + 64)] ^= 1 << rng.below(8);
        }
        let length = self.length(rng);
        frame.resize(length, 0);
        frame
    }

    // ── A condition of the tree ──────────────────────────────────────────────

    /// Makes a condition of the tree hold, whatever held before.
    fn satisfy(&self, rng: &mut Rng, frame: &mut [u8]) {
        let records = self.tree[8..].chunks_exact(RECORD);
        let conditions: Vec<&[u8]> = records.filter(|r| r[0] >= 10).collect();
        let r = rng.pick(&conditions);
        let n = self.network;
        match r[0] {
            10 => self.protocol(frame, r[2], r[3]),
            11 | 13 => self.addresses(rng, frame, 0x0800, [n + 12, n + 16], &r[8..12], r[1]),
            12 | 14 => self.addresses(rng, frame, 0x86dd, [n + 8, n + 24], &r[8..24], r[1]),
            15 | 16 => self.ports(rng, frame, r),
            17 => self.ether_host(rng, frame, r),
            18 => self.kind(frame, u16::from_be_bytes([r[4], r[5]])),
            19 => frame[0] |= 1,
            20 => self.addresses(rng, frame, 0x0800, [n + 12, n + 16], &[0xff; 4], 2),
            21 => self.addresses(rng, frame, 0x0800, [n + 12, n + 16], &[0xe1], 2),
            22 => self.addresses(rng, frame, 0x86dd, [n + 8, n + 24], &[0xff], 2),
            23 => self.numbered(frame, 0x0800, r[3]),
            _ => self.numbered(frame, 0x86dd, r[3]),
        }
    }

    fn kind(&self, frame: &mut [u8], kind: u16) {
        if let Some(place) = self.ethertype {
            put(frame, place, &kind.to_be_bytes());
        }
    }

    /// The kind, and the protocol or next header.
    fn numbered(&self, frame: &mut [u8], kind: u16, number: u8) {
        self.kind(frame, kind);
        frame[self.network + if kind == 0x0800 { 9 } else { 6 }] = number;
    }

    fn protocol(&self, frame: &mut [u8], protocol: u8, number: u8) {
        match protocol {
            1 => self.kind(frame, 0x0800),
            2 => self.kind(frame, 0x86dd),
            3 => self.kind(frame, 0x0806),
            4 => self.kind(frame, 0x8035),
            5 => self.numbered(frame, 0x0800, 6),
            6 => self.numbered(frame, 0x0800, 17),
            7 => self.numbered(frame, 0x0800, 1),
            8 => self.numbered(frame, 0x86dd, 58),
            9 => self.numbered(frame, 0x0800, 2),
            10 => self.numbered(frame, 0x0800, 132),
            11 => self.numbered(frame, 0x0800, number),
            _ => self.numbered(frame, 0x86dd, number),
        }
    }

    fn addresses(
        &self,
        rng: &mut Rng,
        frame: &mut [u8],
        kind: u16,
        sides: [usize; 2],
        bytes: &[u8],
        direction: u8,
    ) {
        self.kind(frame, kind);
        at_sides(rng, frame, sides, bytes, direction);
    }

    fn ether_host(&self, rng: &mut Rng, frame: &mut [u8], r: &[u8]) {
        at_sides(rng, frame, [6, 0], &r[8..14], r[1]);
        if self.tree[5] == SLL {
            put(frame, LENGTH_PLACE, &rng.pick(&LENGTHS).to_be_bytes());
        }
    }

    fn ports(&self, rng: &mut Rng, frame: &mut [u8], r: &[u8]) {
        let (low, mut high) = (
            u16::from_be_bytes([r[4], r[5]]),
            u16::from_be_bytes([r[6], r[7]]),
        );
        high = high.max(low);
        let port = rng.between(low as usize, high as usize) as u16;
        let number = match r[2] {
            5 => 6,
            6 => 17,
            10 => 132,
            _ => rng.pick(&[6, 17]),
        };
        let kind = rng.pick(&[0x0800, 0x86dd]);
        self.numbered(frame, kind, number);
        let mut x = 40;
        if kind == 0x0800 {
            frame[self.network] = 0x40 | rng.pick(&[5, 5, 6, 15, 0]);
            put(frame, self.network + 6, &[rng.pick(&[0, 0x40]), 0]);
            x = 4 * (frame[self.network] & 15) as usize;
        }
        let place = self.network + x;
        at_sides(rng, frame, [place, place + 2], &port.to_be_bytes(), r[1]);
    }

    // ── A way through the program ────────────────────────────────────────────

    /// Goes through the program, chooses a side at each test and writes what leads there.
    fn steer(&self, rng: &mut Rng, frame: &mut [u8]) {
        let (mut at, mut x) = (0, 0);
        let mut field = Field::new(0, 1);
        loop {
            let i = self.program[at];
            let k = i.k as usize;
            at += 1;
            match i.code {
                0x20 => field = Field::new(k, 4),
                0x28 => field = Field::new(k, 2),
                0x30 => field = Field::new(k, 1),
                0x48 => field = Field::new(x + k, 2),
                0xb1 => x = 4 * (frame[k] & 15) as usize,
                0x01 => x = k,
                0x54 => field.mask &= i.k,
                0x05 => at += k,
                0x06 => return,
                _ => {
                    let yes = self.side(rng, at + i.jt as usize, at + i.jf as usize);
                    let value = wish(rng, i, yes);
                    field.write(rng, frame, value);
                    let holds = holds(i, field.read(frame));
                    at += if holds { i.jt } else { i.jf } as usize;
                }
            }
        }
    }

    /// Mostly away from the drop, which is the last instruction.
    fn side(&self, rng: &mut Rng, yes: usize, no: usize) -> bool {
        let drop = self.program.len() - 1;
        if (yes == drop) != (no == drop) && rng.below(16) != 0 {
            return no == drop;
        }
        rng.below(2) == 0
    }

    // ── Lengths ──────────────────────────────────────────────────────────────

    fn length(&self, rng: &mut Rng) -> usize {
        match rng.below(64) {
            0 => rng.pick(&LONG),
            1..=16 => self.end_of_a_load(rng) + rng.below(3),
            17..=24 => rng.below(self.network + 64),
            25..=32 => self.network + 63 + rng.below(3),
            _ => rng.between(self.network + 64, WHOLE),
        }
    }

    /// Where a load of the program ends, less one. An indexed load is taken at X = 20 or 40.
    fn end_of_a_load(&self, rng: &mut Rng) -> usize {
        let x = rng.pick(&[20, 40]);
        let ends: Vec<usize> = self.program.iter().filter_map(|i| load_end(i, x)).collect();
        if ends.is_empty() {
            return 0;
        }
        rng.pick(&ends) - 1
    }
}

fn load_end(i: &Instruction, x: usize) -> Option<usize> {
    let k = i.k as usize;
    match i.code {
        0x20 => Some(k + 4),
        0x28 => Some(k + 2),
        0x30 | 0xb1 => Some(k + 1),
        0x48 => Some(x + k + 2),
        _ => None,
    }
}

/// Zeros, random bytes, or few values.
fn start(rng: &mut Rng) -> Vec<u8> {
    match rng.below(3) {
        0 => vec![0; WHOLE],
        1 => (0..WHOLE).map(|_| rng.below(256) as u8).collect(),
        _ => (0..WHOLE)
            .map(|_| rng.pick(&[0, 1, 6, 8, 17, 53, 80, 255]))
            .collect(),
    }
}

fn put(frame: &mut [u8], place: usize, bytes: &[u8]) {
    frame[place..place + bytes.len()].copy_from_slice(bytes);
}

/// Writes bytes at source, destination or both.
fn at_sides(
    rng: &mut Rng,
    frame: &mut [u8],
    [source, destination]: [usize; 2],
    bytes: &[u8],
    direction: u8,
) {
    let direction = if direction == 0 {
        rng.between(1, 2) as u8
    } else {
        direction
    };
    if direction != 2 {
        put(frame, source, bytes);
    }
    if direction != 1 {
        put(frame, destination, bytes);
    }
}

/// What A was loaded from, and the bits of it that are left.
struct Field {
    place: usize,
    width: usize,
    mask: u32,
}

impl Field {
    fn new(place: usize, width: usize) -> Field {
        Field {
            place,
            width,
            mask: !0,
        }
    }

    fn read(&self, frame: &[u8]) -> u32 {
        let bytes = &frame[self.place..self.place + self.width];
        bytes.iter().fold(0, |sum, &b| sum << 8 | b as u32) & self.mask
    }

    /// Bits outside the mask are any.
    fn write(&self, rng: &mut Rng, frame: &mut [u8], value: u32) {
        let value = value & self.mask | rng.draw() as u32 & !self.mask;
        put(frame, self.place, &value.to_be_bytes()[4 - self.width..]);
    }
}

fn holds(i: Instruction, a: u32) -> bool {
    match i.code {
        0x15 => a == i.k,
        0x25 => a > i.k,
        0x35 => a >= i.k,
        _ => a & i.k != 0,
    }
}

/// A value for which a test holds, or does not; often one that just does.
fn wish(rng: &mut Rng, i: Instruction, yes: bool) -> u32 {
    let near = rng.below(2) as u32;
    match (i.code, yes) {
        (0x15, true) => i.k,
        (0x15, false) => i.k ^ 1 << rng.below(32),
        (0x25, true) => i.k.saturating_add(1 + near),
        (0x25, false) => i.k.saturating_sub(near),
        (0x35, true) => i.k.saturating_add(near),
        (0x35, false) => i.k.wrapping_sub(1 + near),
        (_, true) => i.k & rng.draw() as u32 | 1,
        (_, false) => !i.k & rng.draw() as u32,
    }
}
