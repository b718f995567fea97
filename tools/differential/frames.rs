//! Frames that a tree looks at: its own values put where it reads them, and
//! near misses.

use crate::trees::{Rng, EITHER, SLL, SOURCE};
use crate::{HEADER, LINK, RECORD};

/// How far past the network start a frame is drawn.
pub const REACH: usize = 64;

/// Where the network header starts.
pub fn network(link: u8) -> usize {
    match link {
        1 => 14,
        2 => 0,
        _ => 16,
    }
}

/// Where an ether header has source and destination; a cooked one has the sender's address
/// at the same place as the source, and its length.
const ETHER_SOURCE: usize = 6;
const ETHER_DESTINATION: usize = 0;
const SENDER_LENGTH: usize = 4;
pub const ETHER_LENGTH: [u8; 2] = [0, 6];

/// A frame in the making.
pub struct Sketch {
    link: u8,
    /// Where the ethertype stands.
    kind_at: Option<usize>,
    pub n: usize,
    pub frame: Vec<u8>,
}

impl Sketch {
    pub fn new(link: u8, frame: Vec<u8>) -> Sketch {
        let n = network(link);
        Sketch {
            link,
            kind_at: n.checked_sub(2),
            n,
            frame,
        }
    }

    pub fn put(&mut self, at: usize, bytes: &[u8]) {
        if at + bytes.len() <= self.frame.len() {
            self.frame[at..at + bytes.len()].copy_from_slice(bytes);
        }
    }

    pub fn kind(&mut self, kind: u16) {
        if let Some(at) = self.kind_at {
            self.put(at, &kind.to_be_bytes());
        }
    }

    pub fn protocol4(&mut self, number: u8) {
        self.kind(0x0800);
        self.put(self.n + 9, &[number]);
    }

    pub fn protocol6(&mut self, number: u8) {
        self.kind(0x86DD);
        self.put(self.n + 6, &[number]);
    }

    /// IPv4 with so many words of header and this fragment field, as far as ports
    /// need it; where the ports start.
    pub fn transport4(&mut self, number: u8, words: u8, fragment: [u8; 2]) -> usize {
        self.protocol4(number);
        self.put(self.n, &[0x40 + words]);
        self.put(self.n + 6, &fragment);
        self.n + 4 * words as usize
    }

    pub fn transport6(&mut self, number: u8) -> usize {
        self.protocol6(number);
        self.n + 40
    }

    /// The length of the sender's address, which only a cooked frame has.
    pub fn sender_length(&mut self, length: [u8; 2]) {
        if self.link == SLL {
            self.put(SENDER_LENGTH, &length);
        }
    }

    /// Bytes at the source (1), the destination (2) or both (3).
    pub fn sides(&mut self, sides: u8, source: usize, destination: usize, bytes: &[u8]) {
        if sides != 2 {
            self.put(source, bytes);
        }
        if sides != 1 {
            self.put(destination, bytes);
        }
    }
}

/// A tree's own values put into a frame.
struct Aim<'a> {
    rng: &'a mut Rng,
    records: Vec<&'a [u8]>,
    to: Sketch,
}

/// IPv4 numbers of the protocols 5 to 10; 8 is IPv6.
const NUMBERS: [u8; 6] = [6, 17, 1, 58, 2, 132];

impl Aim<'_> {
    fn protocol(&mut self, r: &[u8]) {
        match r[2] {
            1..=4 => self
                .to
                .kind([0x0800, 0x86DD, 0x0806, 0x8035][r[2] as usize - 1]),
            8 => self.to.protocol6(58),
            5..=10 => self.to.protocol4(NUMBERS[r[2] as usize - 5]),
            11 => self.to.protocol4(r[3]),
            _ => self.to.protocol6(r[3]),
        }
    }

    /// Bytes at the source, the destination or both, as the direction says.
    fn sides(&mut self, direction: u8, source: usize, destination: usize, bytes: &[u8]) {
        let sides = match direction {
            0 => self.rng.between(1, 3) as u8,
            other => other,
        };
        self.to.sides(sides, source, destination, bytes);
    }

    /// An address, at times with other bits where mask or prefix does not look, or missed by
    /// the last bit that a prefix looks at.
    fn address(&mut self, r: &[u8]) {
        let n = self.to.n;
        let mut bytes = if r[0] % 2 == 1 {
            r[8..12].to_vec()
        } else {
            r[8..24].to_vec()
        };
        let at = self.rng.below(8 * bytes.len());
        let (byte, bit) = (at / 8, 0x80 >> (at % 8));
        let free = match r[0] {
            13 => r[12 + byte] & bit == 0,
            14 => at >= r[3] as usize,
            _ => false,
        };
        bytes[byte] ^= if free { bit } else { 0 };
        if r[0] == 14 && matches!(r[3], 1..=128) && self.rng.below(8) == 0 {
            let last = r[3] as usize - 1;
            bytes[last / 8] ^= 0x80 >> (last % 8);
        }
        if r[0] % 2 == 1 {
            self.to.kind(0x0800);
            self.sides(r[1], n + 12, n + 16, &bytes);
        } else {
            self.to.kind(0x86DD);
            self.sides(r[1], n + 8, n + 24, &bytes);
        }
    }

    /// Header and protocol for ports; where the ports start.
    fn transport(&mut self, protocol: u8) -> usize {
        const FRAGMENTS: [[u8; 2]; 6] =
            [[0, 0], [0, 0], [0x40, 0], [0xE0, 0], [0, 1], [0x1F, 0xFF]];
        let number = match protocol {
            5 => 6,
            6 => 17,
            10 => 132,
            _ => self.rng.pick(&[6, 17]),
        };
        if self.to.kind_at.is_some() && self.rng.below(2) == 0 {
            return self.to.transport6(number);
        }
        let words = self.rng.pick(&[5, 5, 5, 6, 15, 0, 1, 2]);
        let fragment = self.rng.pick(&FRAGMENTS);
        self.to.transport4(number, words, fragment)
    }

    fn port(&mut self, r: &[u8]) {
        let at = self.transport(r[2]);
        let low = u16::from_be_bytes([r[4], r[5]]);
        let high = if r[0] == 16 {
            u16::from_be_bytes([r[6], r[7]])
        } else {
            low
        };
        let near = [
            low,
            high,
            low,
            high,
            low.wrapping_sub(1),
            high.wrapping_add(1),
        ];
        let port = self.rng.pick(&near);
        self.sides(r[1], at, at + 2, &port.to_be_bytes());
    }

    /// An ether address. A cooked frame mostly has a length with a sender's. For a direction
    /// that LinuxSll turns down any side has it, and half are left as an ether header has
    /// them, since the length would be within the destination.
    fn ether_host(&mut self, r: &[u8]) {
        const LENGTHS: [[u8; 2]; 10] = [
            [0, 0],
            [0, 7],
            [0, 8],
            [0, 4],
            [0, 0x86],
            [1, 6],
            [5, 6],
            [6, 6],
            [0x80, 6],
            [6, 0],
        ];
        let turned_down = self.to.link == SLL && r[1] != SOURCE;
        let direction = if turned_down { EITHER } else { r[1] };
        self.sides(direction, ETHER_SOURCE, ETHER_DESTINATION, &r[8..14]);
        if turned_down && self.rng.below(2) == 0 {
            return;
        }
        let length = match self.rng.below(16) {
            0..=8 => ETHER_LENGTH,
            9..=13 => self.rng.pick(&LENGTHS),
            14 => (self.rng.draw() as u16).to_be_bytes(),
            _ => return,
        };
        self.to.sender_length(length);
    }

    fn leaf(&mut self, r: &[u8]) {
        let n = self.to.n;
        match r[0] {
            10 => self.protocol(r),
            11..=14 => self.address(r),
            15 | 16 => self.port(r),
            17 => self.ether_host(r),
            18 => self.to.kind(u16::from_be_bytes([r[4], r[5]])),
            19 => self.to.put(0, &[1]),
            20 => {
                self.to.kind(0x0800);
                self.to.put(n + 16, &[255; 4]);
            }
            21 => {
                self.to.kind(0x0800);
                self.to.put(n + 16, &[0xE5]);
            }
            22 => {
                self.to.kind(0x86DD);
                self.to.put(n + 24, &[255]);
            }
            23 => self.to.protocol4(r[3]),
            _ => self.to.protocol6(r[3]),
        }
    }

    /// Aims at the tree that stands at a record; where the next one stands.
    fn tree(&mut self, at: usize, truth: bool) -> usize {
        let r = self.records[at];
        let draw = self.rng.below(4);
        match r[0] {
            1 | 2 => {
                // and needs both, or needs one
                let both = (r[0] == 1) == truth;
                let left = if both || draw < 2 { truth } else { !truth };
                let right = if both || draw > 0 { truth } else { !truth };
                let middle = self.tree(at + 1, left);
                self.tree(middle, right)
            }
            3 => self.tree(at + 1, !truth),
            _ => {
                if truth || draw == 0 {
                    let leaf = r.to_vec();
                    self.leaf(&leaf);
                }
                at + 1
            }
        }
    }

    /// Some bits or bytes of the frame changed.
    fn miss(&mut self) {
        for _ in 0..self.rng.pick(&[0, 0, 1, 1, 2, 4]) {
            let at = self.rng.below(self.to.frame.len());
            self.to.frame[at] ^= 1 << self.rng.below(8);
        }
    }
}

/// What a frame holds before the tree's values are put into it.
fn ground(rng: &mut Rng, size: usize) -> Vec<u8> {
    match rng.below(4) {
        0 => vec![0; size],
        1 => vec![0xFF; size],
        2 => (0..size)
            .map(|_| rng.pick(&[0, 6, 8, 17, 53, 80]))
            .collect(),
        _ => (0..size).map(|_| rng.draw() as u8).collect(),
    }
}

/// A frame for a tree file that passes checks 1 to 4, two bytes longer than n + 64.
pub fn aimed(rng: &mut Rng, file: &[u8]) -> Vec<u8> {
    let frame = ground(rng, network(file[LINK]) + REACH + 2);
    let truth = rng.below(3) > 0;
    let mut aim = Aim {
        rng,
        records: file[HEADER..].chunks_exact(RECORD).collect(),
        to: Sketch::new(file[LINK], frame),
    };
    if aim.rng.below(2) == 0 {
        aim.to.kind(0x0800);
    }
    aim.tree(0, truth);
    aim.miss();
    aim.to.frame
}

/// How a frame fares with the first sender test of a tree: whether the high byte and the low
/// byte of the length are as wanted, and the address.
pub fn sender_test(file: &[u8], frame: &[u8]) -> Option<[bool; 3]> {
    let is_sender = |r: &&[u8]| file[LINK] == SLL && r[..2] == [17, 1];
    let sender = file[HEADER..].chunks_exact(RECORD).find(is_sender)?;
    let [.., high, low] = *frame.get(..SENDER_LENGTH + 2)? else {
        return None;
    };
    let address = frame.get(ETHER_SOURCE..ETHER_SOURCE + 6)?;
    let [wanted_high, wanted_low] = ETHER_LENGTH;
    Some([
        high == wanted_high,
        low == wanted_low,
        *address == sender[8..14],
    ])
}

/// Other bytes for what follows a place.
pub fn other_tail(rng: &mut Rng, frame: &[u8], from: usize) -> Vec<u8> {
    let mut other = frame.to_vec();
    let tail = match rng.below(3) {
        0 => other[from..].iter().map(|b| !b).collect(),
        _ => ground(rng, other.len() - from),
    };
    other[from..].copy_from_slice(&tail);
    other
}
