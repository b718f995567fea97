//! What a tree says of a frame, from the sentences of document 01 under "Direct
//! reading". It shares nothing with the port, its definitions or the Rust: a
//! second reading of the same words.
//!
//! The file has to pass checks 1 to 4. Trees that the build refuses with 5 to 8 or 15
//! have a reading too: a kind other than 0x0800 is false on RawIp, ether
//! conditions read their bytes there as elsewhere, and the set of a port protocol
//! that number 6 refuses is empty. A cooked frame has a sender, whose address length
//! has to be an ether address's, and no destination (T-03).

const IP4: u16 = 0x0800;
const IP6: u16 = 0x86DD;
const ARP: u16 = 0x0806;
const RARP: u16 = 0x8035;

const LINUX_SLL: u8 = 3;
/// Where a cooked frame has the length of its sender's address, and the length wanted.
const SENDER_LENGTH: usize = 4;
const ETHER_LENGTH: u16 = 6;

/// A frame on its link. Bytes past the end are zero.
struct View<'a> {
    link: u8,
    frame: &'a [u8],
}

impl View<'_> {
    fn b(&self, at: usize) -> u8 {
        self.frame.get(at).copied().unwrap_or(0)
    }

    fn h(&self, at: usize) -> u16 {
        256 * self.b(at) as u16 + self.b(at + 1) as u16
    }

    /// Where the network header starts.
    fn n(&self) -> usize {
        [14, 0, 16][self.link as usize - 1]
    }

    fn kind(&self, v: u16) -> bool {
        match self.link {
            1 => self.h(12) == v,
            3 => self.h(14) == v,
            _ => v == IP4,
        }
    }

    fn protocol4(&self, p: u8) -> bool {
        self.kind(IP4) && self.b(self.n() + 9) == p
    }

    fn protocol6(&self, p: u8) -> bool {
        self.kind(IP6) && self.b(self.n() + 6) == p
    }

    fn protocol(&self, r: &[u8]) -> bool {
        match r[2] {
            1 => self.kind(IP4),
            2 => self.kind(IP6),
            3 => self.kind(ARP),
            4 => self.kind(RARP),
            5 => self.protocol4(6),
            6 => self.protocol4(17),
            7 => self.protocol4(1),
            8 => self.protocol6(58),
            9 => self.protocol4(2),
            10 => self.protocol4(132),
            11 => self.protocol4(r[3]),
            _ => self.protocol6(r[3]),
        }
    }

    /// Whether the bytes from a place on are the wanted ones, looking only at the bits
    /// that the mask has.
    fn bytes_under(&self, at: usize, wanted: &[u8], mask: impl Fn(usize) -> u8) -> bool {
        let same = |i: usize| (self.b(at + i) ^ wanted[i]) & mask(i) == 0;
        (0..wanted.len()).all(same)
    }

    /// Source at n + 12, destination at n + 16.
    fn address4(&self, r: &[u8], mask: impl Fn(usize) -> u8) -> bool {
        let side = |at| self.bytes_under(self.n() + at, &r[8..12], &mask);
        self.kind(IP4) && directed(r[1], || side(12), || side(16))
    }

    /// Source at n + 8, destination at n + 24.
    fn address6(&self, r: &[u8], mask: impl Fn(usize) -> u8) -> bool {
        let side = |at| self.bytes_under(self.n() + at, &r[8..24], &mask);
        self.kind(IP6) && directed(r[1], || side(8), || side(24))
    }

    /// X, where the frame has the protocol and carries the ports.
    fn transport(&self, protocol: u8) -> Option<usize> {
        let n = self.n();
        let set: &[u8] = match protocol {
            0 => &[6, 17],
            5 => &[6],
            6 => &[17],
            10 => &[132],
            _ => &[],
        };
        if self.kind(IP4) {
            let whole = self.h(n + 6) % 0x2000 == 0;
            let x = 4 * (self.b(n) as usize % 16);
            (set.contains(&self.b(n + 9)) && whole).then_some(x)
        } else {
            (self.kind(IP6) && set.contains(&self.b(n + 6))).then_some(40)
        }
    }

    fn ports(&self, r: &[u8], low: u16, high: u16) -> bool {
        let Some(x) = self.transport(r[2]) else {
            return false;
        };
        let side = |at: usize| (low..=high).contains(&self.h(self.n() + x + at));
        directed(r[1], || side(0), || side(2))
    }

    fn ether_host(&self, r: &[u8]) -> bool {
        let side = |at| self.bytes_under(at, &r[8..14], |_| 0xFF);
        if self.link == LINUX_SLL {
            let sender = || self.h(SENDER_LENGTH) == ETHER_LENGTH && side(6);
            return directed(r[1], sender, || false);
        }
        directed(r[1], || side(6), || side(0))
    }

    fn condition(&self, r: &[u8]) -> bool {
        let n = self.n();
        let a = u16::from_be_bytes([r[4], r[5]]);
        match r[0] {
            10 => self.protocol(r),
            11 => self.address4(r, |_| 0xFF),
            12 => self.address6(r, |_| 0xFF),
            13 => self.address4(r, |i| r[12 + i]),
            14 => self.address6(r, |i| prefix_byte(r[3], i)),
            15 => self.ports(r, a, a),
            16 => self.ports(r, a, u16::from_be_bytes([r[6], r[7]])),
            17 => self.ether_host(r),
            18 => self.kind(a),
            19 => self.link != LINUX_SLL && self.b(0) % 2 == 1,
            20 => self.kind(IP4) && (16..20).all(|i| self.b(n + i) == 0xFF),
            21 => self.kind(IP4) && self.b(n + 16) / 16 == 0xE,
            22 => self.kind(IP6) && self.b(n + 24) == 0xFF,
            23 => self.protocol4(r[3]),
            _ => self.protocol6(r[3]),
        }
    }

    /// The truth of the tree that the records start with, and the records after it.
    fn tree<'r>(&self, records: &'r [u8]) -> (bool, &'r [u8]) {
        let (r, rest) = records.split_at(24);
        match r[0] {
            1 | 2 => {
                let (left, rest) = self.tree(rest);
                let (right, rest) = self.tree(rest);
                let joined = if r[0] == 1 {
                    left && right
                } else {
                    left || right
                };
                (joined, rest)
            }
            3 => {
                let (part, rest) = self.tree(rest);
                (!part, rest)
            }
            _ => (self.condition(r), rest),
        }
    }
}

/// Direction 0 either, 1 source, 2 destination, 3 both.
fn directed(direction: u8, source: impl Fn() -> bool, destination: impl Fn() -> bool) -> bool {
    match direction {
        0 => source() || destination(),
        1 => source(),
        2 => destination(),
        _ => source() && destination(),
    }
}

/// The bits of a byte that a prefix looks at.
fn prefix_byte(prefix: u8, byte: usize) -> u8 {
    match (prefix as usize).saturating_sub(8 * byte) {
        bits @ 0..=7 => !(0xFF >> bits),
        _ => 0xFF,
    }
}

/// Whether the tree is true of the frame.
pub fn truth(file: &[u8], frame: &[u8]) -> bool {
    let view = View {
        link: file[5],
        frame,
    };
    view.tree(&file[8..]).0
}
