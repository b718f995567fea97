//! Trees over values that are found in frames.

use crate::tree::{record, Leaf, Record, Tree, AND, OR};
use crate::trees::Rng;

const RAWIP: u8 = 2;
const SLL: u8 = 3;
/// Values besides those that are found.
const ETHERTYPES: [u16; 4] = [0x0800, 0x86dd, 0x0806, 0x0000];
const NUMBERS: [u8; 5] = [6, 17, 132, 44, 0];
const PORTS: [u16; 4] = [53, 80, 0, 65_535];
const ADDRESSES4: [u32; 3] = [0xe000_0001, 0xffff_ffff, 0];
const ADDRESSES6: [u128; 2] = [0xff02_0000_0000_0000_0000_0000_0000_0001, 0];
const MACS: [[u8; 6]; 2] = [[0xff; 6], [1, 0, 0x5e, 0, 0, 1]];
const MASKS: [u32; 6] = [
    0xffff_ff00,
    0xff00_0000,
    0xffff_ffff,
    0,
    0x00ff_00ff,
    0xff00_00ff,
];
const PREFIXES: [u8; 8] = [64, 32, 128, 0, 16, 127, 129, 255];
/// Kinds that RawIp takes, that LinuxSll takes, and all.
const RAW_KINDS: &[u8] = &[10, 11, 13, 15, 16, 18, 20, 21, 23];
const SLL_KINDS: &[u8] = &[10, 11, 12, 13, 14, 15, 16, 17, 18, 20, 21, 22, 23, 24];
const ALL_KINDS: &[u8] = &[10, 11, 12, 13, 14, 15, 16, 17, 18, 19, 20, 21, 22, 23, 24];
const RAW_PROTOCOLS: &[u8] = &[1, 5, 6, 7, 9, 10, 11];
const ALL_PROTOCOLS: &[u8] = &[1, 2, 3, 4, 5, 6, 7, 8, 9, 10, 11, 12];
const PORT_PROTOCOLS: [u8; 4] = [0, 5, 6, 10];
const ETHER_HOST: u8 = 17;
/// The one direction of an ether host that LinuxSll takes.
const SOURCE: u8 = 1;

// ── What is found ────────────────────────────────────────────────────────────

/// Where the network header starts.
pub fn network(link: u8) -> usize {
    [14, 0, 16][link as usize - 1]
}

/// Where a frame has ether addresses: a cooked one has the sender's.
fn mac_places(link: u8) -> &'static [usize] {
    match link {
        SLL => &[6],
        _ => &[0, 6],
    }
}

fn part<const N: usize>(frame: &[u8], at: usize) -> Option<[u8; N]> {
    frame
        .get(at..at + N)
        .map(|b| b.try_into().expect("so many"))
}

/// The values of a few frames; the first of each are those above.
pub struct Values {
    ethertypes: Vec<u16>,
    numbers: Vec<u8>,
    ports: Vec<u16>,
    addresses4: Vec<u32>,
    addresses6: Vec<u128>,
    macs: Vec<[u8; 6]>,
}

impl Values {
    fn new(rng: &mut Rng) -> Values {
        Values {
            ethertypes: vec![rng.pick(&ETHERTYPES)],
            numbers: vec![rng.pick(&NUMBERS)],
            ports: vec![rng.pick(&PORTS)],
            addresses4: vec![rng.pick(&ADDRESSES4)],
            addresses6: vec![rng.pick(&ADDRESSES6)],
            macs: vec![rng.pick(&MACS)],
        }
    }

    pub fn of(rng: &mut Rng, link: u8, frames: &[&[u8]]) -> Values {
        let mut values = Values::new(rng);
        for frame in frames {
            values.find(link, frame);
        }
        values
    }

    fn find(&mut self, link: u8, frame: &[u8]) {
        let n = network(link);
        if link != RAWIP {
            let macs = mac_places(link).iter().filter_map(|&at| part(frame, at));
            self.macs.extend(macs);
            let kind = part(frame, n - 2).map(u16::from_be_bytes);
            self.ethertypes.extend(kind);
        }
        match frame.get(n).map(|b| b >> 4) {
            Some(4) => self.find4(frame, n),
            Some(6) => self.find6(frame, n),
            _ => (),
        }
    }

    fn find4(&mut self, frame: &[u8], n: usize) {
        let addresses = [n + 12, n + 16].into_iter();
        let found = addresses.filter_map(|at| part(frame, at).map(u32::from_be_bytes));
        self.addresses4.extend(found);
        self.numbers.extend(frame.get(n + 9));
        self.find_ports(frame, n + 4 * (frame[n] & 15) as usize);
    }

    fn find6(&mut self, frame: &[u8], n: usize) {
        let addresses = [n + 8, n + 24].into_iter();
        let found = addresses.filter_map(|at| part(frame, at).map(u128::from_be_bytes));
        self.addresses6.extend(found);
        self.numbers.extend(frame.get(n + 6));
        self.find_ports(frame, n + 40);
    }

    fn find_ports(&mut self, frame: &[u8], place: usize) {
        let places = [place, place + 2].into_iter();
        self.ports
            .extend(places.filter_map(|at| part(frame, at).map(u16::from_be_bytes)));
    }

    // ── Conditions ───────────────────────────────────────────────────────────

    fn small(&self, rng: &mut Rng) -> u8 {
        let number = rng.pick(&self.numbers);
        if rng.below(8) == 0 {
            rng.below(256) as u8
        } else {
            number
        }
    }

    pub fn address4(&self, rng: &mut Rng) -> u32 {
        rng.pick(&self.addresses4)
    }

    /// A port that is found, at times one beside it.
    pub fn port(&self, rng: &mut Rng) -> u16 {
        let port = rng.pick(&self.ports);
        rng.pick(&[port, port, port, port ^ 1, port.wrapping_add(1)])
    }

    fn put_ports(&self, rng: &mut Rng, r: &mut Record) {
        let low = self.port(rng);
        let high = match rng.below(3) {
            0 => self.port(rng),
            _ => low.saturating_add(rng.below(3) as u16),
        };
        r[2] = rng.pick(&PORT_PROTOCOLS);
        r[4..6].copy_from_slice(&low.to_be_bytes());
        if r[0] == 16 {
            r[6..8].copy_from_slice(&high.to_be_bytes());
        }
    }

    fn put_net4(&self, rng: &mut Rng, r: &mut Record) {
        let mask = match rng.below(8) {
            0 => rng.draw() as u32,
            _ => rng.pick(&MASKS),
        };
        if r[0] == 13 {
            r[12..16].copy_from_slice(&mask.to_be_bytes());
        }
        r[8..12].copy_from_slice(&self.address4(rng).to_be_bytes());
    }

    fn put_net6(&self, rng: &mut Rng, r: &mut Record) {
        let prefix = match rng.below(4) {
            0 => rng.below(256) as u8,
            _ => rng.pick(&PREFIXES),
        };
        if r[0] == 14 {
            r[3] = prefix;
        }
        r[8..24].copy_from_slice(&rng.pick(&self.addresses6).to_be_bytes());
    }

    fn put_protocol(&self, rng: &mut Rng, link: u8, r: &mut Record) {
        r[2] = match link {
            RAWIP => rng.pick(RAW_PROTOCOLS),
            _ => rng.pick(ALL_PROTOCOLS),
        };
        if r[2] >= 11 {
            r[3] = self.small(rng);
        }
    }

    fn put_ethertype(&self, rng: &mut Rng, link: u8, r: &mut Record) {
        let kind = match link {
            RAWIP => 0x0800,
            _ => rng.pick(&self.ethertypes),
        };
        r[4..6].copy_from_slice(&kind.to_be_bytes());
    }

    /// A condition that the build takes on its link.
    pub fn leaf(&self, rng: &mut Rng, link: u8) -> Leaf {
        let kinds = match link {
            RAWIP => RAW_KINDS,
            SLL => SLL_KINDS,
            _ => ALL_KINDS,
        };
        let mut r = record(rng.pick(kinds));
        match r[0] {
            10 => self.put_protocol(rng, link, &mut r),
            11 | 13 => self.put_net4(rng, &mut r),
            12 | 14 => self.put_net6(rng, &mut r),
            15 | 16 => self.put_ports(rng, &mut r),
            ETHER_HOST => r[8..14].copy_from_slice(&rng.pick(&self.macs)),
            18 => self.put_ethertype(rng, link, &mut r),
            23 | 24 => r[3] = self.small(rng),
            _ => (),
        }
        if one_sided(link, &r) {
            r[1] = SOURCE;
        } else if matches!(r[0], 11..=17) {
            r[1] = rng.below(4) as u8;
        }
        Leaf {
            record: r,
            by_bytes: rng.below(3) == 0,
        }
    }
}

/// Whether a condition asks for an address that has no other side: the sender's of cooked frames.
fn one_sided(link: u8, r: &Record) -> bool {
    link == SLL && r[0] == ETHER_HOST
}

// ── Trees ────────────────────────────────────────────────────────────────────

/// A tree of so many conditions, drawn from a few.
fn grow(rng: &mut Rng, few: &[Leaf], conditions: usize) -> Tree {
    if rng.below(5) == 0 {
        return Tree::Not(Box::new(grow(rng, few, conditions)));
    }
    if conditions == 1 {
        return Tree::Leaf(rng.pick(few));
    }
    let left = rng.between(1, conditions - 1);
    let kind = rng.pick(&[AND, OR]);
    let (left, right) = (grow(rng, few, left), grow(rng, few, conditions - left));
    Tree::Join(kind, Box::new(left), Box::new(right))
}

pub fn tree(rng: &mut Rng, link: u8, values: &Values) -> Tree {
    let few = rng.between(1, 6);
    let few: Vec<Leaf> = (0..few).map(|_| values.leaf(rng, link)).collect();
    let most = rng.pick(&[1, 3, 6, 6, 12, 24]);
    let conditions = rng.between(1, most);
    grow(rng, &few, conditions)
}

// ── Wrong words ──────────────────────────────────────────────────────────────

/// Where the value of a kind ends, if it has one.
fn last_byte(r: &Record) -> Option<usize> {
    match r[0] {
        10 if r[2] >= 11 => Some(3),
        11 | 13 => Some(11),
        12 | 14 => Some(23),
        15 | 16 | 18 => Some(5),
        ETHER_HOST => Some(13),
        23 | 24 => Some(3),
        _ => None,
    }
}

/// The tree with the lowest bit of one value changed, or one direction, or a not more.
pub fn altered(rng: &mut Rng, link: u8, tree: &Tree) -> Tree {
    let mut other = tree.clone();
    let mut leaves = other.leaves();
    let at = rng.below(leaves.len());
    let r = &mut leaves[at].record;
    match (last_byte(r), r[1]) {
        (Some(_), side @ 1..=2) if !one_sided(link, r) && rng.below(2) == 0 => r[1] = 3 - side,
        (Some(place), _) => r[place] ^= 1,
        (None, _) => return Tree::Not(Box::new(other)),
    }
    other
}
