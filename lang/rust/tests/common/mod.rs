//! Tree files for the tests, as document 01 lays them out, frames and lent buffers.
#![allow(dead_code)] // each test takes what it needs

pub mod captures;

pub const ETHERNET: u8 = 1;
pub const RAW_IP: u8 = 2;
pub const LINUX_SLL: u8 = 3;

pub const EITHER: u8 = 0;
pub const SOURCE: u8 = 1;
pub const DESTINATION: u8 = 2;
pub const BOTH: u8 = 3;

pub const NONE: u8 = 0;
pub const IP: u8 = 1;
pub const IP6: u8 = 2;
pub const ARP: u8 = 3;
pub const RARP: u8 = 4;
pub const TCP: u8 = 5;
pub const UDP: u8 = 6;
pub const ICMP: u8 = 7;
pub const ICMP6: u8 = 8;
pub const SCTP: u8 = 10;

pub type Record = [u8; 24];

pub fn record(kind: u8) -> Record {
    let mut r = [0; 24];
    r[0] = kind;
    r
}

pub fn protocol(p: u8) -> Vec<Record> {
    let mut r = record(10);
    r[2] = p;
    vec![r]
}

pub fn port(direction: u8, p: u8, number: u16) -> Vec<Record> {
    let mut r = record(15);
    (r[1], r[2]) = (direction, p);
    r[4..6].copy_from_slice(&number.to_be_bytes());
    vec![r]
}

pub fn host(direction: u8, address: [u8; 4]) -> Vec<Record> {
    let mut r = record(11);
    r[1] = direction;
    r[8..12].copy_from_slice(&address);
    vec![r]
}

pub fn host6(direction: u8) -> Vec<Record> {
    let mut r = record(12);
    r[1] = direction;
    r[8..].copy_from_slice(&[0x20, 1, 0xd, 0xb8, 0, 0, 0, 0, 0, 0, 0, 0, 0, 0, 0, 1]);
    vec![r]
}

pub fn net6(prefix: u8) -> Vec<Record> {
    let mut r = record(14);
    r[3] = prefix;
    vec![r]
}

/// An ether address, as it stands in some frames.
pub const STATION: [u8; 6] = [2, 0, 0, 0, 0, 6];

pub fn ether_host(direction: u8) -> Vec<Record> {
    let mut r = record(17);
    r[1] = direction;
    r[8..14].copy_from_slice(&STATION);
    vec![r]
}

pub fn ether_multicast() -> Vec<Record> {
    vec![record(19)]
}

pub fn and(left: Vec<Record>, right: Vec<Record>) -> Vec<Record> {
    [vec![record(1)], left, right].concat()
}

pub fn or(left: Vec<Record>, right: Vec<Record>) -> Vec<Record> {
    [vec![record(2)], left, right].concat()
}

pub fn not(part: Vec<Record>) -> Vec<Record> {
    [vec![record(3)], part].concat()
}

pub fn file(link: u8, records: Vec<Record>) -> Vec<u8> {
    let [high, low] = (records.len() as u16).to_be_bytes();
    let mut bytes = vec![b'P', b'F', b'T', 0, 1, link, high, low];
    bytes.extend(records.concat());
    bytes
}

/// Seven ether multicasts, an IPv6 source host, seven IPv6 hosts, the last with a direction of
/// its own, joined by and from the left.
pub fn far(last: u8) -> Vec<u8> {
    let mut tree = ether_multicast();
    for _ in 0..6 {
        tree = and(tree, ether_multicast());
    }
    tree = and(tree, host6(SOURCE));
    for _ in 0..6 {
        tree = and(tree, host6(BOTH));
    }
    file(ETHERNET, and(tree, host6(last)))
}

const MARGIN: usize = 24;
const CANARY: u8 = 0xc5;
/// What a lent buffer holds before a call.
const STALE: u8 = 0x5a;

/// Lends the middle of a larger buffer to a call; nothing around it may change. The call's answer,
/// and the lent part after.
pub fn lend<A>(length: usize, call: impl FnOnce(&mut [u8]) -> A) -> (A, Vec<u8>) {
    let mut space = vec![CANARY; length + 2 * MARGIN];
    space[MARGIN..MARGIN + length].fill(STALE);
    let answer = call(&mut space[MARGIN..MARGIN + length]);
    assert!(
        space[..MARGIN].iter().all(|&b| b == CANARY),
        "a byte before the buffer"
    );
    assert!(
        space[MARGIN + length..].iter().all(|&b| b == CANARY),
        "a byte after the buffer"
    );
    (answer, space[MARGIN..MARGIN + length].to_vec())
}

/// splitmix64: the same draws on every machine.
pub struct Rng(pub u64);

impl Rng {
    pub fn below(&mut self, n: u64) -> usize {
        self.0 = self.0.wrapping_add(0x9E37_79B9_7F4A_7C15);
        let mut z = self.0;
        z = (z ^ z >> 30).wrapping_mul(0xBF58_476D_1CE4_E5B9);
        z = (z ^ z >> 27).wrapping_mul(0x94D0_49BB_1331_11EB);
        ((z ^ z >> 31) % n) as usize
    }
}

fn random_leaf(rng: &mut Rng) -> Vec<Record> {
    match rng.below(8) {
        0 => protocol([IP, IP6, TCP, UDP, ICMP, ICMP6][rng.below(6)]),
        1 => port(
            rng.below(4) as u8,
            [NONE, TCP, UDP][rng.below(3)],
            [53, 80][rng.below(2)],
        ),
        2 => host6(rng.below(4) as u8),
        3 => net6([0, 1, 32, 127, 128, 255][rng.below(6)]),
        4 => ether_host(SOURCE),
        5 if rng.below(3) == 0 => [ether_host(EITHER), ether_multicast()][rng.below(2)].clone(),
        _ => vec![record([20, 21, 22][rng.below(3)])],
    }
}

pub fn random_tree(rng: &mut Rng, depth: usize) -> Vec<Record> {
    match if depth == 0 { 0 } else { rng.below(5) } {
        0 => random_leaf(rng),
        1 | 2 => and(random_tree(rng, depth - 1), random_tree(rng, depth - 1)),
        3 => or(random_tree(rng, depth - 1), random_tree(rng, depth - 1)),
        _ => not(random_tree(rng, depth - 1)),
    }
}

/// A frame that reaches 64 bytes past the network start, of few values; some are sent by STATION.
pub fn random_frame(rng: &mut Rng) -> Vec<u8> {
    let mut frame: Vec<u8> = (0..80 + rng.below(20))
        .map(|_| [0, 1, 6, 17, 53, 80, 255][rng.below(7)])
        .collect();
    let kind: u16 = [0x0800, 0x86dd, 0x0806][rng.below(3)];
    for place in [12, 14] {
        frame[place..place + 2].copy_from_slice(&kind.to_be_bytes());
    }
    if rng.below(2) == 0 {
        frame[4..6].copy_from_slice(&[[0, 6], [0, 8]][rng.below(2)]);
        frame[6..12].copy_from_slice(&STATION);
    }
    frame
}
