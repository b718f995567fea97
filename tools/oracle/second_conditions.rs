//! What the second generator knows of a condition, without regard to the tree it stands in:
//! the tests that it starts with, and its steps over a frame's bytes.

use crate::Number;

pub mod code {
    pub const LDW: u16 = 0x20;
    pub const LDH: u16 = 0x28;
    pub const LDB: u16 = 0x30;
    pub const LDH_AT_X: u16 = 0x48;
    pub const LDX_HEADER: u16 = 0xB1;
    pub const LDX_NUMBER: u16 = 0x01;
    pub const AND: u16 = 0x54;
    pub const JEQ: u16 = 0x15;
    pub const JGT: u16 = 0x25;
    pub const JGE: u16 = 0x35;
    pub const JSET: u16 = 0x45;
    pub const JA: u16 = 0x05;
    pub const RET: u16 = 0x06;
}

pub mod kind {
    pub const AND: u8 = 1;
    pub const OR: u8 = 2;
    pub const NOT: u8 = 3;
    pub const PROTOCOL: u8 = 10;
    pub const HOST4: u8 = 11;
    pub const HOST6: u8 = 12;
    pub const NET4: u8 = 13;
    pub const NET6: u8 = 14;
    pub const PORT: u8 = 15;
    pub const RANGE: u8 = 16;
    pub const ETHER_HOST: u8 = 17;
    pub const ETHER_PROTOCOL: u8 = 18;
    pub const ETHER_MULTICAST: u8 = 19;
    pub const BROADCAST: u8 = 20;
    pub const MULTICAST: u8 = 21;
    pub const MULTICAST6: u8 = 22;
    pub const CHAIN4: u8 = 23;
    pub const CHAIN6: u8 = 24;
}

/// Protocol bytes that ports take, and those whose number is in the record.
mod protocol {
    pub const NONE: u8 = 0;
    pub const TCP: u8 = 5;
    pub const UDP: u8 = 6;
    pub const SCTP: u8 = 10;
    pub const NUM: u8 = 11;
    pub const IP6_PROTO: u8 = 12;
}

const PORT_PROTOCOL: Number = 6;
const ETHER_ON_RAW: Number = 7;
const COOKED_ADDRESS: Number = 15;

pub const RAW_IP: u8 = 2;
pub const COOKED: u8 = 3;

pub const EITHER: u8 = 0;
const SOURCE: u8 = 1;
const DESTINATION: u8 = 2;

/// Fields of a record.
pub const KIND: usize = 0;
const DIRECTION: usize = 1;
const PROTOCOL_BYTE: usize = 2;
const SMALL: usize = 3;
const A: usize = 4;
const B: usize = 6;
const ADDRESS: usize = 8;
const MASK: usize = 12;

/// Source and destination: from the network header on by version, and from X on.
const SIDES4: [u32; 2] = [12, 16];
const SIDES6: [u32; 2] = [8, 24];
const SIDES_OF_PORTS: [u32; 2] = [0, 2];
/// The ether header's destination and source, the order in which both are tested.
const ETHER_SIDES: [u32; 2] = [0, 6];
/// The cooked header's sender and the length of its address.
const SENDER: u32 = 6;
const SENDER_LENGTH: u32 = 4;
const ETHER_BYTES: u32 = 6;

pub const IPV4: u32 = 0x0800;
pub const IPV6: u32 = 0x86DD;
const ARP: u32 = 0x0806;
const RARP: u32 = 0x8035;

pub type Record<'r> = &'r [u8];

fn half(r: Record, at: usize) -> u32 {
    u16::from_be_bytes([r[at], r[at + 1]]) as u32
}

fn word(r: Record, at: usize) -> u32 {
    u32::from_be_bytes([r[at], r[at + 1], r[at + 2], r[at + 3]])
}

// ── Tests that are shared and remembered ─────────────────────────────────────

/// What tests find, a number each; for ports the set of protocols, a bit for each.
pub type Tests = [Option<u32>; 4];
pub const ETHERTYPE: usize = 0;
pub const PROTOCOL: usize = 1;
pub const NEXT_HEADER: usize = 2;
pub const PORTS: usize = 3;
pub const NONE: Tests = [None; 4];

const TCP: u32 = 1;
const UDP: u32 = 2;
const SCTP: u32 = 4;
const NUMBERS: [(u32, u32); 3] = [(TCP, 6), (UDP, 17), (SCTP, 132)];

/// The numbers of a set of protocols.
pub fn numbers(set: u32) -> Vec<u32> {
    let within = NUMBERS.into_iter().filter(|(bit, _)| set & bit != 0);
    within.map(|(_, number)| number).collect()
}

/// The set of one number, if it is in a set.
pub fn one_of(set: u32, number: u32) -> Option<u32> {
    let found = NUMBERS.into_iter().find(|(_, n)| *n == number);
    found.map(|(bit, _)| bit).filter(|bit| set & bit != 0)
}

/// Of two sets the one with both, where ports take it: of TCP and UDP alone.
pub fn joined(a: u32, b: u32) -> Option<u32> {
    Some(a | b).filter(|set| a == b || set & SCTP == 0)
}

fn set_of(protocol: u8) -> Option<u32> {
    match protocol {
        protocol::NONE => Some(TCP | UDP),
        protocol::TCP => Some(TCP),
        protocol::UDP => Some(UDP),
        protocol::SCTP => Some(SCTP),
        _ => None,
    }
}

pub const fn row(ethertype: u32, protocol: Option<u32>, next_header: Option<u32>) -> Tests {
    [Some(ethertype), protocol, next_header, None]
}

/// Ip, Ip6, Arp, Rarp, Tcp, Udp, Icmp, Icmp6, Igmp, Sctp; Num and Ip6Proto follow.
const PROTOCOLS: [Tests; 10] = [
    row(IPV4, None, None),
    row(IPV6, None, None),
    row(ARP, None, None),
    row(RARP, None, None),
    row(IPV4, Some(6), None),
    row(IPV4, Some(17), None),
    row(IPV4, Some(1), None),
    row(IPV6, None, Some(58)),
    row(IPV4, Some(2), None),
    row(IPV4, Some(132), None),
];

/// The tests that a condition starts with. An ether address has none to share.
pub fn starts_with(r: Record) -> Tests {
    let number = Some(r[SMALL] as u32);
    match (r[KIND], r[PROTOCOL_BYTE]) {
        (kind::PROTOCOL, protocol::NUM) | (kind::CHAIN4, _) => row(IPV4, number, None),
        (kind::PROTOCOL, protocol::IP6_PROTO) | (kind::CHAIN6, _) => row(IPV6, None, number),
        (kind::PROTOCOL, other) => PROTOCOLS[other as usize - 1],
        (kind::HOST4 | kind::NET4 | kind::BROADCAST | kind::MULTICAST, _) => row(IPV4, None, None),
        (kind::HOST6 | kind::NET6 | kind::MULTICAST6, _) => row(IPV6, None, None),
        (kind::ETHER_PROTOCOL, _) => row(half(r, A), None, None),
        (kind::PORT | kind::RANGE, protocol) => [None, None, None, set_of(protocol)],
        _ => NONE,
    }
}

// ── Steps ────────────────────────────────────────────────────────────────────

/// An instruction; where it compares, the outcome that is a failure.
pub struct Step(pub u16, pub u32, pub Option<bool>);

pub fn equal(load: u16, at: u32, wanted: u32) -> Vec<Step> {
    vec![Step(load, at, None), Step(code::JEQ, wanted, Some(false))]
}

fn masked(load: u16, at: u32, mask: u32, wanted: u32) -> Vec<Step> {
    let mut steps = equal(load, at, wanted & mask);
    steps.insert(1, Step(code::AND, mask, None));
    steps
}

fn in_range(at: u32, low: u32, high: u32) -> Vec<Step> {
    vec![
        Step(code::LDH_AT_X, at, None),
        Step(code::JGE, low, Some(false)),
        Step(code::JGT, high, Some(true)),
    ]
}

/// The segments that a prefix looks at, the last under a mask if the prefix ends within it.
fn segments(r: Record, at: u32, prefix: u32) -> Vec<Step> {
    const BITS: u32 = 16;
    const ALL: u32 = 0xFFFF;
    let segment = |i: u32| {
        let (place, wanted) = (at + 2 * i, half(r, ADDRESS + 2 * i as usize));
        match prefix - BITS * i {
            bits @ 1..BITS => masked(code::LDH, place, ALL << (BITS - bits) & ALL, wanted),
            _ => equal(code::LDH, place, wanted),
        }
    };
    (0..prefix.div_ceil(BITS)).flat_map(segment).collect()
}

/// A word and a half.
fn ether_address(r: Record, at: u32) -> Vec<Step> {
    const WORD: usize = 4;
    let mut steps = equal(code::LDW, at, word(r, ADDRESS));
    steps.extend(equal(code::LDH, at + WORD as u32, half(r, ADDRESS + WORD)));
    steps
}

/// T-03: the length of the sender's address comes first.
fn sender(r: Record) -> Vec<Step> {
    let mut steps = equal(code::LDH, SENDER_LENGTH, ETHER_BYTES);
    steps.extend(ether_address(r, SENDER));
    steps
}

// ── Conditions ───────────────────────────────────────────────────────────────

/// The direction that is asked for, and the two sides of an address or port in the order of
/// their tests. A short side ends in its only comparison, which for either leads to yes.
pub struct Sides {
    pub direction: u8,
    pub order: [u8; 2],
    pub short: bool,
    pub steps: [Vec<Step>; 2],
}

/// What comes after the tests that a condition starts with.
pub enum Rest {
    Steps(Vec<Step>),
    Sides(Sides),
}

fn sides(r: Record, short: bool, places: [u32; 2], side: impl Fn(u32) -> Vec<Step>) -> Rest {
    Rest::Sides(Sides {
        direction: r[DIRECTION],
        order: [SOURCE, DESTINATION],
        short,
        steps: places.map(side),
    })
}

fn ether_host(link: u8, r: Record) -> Result<Rest, Number> {
    match (link, r[DIRECTION]) {
        (RAW_IP, _) => Err(ETHER_ON_RAW),
        (COOKED, SOURCE) => Ok(Rest::Steps(sender(r))),
        (COOKED, _) => Err(COOKED_ADDRESS),
        (_, direction) => Ok(Rest::Sides(Sides {
            direction,
            order: [DESTINATION, SOURCE],
            short: false,
            steps: ETHER_SIDES.map(|at| ether_address(r, at)),
        })),
    }
}

fn ether_multicast(link: u8) -> Result<Vec<Step>, Number> {
    const GROUP_BIT: u32 = 1;
    let bit = Step(code::JSET, GROUP_BIT, Some(false));
    match link {
        RAW_IP => Err(ETHER_ON_RAW),
        COOKED => Err(COOKED_ADDRESS),
        _ => Ok(vec![Step(code::LDB, ETHER_SIDES[0], None), bit]),
    }
}

/// The sides of a host or net, from the network header on.
fn address(r: Record, n: u32) -> Rest {
    const WHOLE: u32 = 128;
    let (places4, places6) = (SIDES4.map(|at| n + at), SIDES6.map(|at| n + at));
    let (address, mask) = (word(r, ADDRESS), word(r, MASK));
    match r[KIND] {
        kind::HOST4 => sides(r, true, places4, |at| equal(code::LDW, at, address)),
        kind::NET4 => sides(r, true, places4, |at| masked(code::LDW, at, mask, address)),
        kind::HOST6 => sides(r, false, places6, |at| segments(r, at, WHOLE)),
        _ => sides(r, false, places6, |at| {
            segments(r, at, WHOLE.min(r[SMALL] as u32))
        }),
    }
}

/// The sides of a port or range, read behind X.
fn port(r: Record, n: u32) -> Result<Rest, Number> {
    set_of(r[PROTOCOL_BYTE]).ok_or(PORT_PROTOCOL)?;
    let (places, low, high) = (SIDES_OF_PORTS.map(|at| n + at), half(r, A), half(r, B));
    Ok(match r[KIND] {
        kind::PORT => sides(r, true, places, |at| equal(code::LDH_AT_X, at, low)),
        _ => sides(r, false, places, |at| in_range(at, low, high)),
    })
}

/// The rest of a condition on a link whose network header starts at n, or the refusal that
/// the condition itself is met with.
pub fn rest(link: u8, n: u32, r: Record) -> Result<Rest, Number> {
    const CLASS_D: [u32; 2] = [0xF000_0000, 0xE000_0000];
    const BROADCAST: u32 = u32::MAX;
    const MULTICAST6: u32 = 0xFF;
    let ([_, to4], [_, to6]) = (SIDES4.map(|at| n + at), SIDES6.map(|at| n + at));
    Ok(Rest::Steps(match r[KIND] {
        kind::HOST4 | kind::NET4 | kind::HOST6 | kind::NET6 => return Ok(address(r, n)),
        kind::PORT | kind::RANGE => return port(r, n),
        kind::ETHER_HOST => return ether_host(link, r),
        kind::ETHER_MULTICAST => ether_multicast(link)?,
        kind::BROADCAST => equal(code::LDW, to4, BROADCAST),
        kind::MULTICAST => masked(code::LDW, to4, CLASS_D[0], CLASS_D[1]),
        kind::MULTICAST6 => equal(code::LDB, to6, MULTICAST6),
        _ => Vec::new(),
    }))
}
