//! A condition in pcap-filter's words of the same meaning.
//!
//! Each can be said in two ways: by the word that pcap-filter has for it, and by the bytes of the
//! frame. Where the word means something else (D-01 to D-19 of docs/DIFFERENCES.md), other words
//! are added that take the rest away, or the bytes are named both times.

use std::net::{Ipv4Addr, Ipv6Addr};

use crate::tree::Leaf;

const ETHERNET: u8 = 1;
const RAWIP: u8 = 2;
const SLL: u8 = 3;
const IP: u16 = 0x0800;
const IP6: u16 = 0x86dd;
/// AppleTalk and its ARP, which libpcap looks for in SNAP too.
const IN_SNAP: [u16; 2] = [0x809b, 0x80f3];
/// Up to this libpcap takes a type as a SAP of 802.2.
const MOST_SAP: u16 = 1500;
/// Where IPv4 and IPv6 have source and destination.
const SIDES4: [usize; 2] = [12, 16];
const SIDES6: [usize; 2] = [8, 24];

pub fn condition(link: u8, leaf: &Leaf) -> String {
    let (r, bytes) = (&leaf.record, leaf.by_bytes);
    match r[0] {
        10 => protocol(link, r[2], r[3], bytes),
        11 => net4(r, word(&r[8..]), !0, bytes),
        12 => net6(r, 128, bytes),
        13 => net4(r, word(&r[8..]), word(&r[12..]), bytes),
        14 => net6(r, r[3].min(128), bytes),
        15 => ports(r, half(&r[4..]), half(&r[4..]), bytes),
        16 => ports(r, half(&r[4..]), half(&r[6..]), bytes),
        17 if link == SLL => sender(r),
        17 => ether_host(r, bytes),
        18 => ether_type(link, half(&r[4..]), bytes),
        19 if bytes => "ether[0] & 1 != 0".into(),
        19 => "ether multicast".into(),
        20 if bytes => "ip[16:4] = 0xffffffff".into(),
        20 => "ip dst host 255.255.255.255".into(),
        21 if bytes => "(ip multicast and ip[16] < 240)".into(),
        21 => "ip dst net 224.0.0.0/4".into(),
        22 if bytes => "ip6[24] = 255".into(),
        22 => "ip6 multicast".into(),
        23 => number(IP, r[3], bytes),
        _ => number(IP6, r[3], bytes),
    }
}

fn half(bytes: &[u8]) -> u16 {
    u16::from_be_bytes([bytes[0], bytes[1]])
}

fn word(bytes: &[u8]) -> u32 {
    u32::from_be_bytes([bytes[0], bytes[1], bytes[2], bytes[3]])
}

/// pcap-filter's words for a direction.
fn qualifier(direction: u8) -> &'static str {
    ["src or dst", "src", "dst", "src and dst"][direction as usize]
}

/// A test of the source and one of the destination, as a direction wants them.
fn by_direction(direction: u8, [source, destination]: [String; 2]) -> String {
    match direction {
        0 => format!("({source} or {destination})"),
        1 => format!("({source})"),
        2 => format!("({destination})"),
        _ => format!("({source} and {destination})"),
    }
}

// ── Protocols and types ──────────────────────────────────────────────────────

fn protocol(link: u8, protocol: u8, small: u8, bytes: bool) -> String {
    match protocol {
        1 => ether_type(link, IP, bytes),
        2 => ether_type(link, IP6, bytes),
        3 => ether_type(link, 0x0806, bytes),
        4 => ether_type(link, 0x8035, bytes),
        5 => number(IP, 6, bytes),
        6 => number(IP, 17, bytes),
        7 => number(IP, 1, bytes),
        8 => number(IP6, 58, bytes),
        9 => number(IP, 2, bytes),
        10 => number(IP, 132, bytes),
        11 => number(IP, small, bytes),
        _ => number(IP6, small, bytes),
    }
}

/// An IPv4 protocol or IPv6 next header. `ip6 proto` looks past a fragment header (D-08).
fn number(kind: u16, number: u8, bytes: bool) -> String {
    match (kind, bytes) {
        (IP, true) => format!("ip[9] = {number}"),
        (IP, false) => format!("ip proto {number}"),
        (_, true) => format!("ip6[6] = {number}"),
        (_, false) => format!("(ip6 proto {number} and ip6[6] = {number})"),
    }
}

fn ether_type(link: u8, kind: u16, bytes: bool) -> String {
    let named = match kind {
        IP => "ip".into(),
        IP6 => "ip6".into(),
        0x0806 => "arp".into(),
        0x8035 => "rarp".into(),
        _ => format!("ether proto {kind:#06x}"),
    };
    match link {
        RAWIP if bytes => format!("ether proto {kind:#06x}"),
        RAWIP => named,
        _ if !bytes && kind > MOST_SAP && !IN_SNAP.contains(&kind) => named,
        ETHERNET => format!("ether[12:2] = {kind:#06x}"),
        _ => format!("ether[14:2] = {kind:#06x}"),
    }
}

// ── Addresses ────────────────────────────────────────────────────────────────

fn net4(r: &[u8], address: u32, mask: u32, bytes: bool) -> String {
    let (masked, direction) = (address & mask, qualifier(r[1]));
    if bytes {
        let test = |at| under_mask(r[0] == 13, "ip", at, masked, mask);
        return by_direction(r[1], SIDES4.map(test));
    }
    let host = Ipv4Addr::from(masked);
    match mask {
        0xffff_ffff => format!("ip {direction} host {host}"),
        _ => format!("ip {direction} net {host} mask {}", Ipv4Addr::from(mask)),
    }
}

fn net6(r: &[u8], prefix: u8, bytes: bool) -> String {
    let address = u128::from_be_bytes(r[8..24].try_into().expect("sixteen bytes"));
    let mask = u128::MAX.checked_shl(128 - prefix as u32).unwrap_or(0);
    let masked = address & mask;
    if bytes {
        let test = |at| four_words(r[0] == 14, at, masked, mask);
        return by_direction(r[1], SIDES6.map(test));
    }
    let (direction, host) = (qualifier(r[1]), Ipv6Addr::from(masked));
    match prefix {
        128 => format!("ip6 {direction} host {host}"),
        _ => format!("ip6 {direction} net {host}/{prefix}"),
    }
}

/// A word of a header; of nets under the mask, be it full.
fn under_mask(net: bool, header: &str, at: usize, value: u32, mask: u32) -> String {
    match net {
        true => format!("{header}[{at}:4] & {mask:#010x} = {value:#010x}"),
        false => format!("{header}[{at}:4] = {value:#010x}"),
    }
}

/// An address of the IPv6 header.
fn four_words(net: bool, at: usize, address: u128, mask: u128) -> String {
    let part = |value: u128, i: usize| (value >> (96 - 32 * i)) as u32;
    let test = |i| under_mask(net, "ip6", at + 4 * i, part(address, i), part(mask, i));
    format!("({})", [0, 1, 2, 3].map(test).join(" and "))
}

fn ether_host(r: &[u8], bytes: bool) -> String {
    if bytes {
        return by_direction(r[1], [6, 0].map(|at| ether_bytes(r, at)));
    }
    let address: Vec<String> = r[8..14].iter().map(|b| format!("{b:02x}")).collect();
    format!("ether {} host {}", qualifier(r[1]), address.join(":"))
}

/// The source of cooked frames, for which libpcap has no word; they have no other address (D-18).
fn sender(r: &[u8]) -> String {
    format!("(ether[4:2] = 6 and {})", ether_bytes(r, 6))
}

/// An ether address at a place of the frame.
fn ether_bytes(r: &[u8], at: usize) -> String {
    let (front, back) = (word(&r[8..]), half(&r[12..]));
    let rest = at + 4;
    format!("(ether[{at}:4] = {front:#010x} and ether[{rest}:2] = {back:#06x})")
}

// ── Ports ────────────────────────────────────────────────────────────────────

/// Of low above high only the bytes say what is meant; libpcap exchanges the two (D-10).
fn ports(r: &[u8], low: u16, high: u16, bytes: bool) -> String {
    let set: &[(&str, u8)] = match r[2] {
        5 => &[("tcp", 6)],
        6 => &[("udp", 17)],
        10 => &[("sctp", 132)],
        _ => &[("tcp", 6), ("udp", 17)],
    };
    let one = |&(name, number): &(&str, u8)| match bytes || low > high {
        true => ports_by_bytes(r[1], name, number, low, high),
        false => named_ports(r, name, low, high),
    };
    let all: Vec<String> = set.iter().map(one).collect();
    format!("({})", all.join(" or "))
}

fn named_ports(r: &[u8], name: &str, low: u16, high: u16) -> String {
    let direction = qualifier(r[1]);
    match r[0] {
        15 => format!("{name} {direction} port {low}"),
        _ => format!("{name} {direction} portrange {low}-{high}"),
    }
}

/// `tcp[..]` is of IPv4 and not of a later fragment.
fn ports_by_bytes(direction: u8, name: &str, number: u8, low: u16, high: u16) -> String {
    let test = |header: &str, at: usize| match low == high {
        true => format!("{header}[{at}:2] = {low}"),
        false => format!("({header}[{at}:2] >= {low} and {header}[{at}:2] <= {high})"),
    };
    let four = by_direction(direction, [test(name, 0), test(name, 2)]);
    let six = by_direction(direction, [test("ip6", 40), test("ip6", 42)]);
    format!("({four} or (ip6[6] = {number} and {six}))")
}
