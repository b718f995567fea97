// What the published Rust answers for tree files and frames, to be included at
// the root of a driver.
//
// `codegen`, `ast`, `bpf` and `vm` are the published modules, put beside this
// file by tools/oracle/copies. The modules `error` and `optimizer` below are
// stand-ins. The tree file and its checks 1 to 4 are no part of the Rust;
// they are written here from document 01. Cooked trees are not the Rust's any
// more; `second` answers for them.

use std::net::{IpAddr, Ipv4Addr, Ipv6Addr};
use std::ops::Range;

use ast::{Dir, Expr, IpNet, Ipv6Net, MacAddr, Primitive, Proto};
use bpf::Insn;
use codegen::LinkType;

#[allow(dead_code)]
mod ast;
#[allow(dead_code, unexpected_cfgs)]
mod bpf;
#[allow(dead_code)]
mod codegen;
mod second;
#[allow(dead_code)]
mod vm;

/// Stand-in: the one variant that codegen.rs uses.
mod error {
    pub enum Error {
        CodegenError { message: String },
    }
    pub type Result<T> = std::result::Result<T, Error>;
}

/// Stand-in: leaves the instructions as they were gathered.
mod optimizer {
    pub fn optimize(_insns: &mut Vec<crate::bpf::Insn>) {}
}

const HEADER: usize = 8;
const LINK: usize = 5;
const RECORD: usize = 24;
const INSN: usize = 8;
const MAX_RECORDS: usize = 128;
const MAX_FRAME: usize = 65_535;
const MAX_PROGRAM: usize = 32_768;

/// A refusal's number, as document 01 fixes it.
type Number = u32;

// ── Checks 1 to 4 ────────────────────────────────────────────────────────────

/// Check 1: eight bytes, mark, version 1, link.
fn link_of(file: &[u8]) -> Result<LinkType, Number> {
    if file.len() < HEADER || file[..5] != *b"PFT\x00\x01" {
        return Err(1);
    }
    match file[LINK] {
        1 => Ok(LinkType::Ethernet),
        2 => Ok(LinkType::RawIp),
        3 => Ok(LinkType::LinuxSll),
        _ => Err(1),
    }
}

/// Check 2: the count, and the length that belongs to it.
fn records_of(file: &[u8]) -> Result<Vec<&[u8]>, Number> {
    let count = half(&file[6..8]) as usize;
    if count == 0 || count > MAX_RECORDS || file.len() != HEADER + RECORD * count {
        return Err(2);
    }
    Ok(file[HEADER..].chunks_exact(RECORD).collect())
}

/// The bytes that a kind uses besides byte 0. `tail` lies within 4 to 23.
struct Use {
    direction: bool,
    protocol: bool,
    small: bool,
    tail: Range<usize>,
}

/// The table of kinds, or none for an unknown one.
fn use_of(kind: u8) -> Option<Use> {
    let (direction, protocol, small, tail) = match kind {
        1..=3 | 19..=22 => (false, false, false, 4..4),
        10 => (false, true, false, 4..4),
        11 => (true, false, false, 8..12),
        12 => (true, false, false, 8..24),
        13 => (true, false, false, 8..16),
        14 => (true, false, true, 8..24),
        15 => (true, true, false, 4..6),
        16 => (true, true, false, 4..8),
        17 => (true, false, false, 8..14),
        18 => (false, false, false, 4..6),
        23 | 24 => (false, false, true, 4..4),
        _ => return None,
    };
    Some(Use {
        direction,
        protocol,
        small,
        tail,
    })
}

/// Check 3 for one record.
fn good_record(r: &[u8]) -> bool {
    let Some(u) = use_of(r[0]) else { return false };
    let direction = r[1] == 0 || u.direction && r[1] <= 3;
    let protocol = if u.protocol {
        // Only ports and ranges may name none.
        r[2] <= 12 && (r[2] != 0 || r[0] != 10)
    } else {
        r[2] == 0
    };
    let small = r[3] == 0 || u.small || u.protocol && (r[2] == 11 || r[2] == 12);
    let tail = (4..RECORD).all(|i| u.tail.contains(&i) || r[i] == 0);
    direction && protocol && small && tail
}

/// How many parts a record has.
fn parts(r: &[u8]) -> usize {
    match r[0] {
        1 | 2 => 2,
        3 => 1,
        _ => 0,
    }
}

/// Check 4: prefix reading ends at the last record and not before.
fn one_tree(records: &[&[u8]]) -> bool {
    let mut open = 1;
    for r in records {
        if open == 0 {
            return false;
        }
        open = open - 1 + parts(r);
    }
    open == 0
}

/// Checks 1, 2, 3, 4, each over the whole file before the next.
fn check(file: &[u8]) -> Result<(LinkType, Vec<&[u8]>), Number> {
    let link = link_of(file)?;
    let records = records_of(file)?;
    if !records.iter().all(|r| good_record(r)) {
        return Err(3);
    }
    if !one_tree(&records) {
        return Err(4);
    }
    Ok((link, records))
}

// ── From records to the Rust's own tree ──────────────────────────────────────

fn half(b: &[u8]) -> u16 {
    u16::from_be_bytes([b[0], b[1]])
}

fn word(b: &[u8]) -> u32 {
    u32::from_be_bytes([b[0], b[1], b[2], b[3]])
}

fn dir_of(r: &[u8]) -> Dir {
    match r[1] {
        0 => Dir::SrcOrDst,
        1 => Dir::Src,
        2 => Dir::Dst,
        3 => Dir::SrcAndDst,
        _ => unreachable!("check 3"),
    }
}

fn proto_of(r: &[u8]) -> Option<Proto> {
    Some(match r[2] {
        0 => return None,
        1 => Proto::Ip,
        2 => Proto::Ip6,
        3 => Proto::Arp,
        4 => Proto::Rarp,
        5 => Proto::Tcp,
        6 => Proto::Udp,
        7 => Proto::Icmp,
        8 => Proto::Icmp6,
        9 => Proto::Igmp,
        10 => Proto::Sctp,
        11 => Proto::Num(r[3]),
        12 => Proto::Ip6Proto(r[3]),
        _ => unreachable!("check 3"),
    })
}

fn addr4(r: &[u8]) -> Ipv4Addr {
    Ipv4Addr::from(word(&r[8..12]))
}

fn addr6(r: &[u8]) -> Ipv6Addr {
    let b: [u8; 16] = r[8..24].try_into().expect("sixteen bytes");
    Ipv6Addr::from(b)
}

fn net4(r: &[u8]) -> IpNet {
    IpNet {
        addr: addr4(r),
        mask: word(&r[12..16]),
    }
}

/// The prefix goes in as it stands; the Rust itself reads 129 to 255 as 128.
fn net6(r: &[u8]) -> Ipv6Net {
    Ipv6Net {
        addr: addr6(r),
        prefix_len: r[3],
    }
}

fn host(r: &[u8], addr: IpAddr) -> Primitive {
    Primitive::Host {
        addr,
        dir: dir_of(r),
    }
}

fn port(r: &[u8]) -> Primitive {
    Primitive::Port {
        port: half(&r[4..6]),
        dir: dir_of(r),
        proto: proto_of(r),
    }
}

fn port_range(r: &[u8]) -> Primitive {
    Primitive::PortRange {
        lo: half(&r[4..6]),
        hi: half(&r[6..8]),
        dir: dir_of(r),
        proto: proto_of(r),
    }
}

fn ether_host(r: &[u8]) -> Primitive {
    Primitive::EtherHost {
        addr: MacAddr(r[8..14].try_into().expect("six bytes")),
        dir: dir_of(r),
    }
}

fn leaf(r: &[u8]) -> Primitive {
    let dir = dir_of(r);
    match r[0] {
        10 => Primitive::Proto(proto_of(r).expect("check 3")),
        11 => host(r, IpAddr::V4(addr4(r))),
        12 => host(r, IpAddr::V6(addr6(r))),
        13 => Primitive::Net { net: net4(r), dir },
        14 => Primitive::Net6 { net: net6(r), dir },
        15 => port(r),
        16 => port_range(r),
        17 => ether_host(r),
        18 => Primitive::EtherProto(half(&r[4..6])),
        19 => Primitive::EtherMulticast,
        20 => Primitive::IpBroadcast,
        21 => Primitive::IpMulticast,
        22 => Primitive::Ip6Multicast,
        23 => Primitive::IpProtoChain(r[3]),
        24 => Primitive::Ip6ProtoChain(r[3]),
        _ => unreachable!("check 3"),
    }
}

/// Takes one tree's records off the front: a node, its left part, its right.
fn tree(records: &mut std::vec::IntoIter<&[u8]>) -> Expr {
    let r = records.next().expect("check 4");
    let mut part = || Box::new(tree(records));
    match r[0] {
        1 => Expr::And(part(), part()),
        2 => Expr::Or(part(), part()),
        3 => Expr::Not(part()),
        _ => Expr::Primitive(leaf(r)),
    }
}

// ── The two answers ──────────────────────────────────────────────────────────

/// Ends with 2: nothing was answered.
fn fail(message: &str) -> ! {
    let program = std::env::args().next().unwrap_or_default();
    eprintln!("{program}: {message}");
    std::process::exit(2)
}

/// The number of an error of the Rust, by its text.
fn number_of(message: &str) -> Number {
    let inside = |start, end| message.starts_with(start) && message.ends_with(end);
    match message {
        "ether host cannot be used with RawIp link type" => 7,
        "ether multicast cannot be used with RawIp link type" => 7,
        "filter expression is too complex: BPF jump offset exceeds 255 instructions" => 8,
        _ if inside("ethertype 0x", " cannot be matched on RawIp captures") => 5,
        _ if inside("port filter with proto ", " is not supported") => 6,
        _ => fail(&format!("unknown error of the Rust: {message}")),
    }
}

/// What the unchanged Rust makes of records that checks 1 to 4 let through.
fn rust_program(link: LinkType, records: Vec<&[u8]>) -> Result<Vec<Insn>, Number> {
    match codegen::compile(&tree(&mut records.into_iter()), link) {
        Ok(program) => Ok(program.instructions().to_vec()),
        Err(error::Error::CodegenError { message }) => Err(number_of(&message)),
    }
}

/// T-03: ether addresses on LinuxSll are not what the Rust makes of them.
fn is_cooked(link: LinkType, records: &[&[u8]]) -> bool {
    const ETHER_ADDRESSES: [u8; 2] = [17, 19];
    link == LinkType::LinuxSll && records.iter().any(|r| ETHER_ADDRESSES.contains(&r[0]))
}

/// The instructions for a tree file, or the number that turns it down: by the Rust, but for
/// cooked trees.
fn build(file: &[u8]) -> Result<Vec<Insn>, Number> {
    let (link, records) = check(file)?;
    if is_cooked(link, &records) {
        return second::program(file[LINK], &records);
    }
    rust_program(link, records)
}

fn insn(b: &[u8]) -> Insn {
    Insn {
        code: u16::from_le_bytes([b[0], b[1]]),
        jt: b[2],
        jf: b[3],
        k: u32::from_le_bytes([b[4], b[5], b[6], b[7]]),
    }
}

/// The verdict of `inner`, or the number that turns the run down: 11, then 10.
fn run(program: &[u8], frame: &[u8]) -> Result<Option<bool>, Number> {
    if program.is_empty() || program.len() > MAX_PROGRAM || program.len() % INSN != 0 {
        return Err(11);
    }
    if frame.len() > MAX_FRAME {
        return Err(10);
    }
    let insns: Vec<Insn> = program.chunks_exact(INSN).map(insn).collect();
    Ok(vm::verdict(&insns, frame))
}
