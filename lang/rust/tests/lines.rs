//! Typed lines: the files that they give, what these mean, and each refusal with its place. What a
//! line has to give is laid out by `common`, which shares nothing with the crate.

mod common;

use common::*;
use dabberpearl::{conditions, type_line, Link, Program, Refusal, Tree, TypeError, MAX_TREE};

/// A file, or the number of a refusal and its place.
type Answer = Result<Vec<u8>, (u32, usize)>;

/// Types a line into an array that holds other bytes; all of them are written.
fn typed_for(link: u8, line: &[u8]) -> Answer {
    let mut tree = [0x5a; MAX_TREE];
    let answer = type_line(link, line, &mut tree);
    let length = *answer.as_ref().unwrap_or(&0);
    assert!(
        tree[length..].iter().all(|&b| b == 0),
        "a byte past the file"
    );
    match answer {
        Ok(length) => Ok(tree[..length].to_vec()),
        Err(error) => Err((
            error.error().number().expect("a refusal"),
            error.place().unwrap_or(0),
        )),
    }
}

fn typed(line: impl AsRef<[u8]>) -> Answer {
    typed_for(ETHERNET, line.as_ref())
}

fn error_of(line: impl AsRef<[u8]>) -> TypeError {
    Tree::typed(Link::Ethernet, line).expect_err("a refused line")
}

fn gives(line: &str, records: Vec<Record>) {
    assert_eq!(typed(line), Ok(file(ETHERNET, records)), "{line}");
}

const A: [u8; 4] = [10, 20, 0, 5];

// ---- what a line gives

#[test]
fn single_conditions() {
    for (word, p) in [
        ("ip", IP),
        ("ip6", IP6),
        ("arp", ARP),
        ("rarp", RARP),
        ("tcp", TCP),
        ("udp", UDP),
        ("icmp", ICMP),
        ("sctp", SCTP),
    ] {
        gives(word, protocol(p));
    }
    for (words, direction) in [("", EITHER), ("src ", SOURCE), ("dst ", DESTINATION)] {
        gives(&format!("{words}host 10.20.0.5"), host(direction, A));
        gives(&format!("{words}port 53"), port(direction, NONE, 53));
        gives(&format!("tcp {words}port 80"), port(direction, TCP, 80));
        gives(&format!("udp {words}port 80"), port(direction, UDP, 80));
        gives(&format!("sctp {words}port 80"), port(direction, SCTP, 80));
    }
}

#[test]
fn joins() {
    let [a, b, c] = [IP, UDP, TCP].map(protocol);
    let [a, b, c] = [&a, &b, &c].map(|leaf| || leaf.clone());
    gives("ip and udp", and(a(), b()));
    gives("ip or udp", or(a(), b()));
    gives("ip and udp and tcp", and(and(a(), b()), c()));
    gives("ip or udp or tcp", or(or(a(), b()), c()));
    gives("ip or udp and tcp", and(or(a(), b()), c()));
    gives("ip and udp or tcp", or(and(a(), b()), c()));
    gives("ip or ( udp and tcp )", or(a(), and(b(), c())));
    gives("ip and ( udp and tcp )", and(a(), and(b(), c())));
    gives("not ip and udp", and(not(a()), b()));
    gives("ip or not udp and tcp", and(or(a(), not(b())), c()));
    gives("not ( ip and udp )", not(and(a(), b())));
    gives("not not ip", not(not(a())));
    gives("not ( not ip )", not(not(a())));
    gives("( ( ip ) )", a());
    gives(
        "( ip or udp ) and ( tcp or ip )",
        and(or(a(), b()), or(c(), a())),
    );
    gives("tcp and port 80", and(c(), port(EITHER, NONE, 80)));
    gives(
        "tcp or tcp port 80 or tcp",
        or(or(c(), port(EITHER, TCP, 80)), c()),
    );
}

#[test]
fn spaces() {
    let tree = Ok(file(
        ETHERNET,
        and(protocol(TCP), port(DESTINATION, NONE, 80)),
    ));
    assert_eq!(typed("tcp and dst port 80"), tree);
    assert_eq!(typed("   tcp  and dst     port 80 "), tree);
    for byte in (0..=255).filter(|&byte| byte != b' ') {
        let line = [b"ip", &[byte][..], b"and ip"].concat();
        assert_eq!(typed(line), Err((16, 0)), "byte {byte} is no space");
        let line = [b"ip ", &[byte][..]].concat();
        let wanted = if byte.is_ascii_digit() || b"()".contains(&byte) {
            17
        } else {
            16
        };
        assert_eq!(typed(line), Err((wanted, 3)), "byte {byte}");
    }
}

#[test]
fn numbers() {
    for number in [
        0, 1, 9, 10, 80, 99, 100, 9_999, 10_000, 59_999, 65_529, 65_535,
    ] {
        gives(&format!("port {number}"), port(EITHER, NONE, number));
    }
    let words = "65536 65537 65540 70000 99999 100000 655350 00 01 080 0080 +80 -80 80. 0x50 8o \
        65616 4294967376 18446744073709551696 99999999999999999999999999 1e1";
    for word in words.split(' ') {
        assert_eq!(typed(format!("port {word}")), Err((16, 5)), "{word}");
    }
}

#[test]
fn addresses() {
    for address in [
        [0; 4],
        [255; 4],
        [1, 2, 3, 4],
        [10, 0, 200, 99],
        [249, 250, 100, 9],
    ] {
        let [a, b, c, d] = address;
        gives(&format!("host {a}.{b}.{c}.{d}"), host(EITHER, address));
    }
    let words = "1.2.3 1.2.3. .1.2.3 1.2.3.4. 1.2.3.4.5 1..2.3 1.2..3.4 ... 1.2.3.256 256.2.3.4 \
        300.1.1.1 1.2.3.04 01.2.3.4 1.00.3.4 1.2.3.4294967300 1.266.3.4 \
        1.2.3.18446744073709551620 1,2,3,4 a.b.c.d 1.2.3.4/32 1.2.3.+4 ::1 localhost";
    for word in words.split(' ') {
        assert_eq!(typed(format!("host {word}")), Err((16, 5)), "{word}");
    }
}

// ---- what is refused, and where

#[test]
fn unknown_words() {
    for (line, place) in [
        ("prot 80", 0),
        ("tcp and prot 80", 8),
        ("  TCP", 2),
        ("tc", 0),
        ("tcpp", 0),
        ("ip60", 0),
        ("(ip)", 0),
        ("( ip)", 2),
        ("((", 0),
        ("()", 0),
        ("! ip", 0),
        ("ip && ip", 3),
        ("ip || ip", 3),
        ("ip & ip", 3),
        ("ip, ip", 0),
        ("icmp6", 0),
        ("net 10.0.0.0/8", 0),
        ("ether host 02:00:00:00:00:01", 0),
        ("port http", 5),
        ("host drive", 5),
        ("portrange 1-2", 0),
    ] {
        assert_eq!(typed(line), Err((16, place)), "{line}");
    }
    assert_eq!(typed(b"ip\0"), Err((16, 0)));
    assert_eq!(typed(b"ip and \xff\xfe"), Err((16, 7)));
    assert_eq!(typed("ip and ü"), Err((16, 7)));
}

#[test]
fn unfinished_lines() {
    for (line, place) in [
        ("", 0),
        ("   ", 3),
        ("and", 0),
        ("ip and", 6),
        ("ip and  ", 8),
        ("ip ip", 3),
        ("ip and or ip", 7),
        ("not", 3),
        ("ip not ip", 3),
        ("not and ip", 4),
        ("(", 1),
        ("( )", 2),
        (")", 0),
        ("ip )", 3),
        ("( ip", 4),
        ("( ip ) )", 7),
        ("( ip ) ip", 7),
        ("( ip ) ( ip )", 7),
        ("host", 4),
        ("host 80", 5),
        ("host host", 5),
        ("port", 4),
        ("port 1.2.3.4", 5),
        ("port port", 5),
        ("port 80 443", 8),
        ("port 80 or 443", 11),
        ("10.0.0.1", 0),
        ("80", 0),
        ("src", 3),
        ("src 10.0.0.1", 4),
        ("src dst port 80", 4),
        ("src or dst port 80", 4),
        ("src tcp port 80", 4),
        ("src ip", 4),
        ("src ( port 80 )", 4),
        ("tcp 80", 4),
        ("tcp host 10.0.0.1", 4),
        ("tcp src host 10.0.0.1", 8),
        ("tcp src", 7),
        ("tcp src and", 8),
        ("tcp udp", 4),
        ("tcp not", 4),
        ("tcp ( port 80 )", 4),
        ("icmp port 80", 5),
        ("ip host 10.0.0.1", 3),
        ("ip src", 3),
    ] {
        assert_eq!(typed(line), Err((17, place)), "{line:?}");
    }
}

/// The earliest place decides, whatever is refused there; 18 is for a line that has neither.
#[test]
fn in_order() {
    assert_eq!(typed("ip ip prot"), Err((17, 3)));
    assert_eq!(typed("ip prot ip ip"), Err((16, 3)));
    assert_eq!(typed("src and dst port http"), Err((17, 4)));
    assert_eq!(
        typed("host 300.1.1.1"),
        Err((16, 5)),
        "16 and 17 at one place"
    );
    assert_eq!(
        typed("ip 300.1.1.1"),
        Err((16, 3)),
        "16 and 17 at one place"
    );
    let large = vec!["ip"; 65].join(" and ");
    assert_eq!(typed(&large), Err((18, 0)));
    assert_eq!(typed(format!("{large} prot")), Err((16, large.len() + 1)));
    assert_eq!(typed(format!("{large} ip")), Err((17, large.len() + 1)));
    assert_eq!(typed(format!("{large} and")), Err((17, large.len() + 4)));
}

#[test]
fn links() {
    for link in 0..=255 {
        let known = (1..=3).contains(&link);
        let wanted = if known {
            Ok(file(link, protocol(ARP)))
        } else {
            Err((1, 0))
        };
        assert_eq!(typed_for(link, b"arp"), wanted);
        assert_eq!(
            typed_for(link, b"prot"),
            Err((if known { 16 } else { 1 }, 0))
        );
        assert_eq!(typed_for(link, b""), Err((if known { 17 } else { 1 }, 0)));
    }
    for link in [Link::Ethernet, Link::RawIp, Link::LinuxSll] {
        let tree = Tree::typed(link, "not udp").expect("a tree");
        assert_eq!(tree.link(), link);
        assert_eq!(Tree::try_from(tree.as_bytes()), Ok(tree));
    }
}

#[test]
fn most_records() {
    let nots = |count: usize| "not ".repeat(count) + "ip";
    let tree = typed(nots(127)).expect("128 records");
    assert_eq!(tree.len(), MAX_TREE);
    let mut records = vec![record(3); 127];
    records.extend(protocol(IP));
    assert_eq!(tree, file(ETHERNET, records));
    let joined = |count: usize| vec!["udp"; count].join(" or ");
    assert_eq!(typed(joined(64)).map(|tree| tree.len()), Ok(MAX_TREE - 24));
    assert_eq!(
        typed(format!("not {}", joined(64))).map(|tree| tree.len()),
        Ok(MAX_TREE)
    );
    for line in [
        nots(128),
        nots(129),
        nots(100_000),
        joined(65),
        joined(50_000),
    ] {
        assert_eq!(typed(&line), Err((18, 0)));
        assert_eq!(error_of(&line).to_string(), "refused 18, too large");
    }
}

#[test]
fn most_brackets() {
    let deep = |depth: usize| "( ".repeat(depth) + "ip" + &" )".repeat(depth);
    for depth in [1, 2, 127, 128] {
        gives(&deep(depth), protocol(IP));
    }
    for depth in [129, 130, 256, 50_000] {
        assert_eq!(typed(deep(depth)), Err((18, 0)), "{depth} brackets");
    }
    let two = format!("{} or {}", deep(128), deep(128));
    gives(&two, or(protocol(IP), protocol(IP)));
    assert_eq!(typed(format!("( {two} )")), Err((18, 0)));
    let open = "( ".repeat(300);
    assert_eq!(typed(&open), Err((17, 600)));
    assert_eq!(typed(format!("{}ip )", deep(128) + " ) ")), Err((17, 515)));
}

// ---- lines drawn

/// The words of a line, and the records that it gives.
type Drawn = (Vec<String>, Vec<Record>);

fn words(line: &str) -> Vec<String> {
    line.split(' ').map(String::from).collect()
}

fn drawn_condition(rng: &mut Rng) -> Drawn {
    let (side, direction) = [("", EITHER), ("src ", SOURCE), ("dst ", DESTINATION)][rng.below(3)];
    let (before, p) = [("", NONE), ("tcp ", TCP), ("udp ", UDP), ("sctp ", SCTP)][rng.below(4)];
    match rng.below(3) {
        0 => {
            let names = ["ip", "ip6", "arp", "rarp", "tcp", "udp", "icmp"];
            let place = rng.below(names.len() as u64);
            (words(names[place]), protocol(place as u8 + 1))
        }
        1 => {
            let address: [u8; 4] = std::array::from_fn(|_| rng.below(256) as u8);
            let [a, b, c, d] = address;
            (
                words(&format!("{side}host {a}.{b}.{c}.{d}")),
                host(direction, address),
            )
        }
        _ => {
            let number = rng.below(65_536) as u16;
            (
                words(&format!("{before}{side}port {number}")),
                port(direction, p, number),
            )
        }
    }
}

fn drawn_part(rng: &mut Rng, depth: usize) -> Drawn {
    match if depth == 0 { 0 } else { rng.below(4) } {
        0 | 1 => drawn_condition(rng),
        2 => {
            let (line, records) = drawn_part(rng, depth - 1);
            ([words("not"), line].concat(), not(records))
        }
        _ => {
            let (line, records) = drawn_line(rng, depth - 1);
            ([words("("), line, words(")")].concat(), records)
        }
    }
}

fn drawn_line(rng: &mut Rng, depth: usize) -> Drawn {
    let (mut line, mut records) = drawn_part(rng, depth);
    for _ in 0..rng.below(4) {
        let (next, part) = drawn_part(rng, depth);
        let (join, joined): (_, fn(_, _) -> _) =
            [("and", and as fn(_, _) -> _), ("or", or)][rng.below(2)];
        line = [line, words(join), next].concat();
        records = joined(records, part);
    }
    (line, records)
}

fn spaced(rng: &mut Rng, words: &[String]) -> String {
    let mut line = " ".repeat(rng.below(3));
    for word in words {
        line += word;
        line += &" ".repeat(1 + rng.below(3));
    }
    line
}

#[test]
fn drawn_lines() {
    let mut rng = Rng(4);
    for _ in 0..3_000 {
        let (line, records) = drawn_line(&mut rng, 3);
        let line = spaced(&mut rng, &line);
        let wanted = if records.len() > 128 {
            Err((18, 0))
        } else {
            Ok(file(ETHERNET, records))
        };
        assert_eq!(typed(&line), wanted, "{line}");
    }
}

/// What is told for a word of a line.
fn told(word: &str) -> &str {
    match word {
        _ if word.contains('.') => "an address",
        _ if word.starts_with(|c: char| c.is_ascii_digit()) => "a port number",
        _ => word,
    }
}

/// A drawn line up to each word: behind it a strange word is 16 at its place, where the line's own
/// word is among those that could follow; the end is, where the start alone is a line.
#[test]
fn drawn_starts() {
    let mut rng = Rng(5);
    for _ in 0..200 {
        let (line, _) = drawn_line(&mut rng, 2);
        for (i, word) in line.iter().enumerate() {
            let start = line[..i].join(" ") + " ";
            let error = error_of(format!("{start}prot ip ip"));
            assert_eq!(error.refusal(), Some(Refusal::UnknownWord));
            assert_eq!(error.place(), Some(start.len()));
            assert!(
                error.expected().any(|could| could == told(word)),
                "{start}{word}"
            );
            let ends = error.expected().any(|could| could == "the end");
            let alone = typed(&start).map(|_| ());
            assert_eq!(
                alone,
                if ends { Ok(()) } else { Err((17, start.len())) },
                "{start}"
            );
        }
    }
}

/// A tree in words, typed: the words that the crate displays are those that are typed.
#[test]
fn displayed_trees() {
    let mut rng = Rng(6);
    for _ in 0..500 {
        let (line, records) = drawn_line(&mut rng, 3);
        if records.len() > 128 {
            continue;
        }
        let tree = Tree::typed(Link::RawIp, line.join(" ")).expect("a tree");
        let shown = tree.root().to_string();
        assert_eq!(Tree::typed(Link::RawIp, &shown), Ok(tree), "{shown}");
    }
}

// ---- what a line means

/// An Ethernet frame of 78 bytes: ethertype, what stands at the network header's start, and ports.
fn frame(ethertype: u16, protocol: u8) -> Vec<u8> {
    let mut frame = vec![0; 78];
    frame[12..14].copy_from_slice(&ethertype.to_be_bytes());
    let (place, ports) = if ethertype == 0x86dd {
        (20, 54)
    } else {
        (23, 34)
    };
    frame[14] = 0x45;
    frame[place] = protocol;
    if ethertype != 0x86dd {
        frame[26..30].copy_from_slice(&A);
    }
    frame[ports..ports + 4].copy_from_slice(&[0x12, 0x34, 0, 80]);
    frame
}

/// Each line on frames of TCP, UDP and SCTP over IPv4, the same over IPv6, and ARP with the address.
#[test]
fn meanings() {
    let mut frames: Vec<Vec<u8>> = vec![];
    for ethertype in [0x0800, 0x86dd] {
        frames.extend([6, 17, 132].map(|protocol| frame(ethertype, protocol)));
    }
    let mut arp = frame(0x0806, 0);
    arp[28..32].copy_from_slice(&A);
    frames.push(arp);
    for (line, wanted) in [
        ("ip", "yyynnnn"),
        ("ip6", "nnnyyyn"),
        ("arp", "nnnnnny"),
        ("tcp", "ynnnnnn"), // not over IPv6
        ("udp", "nynnnnn"),
        ("sctp", "nnynnnn"),
        ("tcp port 80", "ynnynnn"),
        ("tcp and port 80", "ynnnnnn"),
        ("port 80", "yynyynn"), // not SCTP
        ("dst port 80", "yynyynn"),
        ("src port 80", "nnnnnnn"),
        ("src port 4660", "yynyynn"),
        ("sctp port 80", "nnynnyn"),
        ("host 10.20.0.5", "yyynnnn"), // not ARP
        ("src host 10.20.0.5", "yyynnnn"),
        ("dst host 10.20.0.5", "nnnnnnn"),
        ("not host 10.20.0.5", "nnnyyyy"),
        ("ip6 or tcp and port 80", "ynnyynn"),
        ("ip6 or ( tcp and port 80 )", "ynnyyyn"),
        ("not tcp and port 80", "nynyynn"),
    ] {
        let tree = Tree::typed(Link::Ethernet, line).expect("a tree");
        let program = Program::from_tree(&tree).expect("a program");
        for (frame, wanted) in frames.iter().zip(wanted.chars()) {
            assert_eq!(tree.holds(frame), Ok(wanted == 'y'), "{line}");
            assert_eq!(program.accepts(frame), wanted == 'y', "{line}");
        }
    }
}

/// A line that is a tree may still have no program.
#[test]
fn without_a_program() {
    let tree = Tree::typed(Link::RawIp, "ip6").expect("a tree");
    assert_eq!(
        tree,
        Tree::raw_ip(conditions::protocol(conditions::Ip6)).expect("a tree")
    );
    assert_eq!(Program::from_tree(&tree), Err(Refusal::KindOnRaw.into()));
}
