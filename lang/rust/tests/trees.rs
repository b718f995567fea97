//! Trees made, written, read, taken apart and put into words. What a tree has to look like is laid
//! out by hand, or by `common`, which shares nothing with the crate.

mod common;

use std::net::{IpAddr, Ipv6Addr};

use common::{far, file, random_tree, Rng, ETHERNET, RAW_IP};
use dabberpearl::conditions::*;
use dabberpearl::{direct, Error, Link, Mac, Part, Program, Record, Refusal, Tree, MAX_RECORDS};

const SIX: Ipv6Addr = Ipv6Addr::new(0x2001, 0xdb8, 0, 0, 0, 0, 0, 5);
const SIX_BYTES: &[u8] = &[0x20, 1, 0xd, 0xb8, 0, 0, 0, 0, 0, 0, 0, 0, 0, 0, 0, 5];

/// Bytes of a record's start, and of its address.
fn at_8(start: &[u8], address: &[u8]) -> Vec<u8> {
    let mut bytes = start.to_vec();
    bytes.resize(8, 0);
    bytes.extend(address);
    bytes
}

/// A single condition, the bytes of its record (zero after these) and its words.
type Single = (Condition, Vec<u8>, &'static str);

#[rustfmt::skip] // a line for each
fn protocols() -> Vec<Single> {
    vec![
        (protocol(Ip), vec![10, 0, 1], "ip"),
        (protocol(Ip6), vec![10, 0, 2], "ip6"),
        (protocol(Arp), vec![10, 0, 3], "arp"),
        (protocol(Rarp), vec![10, 0, 4], "rarp"),
        (protocol(Tcp), vec![10, 0, 5], "tcp"),
        (protocol(Udp), vec![10, 0, 6], "udp"),
        (protocol(Icmp), vec![10, 0, 7], "icmp"),
        (protocol(Icmp6), vec![10, 0, 8], "icmp6"),
        (protocol(Igmp), vec![10, 0, 9], "igmp"),
        (protocol(Sctp), vec![10, 0, 10], "sctp"),
        (protocol(Num(47)), vec![10, 0, 11, 47], "ip proto 47"),
        (protocol(Ip6Proto(58)), vec![10, 0, 12, 58], "ip6 proto 58"),
        (chain(6), vec![23, 0, 0, 6], "ip protochain 6"),
        (chain6(58), vec![24, 0, 0, 58], "ip6 protochain 58"),
    ]
}

#[rustfmt::skip] // a line for each
fn addresses() -> Vec<Single> {
    let third = net_mask(Both, [10, 0, 3, 0], [255, 0, 255, 0]);
    vec![
        (host(Either, [10, 0, 0, 1]), at_8(&[11], &[10, 0, 0, 1]), "host 10.0.0.1"),
        (host(Source, [10, 0, 0, 1]), at_8(&[11, 1], &[10, 0, 0, 1]), "src host 10.0.0.1"),
        (host(Destination, SIX), at_8(&[12, 2], SIX_BYTES), "dst host 2001:db8::5"),
        (host(Both, SIX), at_8(&[12, 3], SIX_BYTES), "src and dst host 2001:db8::5"),
        (net(Source, [10, 2, 0, 0], 16), at_8(&[13, 1], &[10, 2, 0, 0, 255, 255]), "src net 10.2.0.0/16"),
        (net(Either, [10, 2, 3, 4], 0), at_8(&[13], &[10, 2, 3, 4]), "net 10.2.3.4/0"),
        (net(Either, [10, 2, 3, 4], 31), at_8(&[13], &[10, 2, 3, 4, 255, 255, 255, 254]), "net 10.2.3.4/31"),
        (net(Either, [10, 2, 3, 4], 32), at_8(&[13], &[10, 2, 3, 4, 255, 255, 255, 255]), "net 10.2.3.4/32"),
        (net(Either, [10, 2, 3, 4], 255), at_8(&[13], &[10, 2, 3, 4, 255, 255, 255, 255]), "net 10.2.3.4/32"),
        (third, at_8(&[13, 3], &[10, 0, 3, 0, 255, 0, 255, 0]), "src and dst net 10.0.3.0 mask 255.0.255.0"),
        (net(Destination, SIX, 32), at_8(&[14, 2, 0, 32], SIX_BYTES), "dst net 2001:db8::5/32"),
        (net(Either, SIX, 255), at_8(&[14, 0, 0, 255], SIX_BYTES), "net 2001:db8::5/255"),
        (ether_host(Destination, [2, 0, 94, 16, 0, 1]), at_8(&[17, 2], &[2, 0, 94, 16, 0, 1]), "ether dst host 02:00:5e:10:00:01"),
        (ether_host(Either, Mac([255; 6])), at_8(&[17], &[255; 6]), "ether host ff:ff:ff:ff:ff:ff"),
    ]
}

#[rustfmt::skip] // a line for each
#[allow(clippy::reversed_empty_ranges)] // a file can say so
fn numbers() -> Vec<Single> {
    vec![
        (port(Either, None, 53), vec![15, 0, 0, 0, 0, 53], "port 53"),
        (port(Destination, Tcp, 0x1234), vec![15, 2, 5, 0, 0x12, 0x34], "tcp dst port 4660"),
        (port(Both, Num(9), 65_535), vec![15, 3, 11, 9, 255, 255], "ip proto 9 src and dst port 65535"),
        (ports(Source, Udp, 5000..=5010), vec![16, 1, 6, 0, 0x13, 0x88, 0x13, 0x92], "udp src portrange 5000-5010"),
        (ports(Either, None, 2..=1), vec![16, 0, 0, 0, 0, 2, 0, 1], "portrange 2-1"),
        (ether_protocol(0x88cc), vec![18, 0, 0, 0, 0x88, 0xcc], "ether proto 0x88cc"),
        (ether_protocol(6), vec![18, 0, 0, 0, 0, 6], "ether proto 0x0006"),
        (ether_multicast(), vec![19], "ether multicast"),
        (ip_broadcast(), vec![20], "ip broadcast"),
        (ip_multicast(), vec![21], "ip multicast"),
        (ip6_multicast(), vec![22], "ip6 multicast"),
    ]
}

fn singles() -> impl Iterator<Item = Single> {
    [protocols(), addresses(), numbers()].into_iter().flatten()
}

#[test]
fn single_conditions() {
    for (condition, mut bytes, words) in singles() {
        bytes.resize(24, 0);
        let row: common::Record = bytes.try_into().expect("a record");
        let tree = Tree::ethernet(condition.clone()).expect("one record");
        assert_eq!(tree.as_bytes(), file(ETHERNET, vec![row]), "{words}");
        assert_eq!(Tree::try_from(tree.as_bytes()), Ok(tree.clone()), "{words}");
        assert_eq!(condition.to_string(), words);
        assert_eq!(tree.to_string(), format!("Ethernet: {words}"));
        assert_eq!((condition.len(), tree.records().len()), (1, 1));
        let record = tree.root().record();
        assert!(!matches!(record, Record::Other(_)), "{words}");
        assert_eq!(<[u8; 24]>::from(record), row);
        assert_eq!(Condition::from(tree.root()), condition);
        assert!(tree.root().left().is_none() && tree.root().right().is_none());
    }
}

/// A record of a few of each field's values, by number.
fn sparse(number: usize) -> common::Record {
    let mut row = common::record((number / 270) as u8);
    row[1] = (number / 45 % 6) as u8;
    row[2] = (number / 3 % 15) as u8;
    row[3] = [0, 1, 255][number % 3];
    row
}

/// Kinds to 26, directions to 5, protocols to 14: where the library takes a record this crate knows
/// it, and where it does not this crate keeps it as it is.
#[test]
fn records_are_known_that_the_library_takes() {
    let mut taken = 0;
    for row in (0..27 * 270).map(sparse) {
        let record = Record::from(row);
        assert_eq!(<[u8; 24]>::from(record), row);
        let refused = direct(&file(ETHERNET, vec![row]), &[]) == Err(Refusal::BadRecord.into());
        assert_eq!(refused, matches!(record, Record::Other(_)), "{row:?}");
        taken += u32::from(!refused);
    }
    assert_eq!(taken, 3 + 16 + 3 * 4 + 4 * 3 + 2 * 4 * 17 + 4 + 5 + 2 * 3);
}

/// A byte that the kind does not use: kept, and no record that this crate knows.
#[test]
fn records_with_a_stray_byte() {
    for (condition, ..) in singles() {
        let tree = Tree::ethernet(condition).expect("one record");
        let row: [u8; 24] = tree.root().record().into();
        for place in 1..24 {
            let mut changed = row;
            changed[place] ^= 0x80;
            let record = Record::from(changed);
            assert_eq!(<[u8; 24]>::from(record), changed);
            let refused = direct(&file(ETHERNET, vec![changed]), &[]).is_err();
            assert_eq!(refused, matches!(record, Record::Other(_)), "{changed:?}");
        }
    }
    assert_eq!(Record::from(common::record(25)).to_string(), "kind 25");
}

/// The condition of records in prefix order, by the crate's own joins.
fn rebuilt(part: Part<'_>) -> Condition {
    match (part.record(), part.left(), part.right()) {
        (Record::And, Some(left), Some(right)) => rebuilt(left).and(rebuilt(right)),
        (Record::Or, Some(left), Some(right)) => rebuilt(left).or(rebuilt(right)),
        (Record::Not, Some(below), None) => rebuilt(below).not(),
        (_, None, None) => part.into(),
        other => panic!("{other:?}"),
    }
}

#[test]
fn trees_taken_apart_and_made_again() {
    let mut rng = Rng(7);
    let mut sizes = [0; MAX_RECORDS + 1];
    for _ in 0..2_000 {
        let records = random_tree(&mut rng, 6);
        if records.len() > MAX_RECORDS {
            continue;
        }
        sizes[records.len()] += 1;
        let bytes = file(ETHERNET, records.clone());
        let tree = Tree::try_from(&bytes[..]).expect("a tree");
        assert_eq!(Tree::ethernet(rebuilt(tree.root())), Ok(tree.clone()));
        let rows: Vec<[u8; 24]> = tree.into_iter().map(Into::into).collect();
        assert_eq!(rows, records);
        let mut back: Vec<Record> = tree.records().rev().collect();
        back.reverse();
        assert!(tree.records().eq(back));
    }
    assert!(sizes.iter().filter(|&&n| n > 0).count() > 40, "{sizes:?}");
}

#[test]
fn loops() {
    let tree = Tree::ethernet(protocol(Ip).not()).expect("two records");
    let mut met = vec![];
    for record in &tree {
        met.push(record);
    }
    assert_eq!(met, [Record::Not, Record::Protocol(Ip)]);
    let program = Program::from_tree(&tree).expect("a program");
    let mut ks = vec![];
    for instruction in &program {
        ks.push(instruction.k);
    }
    assert_eq!(ks, [12, 0x0800, 1, 0xffff_ffff, 0]);
    assert!(program
        .instructions()
        .rev()
        .map(|i| i.k)
        .eq(ks.into_iter().rev()));
}

#[test]
fn brackets() {
    let a = || protocol(Tcp);
    let b = || port(Either, None, 1);
    for (condition, words) in [
        (a().and(b()).and(a()), "tcp and port 1 and tcp"),
        (a().and(b().and(a())), "tcp and ( port 1 and tcp )"),
        (a().or(b()).or(a()), "tcp or port 1 or tcp"),
        (a().or(b()).and(a()), "( tcp or port 1 ) and tcp"),
        (a().or(b().and(a())), "tcp or ( port 1 and tcp )"),
        (a().and(b()).or(a()), "( tcp and port 1 ) or tcp"),
        (a().not().and(b().not()), "not tcp and not port 1"),
        (a().and(b()).not(), "not ( tcp and port 1 )"),
        (a().not().not(), "not not tcp"),
        (a().or(b()).not().or(a()), "not ( tcp or port 1 ) or tcp"),
    ] {
        assert_eq!(condition.to_string(), words);
        assert_eq!(format!("{condition:?}"), format!("Condition({words})"));
    }
}

#[test]
fn links() {
    for (tree, link, byte) in [
        (Tree::ethernet(protocol(Ip)), Link::Ethernet, 1),
        (Tree::raw_ip(protocol(Ip)), Link::RawIp, 2),
        (Tree::linux_sll(protocol(Ip)), Link::LinuxSll, 3),
    ] {
        let tree = tree.expect("one record");
        assert_eq!(tree.link(), link);
        assert_eq!(tree.as_bytes(), file(byte, common::protocol(1)));
        assert_eq!(Tree::new(link, protocol(Ip)), Ok(tree.clone()));
        assert_eq!(Tree::try_from(tree.as_bytes()).map(|t| t.link()), Ok(link));
    }
}

#[test]
fn most_records() {
    let mut nots = protocol(Ip);
    for _ in 1..MAX_RECORDS {
        nots = nots.not();
    }
    assert_eq!(nots.len(), MAX_RECORDS);
    let tree = Tree::ethernet(nots.clone()).expect("128 records");
    assert_eq!(tree.as_bytes().len(), 3_080);
    assert_eq!(
        tree.to_string(),
        format!("Ethernet: {}ip", "not ".repeat(127))
    );
    assert!(Program::from_tree(&tree).is_ok());

    let too_many = Err(Error::Refused(Refusal::WrongCount));
    assert_eq!(Tree::ethernet(nots.clone().not()), too_many);
    assert_eq!(Tree::ethernet(nots.clone().and(protocol(Ip))), too_many);
    assert_eq!(Tree::ethernet(protocol(Ip).or(nots.clone())), too_many);
    assert_eq!(
        Tree::ethernet(protocol(Ip).or(nots.clone().not())),
        too_many
    );
    assert_eq!(nots.not().to_string(), "129 records, too many for a tree");

    let mut doubled = protocol(Ip);
    for _ in 0..100 {
        doubled = doubled.clone().and(doubled);
    }
    assert_eq!(Tree::ethernet(doubled.clone()), too_many);
    assert_eq!(Tree::ethernet(doubled.not()), too_many);
}

/// Files that are refused with 1 to 4 are no trees; those that a build refuses later are.
#[test]
fn refused_files() {
    let ip = file(ETHERNET, common::protocol(common::IP));
    let refused = |bytes: &[u8]| Tree::try_from(bytes).expect_err("no tree");
    assert_eq!(refused(&[]), Refusal::StrangeFile.into());
    assert_eq!(refused(&ip[..31]), Refusal::WrongCount.into());
    assert_eq!(
        refused(&[&ip[..], &[0]].concat()),
        Refusal::WrongCount.into()
    );
    assert_eq!(
        refused(&file(ETHERNET, vec![common::record(3); 129])),
        Refusal::WrongCount.into()
    );
    assert_eq!(
        refused(&file(ETHERNET, vec![common::record(25)])),
        Refusal::BadRecord.into()
    );
    assert_eq!(
        refused(&file(ETHERNET, vec![common::record(3)])),
        Refusal::NotOneTree.into()
    );
    assert_eq!(refused(&vec![0; 100_000]), Refusal::StrangeFile.into());

    let raw6 = file(RAW_IP, common::protocol(common::IP6));
    let tree = Tree::try_from(&raw6[..]).expect("a tree");
    assert_eq!(Program::from_tree(&tree), Err(Refusal::KindOnRaw.into()));
    let tree = Tree::try_from(&far(common::EITHER)[..]).expect("a tree");
    assert_eq!(Program::from_tree(&tree), Err(Refusal::FarJump.into()));
}

/// The sheet's longest distance by the crate's own words.
#[test]
fn the_sheet_in_words() {
    let mut tree = ether_multicast();
    for _ in 0..6 {
        tree = tree.and(ether_multicast());
    }
    let six: IpAddr = "2001:db8::1".parse().expect("an address");
    tree = tree.and(host(Source, six));
    for _ in 0..7 {
        tree = tree.and(host(Both, six));
    }
    let tree = Tree::ethernet(tree).expect("29 records");
    assert_eq!(tree.as_bytes(), far(common::BOTH));
}

/// An Ethernet frame over IPv4, TCP from port 1024 to 502.
fn frame(source: [u8; 4], destination: [u8; 4]) -> Vec<u8> {
    let mut frame = vec![0; 78];
    frame[..12].copy_from_slice(&[2, 0, 0, 0, 0, 1, 2, 0, 0, 0, 0, 2]);
    frame[12] = 0x08;
    frame[14] = 0x45;
    frame[23] = 6;
    frame[26..30].copy_from_slice(&source);
    frame[30..34].copy_from_slice(&destination);
    frame[34..38].copy_from_slice(&[4, 0, 1, 246]);
    frame
}

/// Each argument goes to the field that it is meant for: conditions on one frame, true and false.
#[test]
fn meanings() {
    let frame = frame([10, 20, 0, 5], [10, 20, 0, 6]);
    let says = |condition: Condition| {
        let tree = Tree::ethernet(condition).expect("a tree");
        let program = Program::from_tree(&tree).expect("a program");
        let holds = tree.holds(&frame).expect("a reading");
        assert_eq!(program.accepts(&frame), holds);
        holds
    };
    for (yes, no) in [
        (protocol(Tcp), protocol(Udp)),
        (protocol(Num(6)), protocol(Num(7))),
        (host(Source, [10, 20, 0, 5]), host(Source, [10, 20, 0, 6])),
        (
            host(Destination, [10, 20, 0, 6]),
            host(Both, [10, 20, 0, 6]),
        ),
        (host(Either, [10, 20, 0, 6]), host(Either, [10, 20, 0, 7])),
        (net(Both, [10, 20, 9, 9], 16), net(Both, [10, 20, 0, 4], 31)),
        (
            net(Source, [10, 20, 0, 4], 31),
            net(Either, [10, 21, 0, 0], 16),
        ),
        (
            net_mask(Both, [10, 0, 0, 0], [255, 0, 255, 0]),
            net_mask(Both, [10, 0, 1, 0], [255, 0, 255, 0]),
        ),
        (port(Destination, Tcp, 502), port(Source, Tcp, 502)),
        (port(Either, None, 1024), port(Either, Udp, 1024)),
        (ports(Both, None, 502..=1024), ports(Both, None, 503..=1024)),
        (
            ports(Destination, Tcp, 500..=502),
            ports(Destination, Tcp, 500..=501),
        ),
        (
            ether_host(Source, [2, 0, 0, 0, 0, 2]),
            ether_host(Destination, [2, 0, 0, 0, 0, 2]),
        ),
        (ether_protocol(0x0800), ether_protocol(0x0008)),
        (chain(6), chain6(6)),
        (ip_broadcast().not(), ip_broadcast()),
        (ip_multicast().not(), ip_multicast()),
        (ether_multicast().not(), ip6_multicast()),
    ] {
        assert!(says(yes.clone()), "{yes}");
        assert!(!says(no.clone()), "{no}");
        assert!(says(yes.clone().or(no.clone())) && !says(yes.and(no)));
    }
}
