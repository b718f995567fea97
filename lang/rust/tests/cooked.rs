//! Ether addresses on each link: a cooked capture has the address of a frame's sender at byte 6, its
//! length at byte 4, and no other address.

mod common;

use common::captures::{capture, MARKS, ORDERS};
use common::{far, lend, LINUX_SLL, STATION};
use dabberpearl::conditions::*;
use dabberpearl::{build, Error, Link, Outcome, Program, Refusal, Tree, Verdict, MAX_PROGRAM};

const LINKS: [Link; 3] = [Link::Ethernet, Link::RawIp, Link::LinuxSll];
const DIRECTIONS: [Direction; 4] = [Either, Source, Destination, Both];
/// Another address.
const OTHER: [u8; 6] = [2, 0, 0, 0, 0, 7];
/// Where the sender's address ends.
const END: usize = 12;
const SIX: u16 = 6;

fn tree(link: Link, condition: Condition) -> Tree {
    Tree::new(link, condition).expect("a tree")
}

/// The program of a condition on cooked frames, or why there is none.
fn cooked(condition: Condition) -> Result<Program, Error> {
    Program::from_tree(&tree(Link::LinuxSll, condition))
}

fn sender() -> Program {
    cooked(ether_host(Source, STATION)).expect("a program")
}

fn refused(condition: Condition) -> Option<u32> {
    cooked(condition).err().and_then(Error::number)
}

/// A cooked frame of zeros with an address and its length.
fn frame(length: u16, address: [u8; 6]) -> [u8; 80] {
    let mut frame = [0; 80];
    frame[4..6].copy_from_slice(&length.to_be_bytes());
    frame[6..END].copy_from_slice(&address);
    frame
}

/// What the directions of an ether host say on a frame, read directly.
fn hosts_hold(link: Link, frame: &[u8]) -> [bool; 4] {
    DIRECTIONS.map(|direction| {
        let tree = tree(link, ether_host(direction, STATION));
        tree.holds(frame).expect("a reading")
    })
}

// ---- what is refused

#[test]
fn single_conditions() {
    for link in LINKS {
        let number = |condition| {
            let built = Program::from_tree(&tree(link, condition));
            built.err().and_then(Error::number)
        };
        let other = match link {
            Link::Ethernet => None,
            Link::RawIp => Some(7),
            _ => Some(15),
        };
        for direction in DIRECTIONS {
            let sender = link == Link::LinuxSll && direction == Source;
            let wanted = if sender { None } else { other };
            assert_eq!(number(ether_host(direction, STATION)), wanted);
            assert_eq!(number(ether_host(direction, STATION).not()), wanted);
        }
        assert_eq!(number(ether_multicast()), other);
        assert_eq!(number(ether_multicast().not()), other);
    }
}

#[test]
fn in_words() {
    let error = cooked(ether_multicast()).expect_err("no group");
    assert_eq!(error, Error::Refused(Refusal::CookedAddress));
    assert_eq!(error.to_string(), "refused 15, cooked address");
    assert_eq!(Refusal::try_from(15), Ok(Refusal::CookedAddress));
}

/// The buffer is zero, whatever it held and however long it is.
#[test]
fn leave_zeros() {
    for direction in [Either, Destination, Both] {
        let tree = tree(Link::LinuxSll, ether_host(direction, STATION));
        for length in [0, 1, 63, 64, 4_000, MAX_PROGRAM] {
            let (answer, buffer) = lend(length, |buffer| build(tree.as_bytes(), buffer));
            assert_eq!(answer, Err(Refusal::CookedAddress.into()));
            assert_eq!(buffer, vec![0; length]);
        }
    }
}

/// What is no tree file at all is refused as such.
#[test]
fn after_1_to_4() {
    let mut two = common::ether_host(common::BOTH);
    two.extend(common::ether_multicast());
    let mut file = common::file(LINUX_SLL, two);
    let refusal = |file: &[u8]| Program::from_tree(file).err().and_then(Error::number);
    assert_eq!(refusal(&file), Some(4));
    file[8] = 99;
    assert_eq!(refusal(&file), Some(3));
}

/// The one that stands first is refused, under each join.
#[test]
fn before_and_after_a_port() {
    let port = || port(Either, Icmp, 53);
    let host = || ether_host(Destination, STATION);
    assert_eq!(refused(host().and(port())), Some(15));
    assert_eq!(refused(port().and(host())), Some(6));
    assert_eq!(refused(host().or(port())), Some(15));
    assert_eq!(refused(port().or(host())), Some(6));
    let shared = |first: Condition, second: Condition| {
        let left = first.and(protocol(Icmp6));
        left.or(second.and(protocol(Icmp6)))
    };
    assert_eq!(refused(shared(host(), port())), Some(15));
    assert_eq!(refused(shared(port(), host())), Some(6));
}

/// A jump that is too far is met where its target becomes known: behind the left part of an or.
#[test]
fn before_and_after_a_far_jump() {
    let hosts = || {
        let twenty = (0..20).map(|_| host(Both, [0u16; 8]));
        twenty.reduce(Condition::and).expect("twenty hosts")
    };
    assert_eq!(refused(hosts()), Some(8));
    assert_eq!(refused(hosts().and(ether_multicast())), Some(15));
    assert_eq!(refused(hosts().or(ether_multicast())), Some(8));
    assert_eq!(refused(ether_multicast().or(hosts())), Some(15));
    // The sheet's trees begin with an ether multicast.
    for last in [common::BOTH, common::EITHER] {
        let mut file = far(last);
        file[5] = LINUX_SLL;
        assert_eq!(
            Program::from_tree(&file),
            Err(Refusal::CookedAddress.into())
        );
    }
}

// ---- the sender

#[test]
fn programs() {
    let tests = "\
32 0 0 6
21 0 3 33554432
40 0 0 10
21 0 1 6
6 0 0 4294967295
6 0 0 0
";
    let length = "8\n40 0 0 4\n21 0 5 6\n";
    assert_eq!(sender().to_string(), format!("{length}{tests}"));
    let source = tree(Link::Ethernet, ether_host(Source, STATION));
    let ethernet = Program::from_tree(&source).expect("a program");
    assert_eq!(ethernet.to_string(), format!("6\n{tests}"));
}

/// Every length of the address: 6 alone passes, and is tested first.
#[test]
fn of_every_length() {
    let program = sender();
    let tree = tree(Link::LinuxSll, ether_host(Source, STATION));
    for length in 0..=u16::MAX {
        let frame = frame(length, STATION);
        let (verdict, steps) = match length {
            SIX => (Verdict::Accepted, 7),
            _ => (Verdict::Dropped, 3),
        };
        assert_eq!(program.run(&frame), Ok(Outcome { verdict, steps }));
        assert_eq!(tree.holds(&frame), Ok(length == SIX));
    }
}

/// Of a frame's bits those of length and address count, and no others.
#[test]
fn with_every_bit_turned() {
    let program = sender();
    for bit in 0..8 * 80 {
        let mut frame = frame(SIX, STATION);
        frame[bit / 8] ^= 1 << (bit % 8);
        let counts = (4..END).contains(&(bit / 8));
        assert_eq!(program.accepts(&frame), !counts, "bit {bit}");
        let [either, source, destination, both] = hosts_hold(Link::LinuxSll, &frame);
        assert_eq!((either, source), (!counts, !counts), "bit {bit}");
        assert!(!destination && !both, "bit {bit}");
    }
}

#[test]
fn of_frames_that_end_early() {
    let program = sender();
    let verdict = |frame: &[u8]| program.run(frame).map(|outcome| outcome.verdict);
    let good = frame(SIX, STATION);
    for length in 0..END {
        assert_eq!(verdict(&good[..length]), Ok(Verdict::Short));
    }
    assert_eq!(verdict(&good[..END]), Ok(Verdict::Accepted));
    let other = frame(8, STATION);
    assert_eq!(verdict(&other[..5]), Ok(Verdict::Short));
    assert_eq!(verdict(&other[..6]), Ok(Verdict::Dropped));
}

#[test]
fn joined() {
    let condition = protocol(Arp).and(ether_host(Source, STATION).not());
    let program = cooked(condition.clone()).expect("a program");
    let tree = tree(Link::LinuxSll, condition);
    for (length, address, kind, wanted) in [
        (6, STATION, 0x0806_u16, false),
        (6, OTHER, 0x0806, true),
        (8, STATION, 0x0806, true),
        (0, STATION, 0x0806, true),
        (6, OTHER, 0x0800, false),
    ] {
        let mut frame = frame(length, address);
        frame[14..16].copy_from_slice(&kind.to_be_bytes());
        assert_eq!(program.accepts(&frame), wanted);
        assert_eq!(tree.holds(&frame), Ok(wanted));
    }
}

#[test]
fn counted() {
    let frames: Vec<[u8; 80]> = (0..10).map(|length| frame(length, STATION)).collect();
    let capture = capture(ORDERS[1], MARKS[0], LINUX_SLL, &frames);
    let counted = |condition| tree(Link::LinuxSll, condition).count(&capture);
    assert_eq!(
        counted(ether_host(Source, STATION)).into_result(),
        Ok(1),
        "that of six bytes"
    );
    assert_eq!(
        counted(ether_host(Source, STATION).not()).into_result(),
        Ok(9)
    );
    assert_eq!(
        counted(ether_host(Both, STATION)).into_result(),
        Err(Refusal::CookedAddress.into())
    );
}

// ---- read directly

/// What a build refuses has a reading: a cooked frame is sent to no address, whatever its first
/// bytes are. STATION has the length 6 in it.
#[test]
fn without_a_program() {
    let mut both = frame(SIX, STATION);
    both[..6].copy_from_slice(&STATION);
    assert_eq!(
        hosts_hold(Link::LinuxSll, &both),
        [true, true, false, false]
    );
    let mut first = frame(SIX, OTHER);
    first[..6].copy_from_slice(&STATION);
    assert_eq!(hosts_hold(Link::LinuxSll, &first), [false; 4]);
    let long = frame(8, STATION);
    assert_eq!(hosts_hold(Link::LinuxSll, &long), [false; 4]);
    for link in [Link::Ethernet, Link::RawIp] {
        assert_eq!(hosts_hold(link, &both), [true; 4]);
        assert_eq!(hosts_hold(link, &first), [true, false, true, false]);
        assert_eq!(hosts_hold(link, &long), [true, true, false, false]);
    }
}

#[test]
fn groups_without_a_program() {
    for link in LINKS {
        let ethernet_or_raw = link != Link::LinuxSll;
        let group = tree(link, ether_multicast());
        let single = tree(link, ether_multicast().not());
        assert_eq!(group.holds(&[1; 80]), Ok(ethernet_or_raw));
        assert_eq!(single.holds(&[1; 80]), Ok(!ethernet_or_raw));
        assert_eq!(group.holds(&[2; 80]), Ok(false));
    }
}
