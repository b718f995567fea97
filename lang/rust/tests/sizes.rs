//! Sizes told before a load: the question, the load of its count, other counts, edited trees.

mod common;

use common::*;
use dabberpearl::{
    build, load, question, run, Error, Link, Program, Refusal, Size, Tree, Verdict, MAX_PROGRAM,
};

const MOVED: Result<usize, Error> = Err(Error::Refused(Refusal::CountMoved));

/// Loads into a buffer of a length: the answer, and the buffer after.
fn load_into(tree: &[u8], size: Size, length: usize) -> (Result<usize, Error>, Vec<u8>) {
    lend(length, |buffer| load(tree, size, buffer))
}

fn build_into(tree: &[u8], length: usize) -> (Result<usize, Error>, Vec<u8>) {
    lend(length, |buffer| build(tree, buffer))
}

fn size_of(tree: &[u8]) -> Size {
    question(tree).expect("an accepted tree")
}

/// A load is refused and leaves zeros.
fn refuses(tree: &[u8], count: u32, length: usize, refusal: Refusal) {
    let (answer, buffer) = load_into(tree, Size::from_stored(count), length);
    assert_eq!(answer, Err(refusal.into()), "{count} into {length}");
    assert_eq!(buffer, vec![0; length], "{count} into {length}");
}

fn accepted() -> Vec<Vec<u8>> {
    vec![
        file(RAW_IP, protocol(IP)),
        file(ETHERNET, not(protocol(IP))),
        file(ETHERNET, and(protocol(TCP), port(DESTINATION, TCP, 80))),
        file(LINUX_SLL, or(port(EITHER, NONE, 53), ether_host(SOURCE))),
        far(BOTH),
    ]
}

/// A file for each refusal of the tree's own.
fn refused() -> Vec<(Vec<u8>, Refusal)> {
    vec![
        (vec![], Refusal::StrangeFile),
        (file(ETHERNET, vec![]), Refusal::WrongCount),
        (file(ETHERNET, vec![record(25)]), Refusal::BadRecord),
        (file(ETHERNET, vec![record(3)]), Refusal::NotOneTree),
        (file(RAW_IP, protocol(IP6)), Refusal::KindOnRaw),
        (file(ETHERNET, port(EITHER, ICMP, 1)), Refusal::PortProtocol),
        (file(RAW_IP, ether_multicast()), Refusal::EtherOnRaw),
        (far(EITHER), Refusal::FarJump),
        (file(LINUX_SLL, ether_multicast()), Refusal::CookedAddress),
    ]
}

/// Counts that are not this one: near it, none, and with some of its bits.
fn other_counts(count: u32) -> Vec<u32> {
    let mut others = vec![0, 1, count - 1, count + 1, 8 * count, u32::MAX];
    others.extend([count + 65_536, count << 16, count.wrapping_neg()]);
    others.extend((0..u32::BITS).map(|bit| count ^ 1 << bit));
    others
}

#[test]
fn a_question_tells_the_count_of_a_build() {
    for tree in accepted() {
        let program = Program::from_tree(&tree).expect("an accepted tree");
        let size = size_of(&tree);
        assert_eq!(size.count(), program.len());
        assert_eq!(size.bytes(), program.as_bytes().len());
        assert_eq!(u32::from(size) as usize, program.len());
        assert_eq!(Size::from_stored(size.into()), size);
        assert_eq!(Tree::try_from(&tree[..]).and_then(|t| t.size()), Ok(size));
    }
    assert_eq!(size_of(&far(BOTH)).count(), 258);
}

#[test]
fn a_load_of_the_count_is_a_build() {
    for tree in accepted() {
        let size = size_of(&tree);
        let exact = size.bytes();
        for length in [0, 1, exact - 1, exact, exact + 1, MAX_PROGRAM, 40_000] {
            let loaded = load_into(&tree, size, length);
            assert_eq!(loaded, build_into(&tree, length), "into {length}");
            assert_eq!(loaded.0.is_ok(), length >= exact);
        }
        assert_eq!(Program::load(&tree, size), Program::from_tree(&tree));
    }
}

#[test]
fn other_counts_are_refused() {
    for tree in accepted() {
        let size = size_of(&tree);
        for count in other_counts(size.into()) {
            for length in [0, size.bytes() - 1, size.bytes(), MAX_PROGRAM] {
                refuses(&tree, count, length, Refusal::CountMoved);
            }
            let answer = Program::load(&tree, Size::from_stored(count));
            assert_eq!(answer, Err(Refusal::CountMoved.into()));
        }
    }
    assert_eq!(Refusal::CountMoved.to_string(), "refused 19, count moved");
    assert_eq!(Refusal::try_from(19), Ok(Refusal::CountMoved));
}

#[test]
fn every_count_of_sixteen_bits() {
    let tree = file(ETHERNET, protocol(IP));
    let (built, bytes) = build_into(&tree, 32);
    for count in 0..=0xffff {
        let loaded = load_into(&tree, Size::from_stored(count), 32);
        let refused = (MOVED, vec![0; 32]);
        let wanted = if count == 4 {
            (built, bytes.clone())
        } else {
            refused
        };
        assert_eq!(loaded, wanted, "{count}");
    }
}

/// What is wrong with the tree comes first, whatever the count and the buffer are.
#[test]
fn refused_trees() {
    for (tree, refusal) in refused() {
        assert_eq!(question(&tree), Err(refusal.into()));
        for count in [0, 2, 4, 258, refusal.number() << 16, u32::MAX] {
            for length in [0, 7, 32, MAX_PROGRAM] {
                refuses(&tree, count, length, refusal);
            }
            let answer = Program::load(&tree, Size::from_stored(count));
            assert_eq!(answer, Err(refusal.into()));
        }
    }
}

/// 8 and 15, then 19, then 9: each has the faults that come later too.
#[test]
fn in_order() {
    refuses(&far(EITHER), 0, 8, Refusal::FarJump);
    let cooked = file(LINUX_SLL, ether_multicast());
    refuses(&cooked, 0, 8, Refusal::CookedAddress);
    let ip = file(ETHERNET, protocol(IP));
    refuses(&ip, 5, 8, Refusal::CountMoved);
    refuses(&ip, 1, 8, Refusal::CountMoved);
    refuses(&ip, 4, 8, Refusal::ShortBuffer);
    assert_eq!(load_into(&ip, size_of(&ip), 32).0, Ok(4));
}

#[test]
fn drawn_trees() {
    let mut rng = Rng(5);
    let mut met = [0; 2];
    for _ in 0..3_000 {
        let link = [ETHERNET, RAW_IP, LINUX_SLL][rng.below(3)];
        let tree = file(link, random_tree(&mut rng, 4));
        let built = Program::from_tree(&tree);
        let told = question(&tree);
        assert_eq!(
            told.map(Size::count),
            built.as_ref().map(Program::len).map_err(|e| *e)
        );
        met[usize::from(built.is_ok())] += 1;
        if let Ok(size) = told {
            assert_eq!(Program::load(&tree, size), built);
            refuses(
                &tree,
                u32::from(size) + 1,
                size.bytes(),
                Refusal::CountMoved,
            );
        }
    }
    assert!(met[0] > 500 && met[1] > 500, "{met:?}");
}

fn typed(link: Link, line: &str) -> Tree {
    Tree::typed(link, line).expect("a line")
}

/// Another program of the same count is loaded as it is.
#[test]
fn edited_to_an_equal_count() {
    for (first, edited) in [
        ("tcp dst port 80", "tcp dst port 81"),
        ("tcp dst port 80", "udp src port 80"),
        ("tcp", "icmp"),
        ("ip", "arp"),
        ("host 10.20.0.5", "host 10.20.0.6"),
        ("arp and not tcp", "tcp and not arp"),
    ] {
        let first = typed(Link::Ethernet, first);
        let size = first.size().expect("an accepted tree");
        let former = Program::from_tree(&first).expect("a program");
        for now in [typed(Link::Ethernet, edited), typed(Link::LinuxSll, edited)] {
            let program = Program::from_tree(&now).expect("a program");
            assert_ne!(program, former);
            let loaded = load_into(now.as_bytes(), size, size.bytes());
            assert_eq!(loaded, (Ok(size.count()), program.as_bytes().to_vec()));
            assert_eq!(Program::load(&now, size), Ok(program));
        }
    }
}

#[test]
fn edited_to_another_count() {
    let first = typed(Link::Ethernet, "tcp dst port 80");
    let size = first.size().expect("an accepted tree");
    for now in [
        typed(Link::Ethernet, "tcp port 80"),
        typed(Link::Ethernet, "tcp"),
        typed(Link::RawIp, "tcp dst port 80"),
    ] {
        for length in [0, size.bytes(), MAX_PROGRAM] {
            refuses(now.as_bytes(), size.into(), length, Refusal::CountMoved);
        }
    }
    let refused = file(RAW_IP, protocol(IP6));
    refuses(&refused, size.into(), size.bytes(), Refusal::KindOnRaw);
    assert_eq!(Program::load(&first, size), Program::from_tree(&first));
}

/// Two slots of one memory: what is loaded into one leaves the other, a refusal too.
#[test]
fn slots_beside_each_other() {
    let (tcp, udp) = (typed(Link::RawIp, "tcp"), typed(Link::RawIp, "udp"));
    let size = tcp.size().expect("an accepted tree");
    let mut memory = vec![0xff; 2 * size.bytes()];
    let (left, right) = memory.split_at_mut(size.bytes());
    assert_eq!(load(tcp.as_bytes(), size, left), Ok(4));
    assert_eq!(load(udp.as_bytes(), size, right), Ok(4));
    let verdict = |program: &[u8], number| {
        let mut packet = [0; 64];
        packet[9] = number;
        run(program, &packet).map(|outcome| outcome.verdict)
    };
    assert_eq!(verdict(left, 6), Ok(Verdict::Accepted));
    assert_eq!(verdict(right, 6), Ok(Verdict::Dropped));
    let both = typed(Link::RawIp, "tcp or udp");
    assert_eq!(load(both.as_bytes(), size, right), MOVED);
    assert!(right.iter().all(|&byte| byte == 0));
    assert_eq!(verdict(left, 6), Ok(Verdict::Accepted));
    assert_eq!(verdict(left, 17), Ok(Verdict::Dropped));
}

#[test]
fn no_bytes() {
    let tree = file(RAW_IP, protocol(IP));
    let size = size_of(&tree);
    assert_eq!(question(&[]), Err(Refusal::StrangeFile.into()));
    assert_eq!(load(&[], size, &mut []), Err(Refusal::StrangeFile.into()));
    assert_eq!(load(&tree, Size::from_stored(3), &mut []), MOVED);
    assert_eq!(load(&tree, size, &mut []), Err(Refusal::ShortBuffer.into()));
}
