//! Every refusal by its number, their order, and the buffer after each.

mod common;

use common::*;
use dabberpearl::{
    build, direct, run, Error, Program, Refusal, MAX_FRAME, MAX_PROGRAM, MAX_RUN, MAX_TREE,
};

/// Builds into a buffer of a length: the answer, and the buffer after.
fn build_into(tree: &[u8], length: usize) -> (Result<usize, Error>, Vec<u8>) {
    lend(length, |buffer| build(tree, buffer))
}

/// A file with its refusal, number and word.
fn refused_files() -> Vec<(Vec<u8>, Refusal, u32, &'static str)> {
    let ip = || file(ETHERNET, protocol(IP));
    let mut bad = ip();
    bad[8 + 23] = 1;
    let two = [protocol(IP), protocol(IP)].concat();
    vec![
        (vec![], Refusal::StrangeFile, 1, "strange file"),
        (ip()[..7].to_vec(), Refusal::StrangeFile, 1, "strange file"),
        (
            file(0, protocol(IP)),
            Refusal::StrangeFile,
            1,
            "strange file",
        ),
        (
            file(4, protocol(IP)),
            Refusal::StrangeFile,
            1,
            "strange file",
        ),
        (
            file(ETHERNET, vec![]),
            Refusal::WrongCount,
            2,
            "wrong count",
        ),
        (ip()[..31].to_vec(), Refusal::WrongCount, 2, "wrong count"),
        (
            file(ETHERNET, vec![record(3); 129]),
            Refusal::WrongCount,
            2,
            "wrong count",
        ),
        (bad, Refusal::BadRecord, 3, "bad record"),
        (
            file(ETHERNET, vec![record(25)]),
            Refusal::BadRecord,
            3,
            "bad record",
        ),
        (
            file(ETHERNET, vec![record(3)]),
            Refusal::NotOneTree,
            4,
            "not one tree",
        ),
        (file(ETHERNET, two), Refusal::NotOneTree, 4, "not one tree"),
        (
            file(RAW_IP, protocol(IP6)),
            Refusal::KindOnRaw,
            5,
            "kind on raw",
        ),
        (
            file(LINUX_SLL, port(EITHER, ICMP, 1)),
            Refusal::PortProtocol,
            6,
            "port protocol",
        ),
        (
            file(RAW_IP, ether_multicast()),
            Refusal::EtherOnRaw,
            7,
            "ether on raw",
        ),
        (far(EITHER), Refusal::FarJump, 8, "far jump"),
        (
            file(LINUX_SLL, ether_multicast()),
            Refusal::CookedAddress,
            15,
            "cooked address",
        ),
    ]
}

#[test]
fn of_builds() {
    for (tree, refusal, number, word) in refused_files() {
        for length in [0, 1, 8, 4_000, MAX_PROGRAM, 40_000] {
            let (answer, buffer) = build_into(&tree, length);
            assert_eq!(answer, Err(refusal.into()));
            assert!(
                buffer.iter().all(|&b| b == 0),
                "refusal {number} leaves a byte"
            );
        }
        assert_eq!((refusal.number(), refusal.word()), (number, word));
        assert_eq!(refusal.to_string(), format!("refused {number}, {word}"));
        assert_eq!(Program::from_tree(&tree), Err(refusal.into()));
    }
}

#[test]
fn of_short_buffers() {
    for tree in [
        file(RAW_IP, protocol(IP)),
        file(ETHERNET, port(EITHER, NONE, 53)),
        far(BOTH),
    ] {
        let program = Program::from_tree(&tree).expect("an accepted tree");
        let exact = program.as_bytes().len();
        for length in [0, 1, exact - 8, exact - 1] {
            let (answer, buffer) = build_into(&tree, length);
            assert_eq!(answer, Err(Refusal::ShortBuffer.into()));
            assert_eq!(buffer, vec![0; length]);
        }
        for length in [exact, exact + 1, exact + 8, MAX_PROGRAM, 40_000] {
            let (answer, buffer) = build_into(&tree, length);
            assert_eq!(answer, Ok(program.len()));
            assert_eq!(buffer[..exact], *program.as_bytes());
            assert!(
                buffer[exact..].iter().all(|&b| b == 0),
                "a byte past the program"
            );
        }
    }
    assert_eq!(Refusal::ShortBuffer.to_string(), "refused 9, short buffer");
}

#[test]
fn of_runs() {
    let ret = [6, 0, 0, 0, 1, 0, 0, 0];
    let (frame, long) = (vec![0; MAX_FRAME], vec![0; MAX_FRAME + 1]);
    assert_eq!(run(&ret, &frame).map(|o| o.steps), Ok(1));
    assert_eq!(run(&ret, &long), Err(Refusal::LongFrame.into()));
    for length in [0, 1, 7, 9, MAX_RUN - 1, MAX_RUN + 1, MAX_RUN + 8] {
        let odd = vec![0; length];
        assert_eq!(run(&odd, &frame), Err(Refusal::OddProgram.into()));
        assert_eq!(
            run(&odd, &long),
            Err(Refusal::OddProgram.into()),
            "11 comes before 10"
        );
    }
    assert_eq!(Refusal::LongFrame.to_string(), "refused 10, long frame");
    assert_eq!(Refusal::OddProgram.to_string(), "refused 11, odd program");
}

#[test]
fn of_readings() {
    let long = vec![0; MAX_FRAME + 1];
    for (tree, refusal, number, _) in refused_files() {
        let at_once = if number <= 4 {
            refusal
        } else {
            Refusal::LongFrame
        };
        assert_eq!(direct(&tree, &long), Err(at_once.into()));
        let answer = direct(&tree, &long[..64]);
        assert_eq!(
            answer.err(),
            (number <= 4).then_some(refusal.into()),
            "5 to 8 and 15 are the build's alone"
        );
    }
}

#[test]
fn in_order() {
    // Each file has the fault of its place and all later ones; RawIp, and a record that no kind is.
    let mut records = vec![record(99); 2];
    let mut tree = file(9, records.clone());
    tree.push(0);
    assert_eq!(Program::from_tree(&tree), Err(Refusal::StrangeFile.into()));
    tree[5] = RAW_IP;
    assert_eq!(Program::from_tree(&tree), Err(Refusal::WrongCount.into()));
    tree.pop();
    assert_eq!(Program::from_tree(&tree), Err(Refusal::BadRecord.into()));
    records = [protocol(IP6), ether_multicast()].concat();
    assert_eq!(
        Program::from_tree(&file(RAW_IP, records)),
        Err(Refusal::NotOneTree.into())
    );
    let five = and(protocol(IP6), ether_multicast());
    assert_eq!(
        Program::from_tree(&file(RAW_IP, five)),
        Err(Refusal::KindOnRaw.into())
    );
    let seven = and(ether_multicast(), protocol(IP6));
    assert_eq!(
        Program::from_tree(&file(RAW_IP, seven)),
        Err(Refusal::EtherOnRaw.into())
    );
    assert_eq!(
        build_into(&far(EITHER), 0).0,
        Err(Refusal::FarJump.into()),
        "8 comes before 9"
    );
}

#[test]
fn all_by_number() {
    for (i, refusal) in Refusal::ALL.iter().enumerate() {
        assert_eq!(refusal.number() as usize, i + 1);
    }
    let error: Box<dyn std::error::Error> = Box::new(Refusal::BadRecord);
    assert_eq!(error.to_string(), "refused 3, bad record");
}

#[test]
fn largest_file() {
    let mut records = vec![record(3); 127];
    records.extend(protocol(IP));
    let tree = file(ETHERNET, records);
    assert_eq!(tree.len(), MAX_TREE);
    assert_eq!(build_into(&tree, MAX_PROGRAM).0, Ok(4 + 127));
}
