//! Slices of every place and length, and calls from several threads.

mod common;

use common::*;
use dabberpearl::{
    build, direct, load, question, run, Outcome, Program, Refusal, Verdict, MAX_FRAME,
};

#[test]
fn empty() {
    let tree = file(RAW_IP, protocol(IP));
    let program = Program::from_tree(&tree).expect("an accepted tree");
    assert_eq!(build(&[], &mut []), Err(Refusal::StrangeFile.into()));
    assert_eq!(build(&tree, &mut []), Err(Refusal::ShortBuffer.into()));
    assert_eq!(run(&[], &[]), Err(Refusal::OddProgram.into()));
    assert_eq!(
        run(program.as_bytes(), &[]),
        Ok(Outcome {
            verdict: Verdict::Accepted,
            steps: 1
        })
    );
    assert_eq!(direct(&tree, &[]), Ok(true));
    assert_eq!(direct(&[], &[]), Err(Refusal::StrangeFile.into()));
}

/// An IPv4 frame on Ethernet, TCP from port 1024 to a port.
fn tcp_frame(port: u16, length: usize) -> Vec<u8> {
    let mut frame = vec![0; length];
    frame[12..14].copy_from_slice(&[0x08, 0x00]);
    frame[14] = 0x45;
    frame[14 + 9] = 6;
    frame[34..36].copy_from_slice(&1024u16.to_be_bytes());
    frame[36..38].copy_from_slice(&port.to_be_bytes());
    frame
}

#[test]
fn at_every_alignment() {
    let tree = file(ETHERNET, and(protocol(TCP), port(DESTINATION, TCP, 80)));
    let program = Program::from_tree(&tree).expect("an accepted tree");
    let (yes, no) = (tcp_frame(80, 78), tcp_frame(81, 78));
    for shift in 0..8 {
        let moved = |bytes: &[u8]| [&vec![0xee; shift][..], bytes].concat();
        let (t, p, y, n) = (
            moved(&tree),
            moved(program.as_bytes()),
            moved(&yes),
            moved(&no),
        );
        let mut out = vec![0xee; shift + 88];
        assert_eq!(build(&t[shift..], &mut out[shift..]), Ok(11));
        assert_eq!(out, p);
        let size = question(&t[shift..]).expect("an accepted tree");
        out[shift..].fill(0xee);
        assert_eq!(load(&t[shift..], size, &mut out[shift..]), Ok(11));
        assert_eq!(out, p);
        let verdict = |f: &[u8]| run(&p[shift..], &f[shift..]).map(|o| o.verdict);
        assert_eq!(verdict(&y), Ok(Verdict::Accepted));
        assert_eq!(verdict(&n), Ok(Verdict::Dropped));
        assert_eq!(direct(&t[shift..], &y[shift..]), Ok(true));
        assert_eq!(direct(&t[shift..], &n[shift..]), Ok(false));
    }
}

#[test]
fn long_frames() {
    let tree = file(ETHERNET, port(DESTINATION, TCP, 80));
    let program = Program::from_tree(&tree).expect("an accepted tree");
    for length in [78, 1_514, 9_000, MAX_FRAME] {
        assert!(program.accepts(&tcp_frame(80, length)));
        assert!(!program.accepts(&tcp_frame(81, length)));
    }
    assert_eq!(
        program.run(&tcp_frame(80, MAX_FRAME + 1)),
        Err(Refusal::LongFrame.into())
    );
    assert!(!program.accepts(&tcp_frame(80, MAX_FRAME + 1)));
    // The last two bytes of the longest frame: ldh 65533, jeq 0x0050.
    let end = [
        0x28, 0, 0, 0, 0xfd, 0xff, 0, 0, 0x15, 0, 0, 1, 80, 0, 0, 0, 6, 0, 0, 0, 1, 0, 0, 0, 6, 0,
        0, 0, 0, 0, 0, 0,
    ];
    let mut frame = vec![0; MAX_FRAME];
    frame[MAX_FRAME - 1] = 80;
    assert_eq!(
        run(&end, &frame),
        Ok(Outcome {
            verdict: Verdict::Accepted,
            steps: 3
        })
    );
    assert_eq!(
        run(&end, &frame[1..]),
        Ok(Outcome {
            verdict: Verdict::Short,
            steps: 1
        })
    );
}

#[test]
fn broken() {
    let unknown = [0x94, 0, 0, 0, 1, 0, 0, 0];
    assert_eq!(
        run(&unknown, &[]),
        Ok(Outcome {
            verdict: Verdict::Broken,
            steps: 1
        })
    );
    let past_the_end = [5, 0, 0, 0, 9, 0, 0, 0];
    assert_eq!(
        run(&past_the_end, &[]),
        Ok(Outcome {
            verdict: Verdict::Broken,
            steps: 1
        })
    );
}

/// The machine runs 4,096 instructions and counts each.
#[test]
fn most_steps() {
    let mut program = [0, 0, 0, 0, 7, 0, 0, 0].repeat(4_095);
    program.extend([6, 0, 0, 0, 0, 0, 0, 0]);
    assert_eq!(
        run(&program, &[]),
        Ok(Outcome {
            verdict: Verdict::Dropped,
            steps: 4_096
        })
    );
}

/// Demand 3 through this crate: program and direct reading agree on whole frames, and what a run
/// over a part decides holds of the whole.
#[test]
fn program_and_direct_reading_agree() {
    let mut rng = Rng(1);
    let mut met = [0; 5];
    for _ in 0..3_000 {
        let tree = file(
            [ETHERNET, LINUX_SLL][rng.below(2)],
            random_tree(&mut rng, 4),
        );
        let Ok(program) = Program::from_tree(&tree) else {
            continue;
        };
        let frame = random_frame(&mut rng);
        let says = direct(&tree, &frame).expect("a reading");
        let whole = program.run(&frame).expect("a run");
        assert_eq!(
            whole.verdict,
            if says {
                Verdict::Accepted
            } else {
                Verdict::Dropped
            }
        );
        let part = program.run(&frame[..rng.below(80)]).expect("a run");
        assert!(
            part.verdict == Verdict::Short || part == whole,
            "{part:?} of a part, {whole:?} of the whole"
        );
        assert!(whole.steps as usize <= program.len());
        met[whole.verdict as usize] += 1;
        met[part.verdict as usize] += 1;
    }
    assert!(
        met[1] > 300 && met[2] > 300 && met[3] > 300 && met[4] == 0,
        "{met:?}"
    );
}

#[test]
fn from_several_threads() {
    let trees: Vec<Vec<u8>> = vec![
        file(ETHERNET, port(EITHER, NONE, 53)),
        far(BOTH),
        far(EITHER),
    ];
    let alone: Vec<_> = trees.iter().map(Program::from_tree).collect();
    let asked = |tree: &Vec<u8>| Program::load(tree, question(tree)?);
    std::thread::scope(|scope| {
        for _ in 0..4 {
            scope.spawn(|| {
                for _ in 0..200 {
                    let now: Vec<_> = trees.iter().map(Program::from_tree).collect();
                    assert_eq!(now, alone);
                    let loaded: Vec<_> = trees.iter().map(asked).collect();
                    assert_eq!(loaded, alone);
                }
            });
        }
    });
}
