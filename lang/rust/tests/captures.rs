//! Captures counted and walked: every answer is held to the tests' own reader, and every count to
//! one run for each frame.

mod common;

use common::captures::*;
use common::*;
use dabberpearl::{
    build, count, frames, run, Counted, Error, Refusal, Tree, Verdict, MAX_FRAME, MAX_PROGRAM,
};

fn whole(accepted: u64) -> Counted {
    Counted {
        accepted,
        error: None,
    }
}

fn refused(refusal: Refusal) -> Counted {
    cut_after(refusal, 0)
}

fn cut_after(refusal: Refusal, accepted: u64) -> Counted {
    Counted {
        accepted,
        error: Some(refusal.into()),
    }
}

/// What a count is to answer of a built program.
fn by_runs(program: &[u8], link: u8, capture: &[u8]) -> Counted {
    let Some(reading) = read(capture) else {
        return refused(Refusal::NoCapture);
    };
    if reading.link != field_of(link) {
        return refused(Refusal::OtherLink);
    }
    let accepts = |frame: &[u8]| run(program, frame).map(|o| o.verdict) == Ok(Verdict::Accepted);
    let accepted = reading.frames.into_iter().filter(|frame| accepts(frame));
    let accepted = accepted.count() as u64;
    if reading.rest.is_empty() {
        whole(accepted)
    } else {
        cut_after(Refusal::CutFrame, accepted)
    }
}

/// Counts with a buffer of a length, and holds answer and buffer to a build and its runs.
fn count_with(length: usize, tree: &[u8], capture: &[u8]) -> Counted {
    let (counted, buffer) = lend(length, |buffer| count(tree, buffer, capture));
    let (built, same) = lend(length, |buffer| build(tree, buffer));
    assert_eq!(buffer, same, "the buffer after a build");
    let expected = match built {
        Ok(instructions) => by_runs(&buffer[..8 * instructions], tree[5], capture),
        Err(error) => error.into(),
    };
    assert_eq!(counted, expected);
    counted
}

/// Walks a capture: the frames are those of the reader, at the same addresses.
fn walk(capture: &[u8]) {
    let Some(reading) = read(capture) else {
        assert_eq!(frames(capture).err(), Some(Refusal::NoCapture.into()));
        return;
    };
    let mut walk = frames(capture).expect("a capture");
    for frame in reading.frames {
        let next = walk.next().expect("a frame").expect("a good frame");
        assert_eq!(next.as_ptr_range(), frame.as_ptr_range());
    }
    assert_eq!(walk.at(), capture.len() - reading.rest.len());
    let cut = (!reading.rest.is_empty()).then_some(Err(Refusal::CutFrame.into()));
    assert_eq!(walk.next(), cut);
    assert_eq!(walk.next(), None);
    assert_eq!(walk.at(), capture.len() - reading.rest.len());
}

/// Both, with a buffer for any program.
fn both(tree: &[u8], capture: &[u8]) -> Counted {
    walk(capture);
    count_with(MAX_PROGRAM, tree, capture)
}

fn udp(link: u8) -> Vec<u8> {
    file(link, protocol(UDP))
}

/// An IPv4 packet of a protocol behind a link's header, of a length.
fn ipv4(link: u8, number: u8, length: usize) -> Vec<u8> {
    let start = [14, 0, 16][usize::from(link) - 1];
    let mut frame = vec![0; MAX_FRAME + 1];
    if start > 0 {
        frame[start - 2] = 0x08; // ethertype 0x0800
    }
    (frame[start], frame[start + 9]) = (0x45, number);
    frame.truncate(length);
    frame
}

/// Seven frames: by udp three are accepted, the first, the third and the fifth.
fn seven(link: u8) -> Vec<Vec<u8>> {
    let shortest = [24, 10, 26][usize::from(link) - 1];
    vec![
        ipv4(link, 17, 100),
        ipv4(link, 17, shortest - 1),
        ipv4(link, 17, shortest),
        vec![],
        ipv4(link, 17, 60),
        ipv4(link, 6, 60),
        vec![],
    ]
}

#[test]
fn of_every_link_order_and_mark() {
    for (link, _) in LINK_FIELDS {
        for (order, mark) in ORDERS.into_iter().flat_map(|o| MARKS.map(|m| (o, m))) {
            let capture = capture(order, mark, link, &seven(link));
            for (other, _) in LINK_FIELDS {
                let expected = if other == link {
                    whole(3)
                } else {
                    refused(Refusal::OtherLink)
                };
                assert_eq!(both(&udp(other), &capture), expected);
            }
        }
    }
}

#[test]
fn cut_after_every_byte() {
    let tree = udp(ETHERNET);
    for order in ORDERS {
        let all = capture(order, MARKS[0], ETHERNET, &seven(ETHERNET));
        let mut met = [0; 4];
        for length in 0..all.len() {
            let counted = both(&tree, &all[..length]);
            if length < FILE_HEADER {
                assert_eq!(counted, refused(Refusal::NoCapture));
            }
            met[counted.accepted as usize] += usize::from(counted.error.is_none());
        }
        // The captures that end with a frame, by the accepted ones.
        assert_eq!(met, [1, 2, 2, 2]);
    }
}

/// Of the file header mark and link are tested, all their bits, and no other field.
#[test]
fn with_every_bit_of_the_file_header_turned() {
    for order in ORDERS {
        let good = capture(order, MARKS[1], RAW_IP, &seven(RAW_IP));
        for bit in 0..8 * FILE_HEADER {
            let mut turned = good.clone();
            turned[bit / 8] ^= 1 << (bit % 8);
            let expected = match bit / 8 {
                0..4 => refused(Refusal::NoCapture),
                LINK_PLACE.. => refused(Refusal::OtherLink),
                _ => whole(3),
            };
            assert_eq!(both(&udp(RAW_IP), &turned), expected, "bit {bit}");
        }
    }
}

/// Marks of other files: pcapng, a changed pcap, halves exchanged.
#[test]
fn of_other_marks() {
    for order in ORDERS {
        for mark in [
            0,
            0x0a0d_0d0a,
            0xa1b2_cd34,
            0xa1b2_c3d5,
            0xa1b2_c34d,
            0xa1b2_3cd4,
            0xb2a1_d4c3,
            0xc3d4_a1b2,
            0xffff_ffff,
        ] {
            let capture = capture(order, mark, ETHERNET, &seven(ETHERNET));
            assert_eq!(both(&udp(ETHERNET), &capture), refused(Refusal::NoCapture));
        }
    }
}

/// Links of other files: raw IP's other numbers, the trees' own, with a check sequence's length,
/// swapped.
#[test]
fn of_other_links() {
    for (link, _) in LINK_FIELDS {
        for order in ORDERS {
            for field in [
                0,
                2,
                3,
                12,
                14,
                100,
                102,
                112,
                114,
                228,
                276,
                0x3000_0001,
                0x3000_0065,
                0x6500_0000,
                0x7100_0000,
                0xffff_ffff,
            ] {
                let capture = file_header(order, MARKS[0], field);
                assert_eq!(both(&udp(link), &capture), refused(Refusal::OtherLink));
            }
        }
    }
}

/// The fields that are not tested, all of them zero.
#[test]
fn with_zero_fields() {
    for order in ORDERS {
        let mut capture = capture(order, MARKS[0], ETHERNET, &seven(ETHERNET));
        capture[4..LINK_PLACE].fill(0);
        let frame = &mut capture[FILE_HEADER..][..FRAME_HEADER];
        frame[..CAPTURED_PLACE].fill(0);
        frame[CAPTURED_PLACE + 4..].fill(0);
        assert_eq!(both(&udp(ETHERNET), &capture), whole(3));
    }
}

/// Of a frame header the captured length is read, and no other field.
#[test]
fn with_every_bit_of_a_frame_header_turned() {
    for order in ORDERS {
        let good = capture(order, MARKS[0], LINUX_SLL, &seven(LINUX_SLL));
        for bit in 0..8 * FRAME_HEADER {
            let mut turned = good.clone();
            turned[FILE_HEADER + bit / 8] ^= 1 << (bit % 8);
            let counted = both(&udp(LINUX_SLL), &turned);
            if !(CAPTURED_PLACE..CAPTURED_PLACE + 4).contains(&(bit / 8)) {
                assert_eq!(counted, whole(3), "bit {bit}");
            }
        }
    }
}

#[test]
fn of_long_frames() {
    let tree = udp(ETHERNET);
    let [longest, too_long] = [MAX_FRAME, MAX_FRAME + 1].map(|n| ipv4(ETHERNET, 17, n));
    for order in ORDERS {
        let of = |frames: &[&[u8]]| both(&tree, &capture(order, MARKS[0], ETHERNET, frames));
        assert_eq!(of(&[&longest, &longest]), whole(2));
        let cut = of(&[&longest, &too_long, &longest]);
        assert_eq!(cut, cut_after(Refusal::CutFrame, 1));
        for captured in [1, 65_536, 0x1_0000 + 60, 0x7fff_ffff, 0xffff_ffff] {
            let mut capture = capture(order, MARKS[1], ETHERNET, &[&longest]);
            capture.extend(frame_header(order, captured));
            assert_eq!(both(&tree, &capture), cut_after(Refusal::CutFrame, 1));
        }
    }
}

/// Captures with faults, for a tree of Ethernet: a cut frame; also another link; also another mark.
fn faulty() -> [Vec<u8>; 3] {
    let [cut, other] = [ETHERNET, RAW_IP].map(|link| {
        let mut capture = capture(ORDERS[0], MARKS[0], link, &seven(link));
        capture.pop();
        capture
    });
    let mut none = other.clone();
    none[0] = 0;
    [cut, other, none]
}

#[test]
fn in_order() {
    let tree = udp(ETHERNET);
    let [cut, other, none] = faulty();
    assert_eq!(both(&tree, &cut), cut_after(Refusal::CutFrame, 3));
    assert_eq!(both(&tree, &other), refused(Refusal::OtherLink));
    assert_eq!(both(&tree, &none), refused(Refusal::NoCapture));
    let exact = 8 * build(&tree, &mut [0; MAX_PROGRAM]).expect("a program");
    for length in [0, exact - 1] {
        let counted = count_with(length, &tree, &none);
        assert_eq!(counted, refused(Refusal::ShortBuffer));
    }
    for length in [exact, exact + 1, 40_000] {
        let counted = count_with(length, &tree, &none);
        assert_eq!(counted, refused(Refusal::NoCapture));
    }
}

#[test]
fn after_the_trees_own() {
    for (tree, refusal) in [
        (vec![], Refusal::StrangeFile),
        (file(ETHERNET, vec![]), Refusal::WrongCount),
        (file(ETHERNET, vec![record(25)]), Refusal::BadRecord),
        (file(ETHERNET, vec![record(3)]), Refusal::NotOneTree),
        (file(RAW_IP, protocol(IP6)), Refusal::KindOnRaw),
        (file(ETHERNET, port(EITHER, ICMP, 1)), Refusal::PortProtocol),
        (file(RAW_IP, ether_multicast()), Refusal::EtherOnRaw),
        (far(EITHER), Refusal::FarJump),
        (file(LINUX_SLL, ether_multicast()), Refusal::CookedAddress),
    ] {
        for capture in faulty() {
            assert_eq!(both(&tree, &capture), refused(refusal));
        }
    }
}

#[test]
fn of_few_bytes() {
    let tree = udp(ETHERNET);
    assert_eq!(count(&[], &mut [], &[]), refused(Refusal::StrangeFile));
    assert_eq!(count(&tree, &mut [], &[]), refused(Refusal::ShortBuffer));
    assert_eq!(both(&tree, &[]), refused(Refusal::NoCapture));
    let mut header = file_header(ORDERS[1], MARKS[0], 1);
    assert_eq!(both(&tree, &header), whole(0));
    header[3] = 0;
    assert_eq!(both(&tree, &header), refused(Refusal::NoCapture));
    // A frame of no bytes that is accepted.
    let empty = capture(ORDERS[0], MARKS[0], RAW_IP, &[[]]);
    assert_eq!(both(&file(RAW_IP, protocol(IP)), &empty), whole(1));
}

/// A random capture for a link: most frames are cut short somewhere, and some files are damaged.
fn random_capture(rng: &mut Rng, link: u8) -> Vec<u8> {
    let frames: Vec<Vec<u8>> = (0..rng.below(12))
        .map(|_| {
            let mut frame = random_frame(rng);
            frame.truncate(rng.below(160));
            frame
        })
        .collect();
    let (order, mark) = (ORDERS[rng.below(2)], MARKS[rng.below(2)]);
    let mut bytes = capture(order, mark, link, &frames);
    match rng.below(8) {
        0 => bytes.truncate(rng.below(bytes.len() as u64)),
        1 => bytes[rng.below(FILE_HEADER as u64)] ^= 1 << rng.below(8),
        2 => {
            let place = rng.below(bytes.len() as u64);
            bytes[place] = rng.below(256) as u8;
        }
        3 => bytes.extend(frame_header(order, rng.below(1 << 17))),
        _ => {}
    }
    bytes
}

#[test]
fn of_random_trees_and_captures() {
    let mut rng = Rng(1);
    let (mut accepted, mut met) = (0, [0; Refusal::ALL.len() + 1]);
    for _ in 0..4_000 {
        let link = [ETHERNET, RAW_IP, LINUX_SLL][rng.below(3)];
        let tree = file(link, random_tree(&mut rng, 3));
        let length = [MAX_PROGRAM, MAX_PROGRAM, 80, 800][rng.below(4)];
        let capture = random_capture(&mut rng, link);
        walk(&capture);
        let counted = count_with(length, &tree, &capture);
        let number = counted.error.map_or(Some(0), Error::number);
        met[number.expect("a refusal") as usize] += 1;
        accepted += counted.accepted;
    }
    for (number, least) in [(0, 500), (9, 50), (12, 30), (13, 30), (14, 100), (15, 30)] {
        assert!(met[number] > least, "{met:?}");
    }
    assert!(accepted > 2_000, "{accepted}");
}

/// A tree counts as its file does; a refusal is an error with its word.
#[test]
fn by_a_tree() {
    let mut capture = capture(ORDERS[1], MARKS[1], ETHERNET, &seven(ETHERNET));
    let tree = Tree::try_from(&udp(ETHERNET)[..]).expect("a tree");
    assert_eq!(tree.count(&capture), whole(3));
    assert_eq!(tree.count(&capture).into_result(), Ok(3));
    capture.push(0);
    let counted = tree.count(&capture);
    assert_eq!(counted, cut_after(Refusal::CutFrame, 3));
    let error = counted.into_result().expect_err("a cut frame");
    assert_eq!(error.to_string(), "refused 14, cut frame");
    let error = tree.count(&capture[1..]).error.expect("no capture");
    assert_eq!(error.to_string(), "refused 12, no capture");
    let other = Tree::try_from(&udp(RAW_IP)[..]).expect("a tree");
    let error = other.count(&capture).error.expect("another link");
    assert_eq!(error.to_string(), "refused 13, other link");
    let refused = Tree::try_from(&file(RAW_IP, protocol(IP6))[..]).expect("a tree");
    let error = refused.count(&capture).error.expect("a refused tree");
    assert_eq!(error.to_string(), "refused 5, kind on raw");
}

#[test]
fn frames_as_an_iterator() {
    let mut capture = capture(ORDERS[0], MARKS[0], ETHERNET, &seven(ETHERNET));
    let good: Result<Vec<_>, _> = frames(&capture).expect("a capture").collect();
    assert_eq!(good, Ok(seven(ETHERNET).iter().map(|f| &f[..]).collect()));
    capture.extend([0; 7]);
    let all = frames(&capture).expect("a capture");
    let cut: Result<Vec<_>, _> = all.clone().collect();
    assert_eq!(cut, Err(Refusal::CutFrame.into()));
    assert_eq!(all.clone().flatten().count(), 7);
    let mut walk = all;
    for left in (0..=8).rev() {
        let (least, most) = walk.size_hint();
        assert!(least <= left && left <= most.expect("a limit"), "{walk:?}");
        assert_eq!(least > 0, left > 0);
        assert_eq!(walk.next().is_some(), left > 0);
    }
    assert_eq!(walk.size_hint(), (0, Some(0)));
    let said = format!("Frames(at {} of {})", capture.len() - 7, capture.len());
    assert_eq!(format!("{walk:?}"), said);
}

#[test]
fn at_every_alignment() {
    let (tree, good) = (
        udp(ETHERNET),
        capture(ORDERS[1], MARKS[0], ETHERNET, &seven(ETHERNET)),
    );
    for shift in 0..8 {
        let moved = [&vec![0xee; shift][..], &good].concat();
        assert_eq!(both(&tree, &moved[shift..]), whole(3));
    }
}

#[test]
fn from_several_threads() {
    let capture = capture(ORDERS[0], MARKS[0], ETHERNET, &seven(ETHERNET));
    std::thread::scope(|scope| {
        for _ in 0..4 {
            scope.spawn(|| {
                for _ in 0..100 {
                    assert_eq!(both(&udp(ETHERNET), &capture), whole(3));
                }
            });
        }
    });
}

/// Many frames: the counts of each length of frame add up.
#[test]
fn of_many_frames() {
    let many: Vec<Vec<u8>> = (0..100_000)
        .map(|i| ipv4_start(if i % 3 == 0 { 17 } else { 6 }, i % 50))
        .collect();
    let capture = capture(ORDERS[1], MARKS[0], RAW_IP, &many);
    let accepted = (0..100_000).filter(|i| i % 3 == 0 && i % 50 >= 10).count();
    assert_eq!(both(&udp(RAW_IP), &capture), whole(accepted as u64));
}

/// The start of an IPv4 packet of a protocol.
fn ipv4_start(number: u8, length: usize) -> Vec<u8> {
    let mut packet = [0; 50];
    (packet[0], packet[9]) = (0x45, number);
    packet[..length].to_vec()
}
