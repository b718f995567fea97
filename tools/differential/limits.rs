//! Lines about 128 records and 128 brackets open at once, with and without a fault, and far
//! larger ones.

use crate::asked::Met;
use crate::fail;
use crate::lines::{joined, spaced};
use crate::part::FIRST;
use crate::trees::Rng;
use crate::typing::{self, MOST};

type Words = Vec<&'static str>;

/// A line, its records, and its brackets open at once.
struct Base {
    words: Words,
    records: usize,
    brackets: usize,
}

/// So many joins from the left, the conditions and joins by turns, behind so many nots.
fn chain(nots: usize, joins: usize) -> Words {
    const CONDITIONS: [&[&str]; 4] = [
        &["ip"],
        &["tcp", "src", "port", "80"],
        &["host", "10.0.0.1"],
        &["udp"],
    ];
    let mut words = vec!["not"; nots];
    words.extend(CONDITIONS[0]);
    for i in 1..=joins {
        words.push(["and", "or"][i % 2]);
        words.extend(CONDITIONS[i % 4]);
    }
    words
}

/// So many records: a chain, nots alone, a chain under nots, joins to the right.
fn of_records(records: usize) -> Vec<Base> {
    let (joins, rest) = ((records - 1) / 2, (records - 1) % 2);
    let plain = |words| Base {
        words,
        records,
        brackets: 0,
    };
    let mut right = vec!["not"; rest];
    right.extend(["ip", "and", "("].repeat(joins - 1));
    right.extend(["ip", "or", "ip"]);
    right.extend(vec![")"; joins - 1]);
    vec![
        plain(chain(rest, joins)),
        plain(chain(records - 1, 0)),
        plain(chain(records - 41, 20)),
        Base {
            words: right,
            records,
            brackets: joins - 1,
        },
    ]
}

fn wrapped(words: &[&'static str], brackets: usize) -> Words {
    [&vec!["("; brackets][..], words, &vec![")"; brackets]].concat()
}

/// So many brackets around one condition, at a line's start, middle, end, or all of it; one by
/// one with nots between; and twice.
fn of_brackets(brackets: usize) -> Vec<Base> {
    let deep = wrapped(&["arp"], brackets);
    let (first, last) = (["ip", "and"].repeat(20), ["or", "ip6"].repeat(20));
    let base = |words: Words, records| Base {
        words,
        records,
        brackets,
    };
    let mut by_nots = ["not", "("].repeat(brackets);
    by_nots.push("sctp");
    by_nots.extend(vec![")"; brackets]);
    let twice = [&deep[..], &["and"], &deep].concat();
    vec![
        base(deep.clone(), 1),
        base([&deep[..], &last].concat(), 41),
        base([&first[..], &deep, &last].concat(), 81),
        base([&first[..], &deep].concat(), 41),
        base(wrapped(&chain(0, 60), brackets), 121),
        base(by_nots, brackets + 1),
        base(twice, 3),
    ]
}

/// Many brackets in all of which few are open at once.
fn in_turns() -> Vec<Base> {
    let turns = [(1, 63), (2, 63), (3, 50), (64, 30), (127, 20), (128, 63)];
    let base = |(brackets, joins): (usize, usize)| {
        let one = wrapped(&["ip"], brackets);
        let mut words = one.clone();
        for _ in 0..joins {
            words.push("and");
            words.extend(&one);
        }
        Base {
            words,
            records: 2 * joins + 1,
            brackets,
        }
    };
    turns.map(base).into()
}

/// About either limit, about both, and beyond both.
fn bases() -> Vec<Base> {
    let about = MOST - 2..=MOST + 3;
    let mut all: Vec<Base> = about.clone().flat_map(of_records).collect();
    all.extend(about.clone().flat_map(of_brackets));
    for records in MOST - 1..=MOST + 2 {
        all.extend(about.clone().map(|brackets| Base {
            words: wrapped(&chain(records - 41, 20), brackets),
            records,
            brackets,
        }));
    }
    all.extend(in_turns());
    all
}

/// Places where a fault is put: early, in the middle, late, at the end.
fn places(length: usize) -> [usize; 6] {
    [0, 1, length / 2, length - 2, length - 1, length]
}

/// A line with 16 or 17 somewhere, or both in either order.
fn faulty(words: &Words) -> Vec<Words> {
    const WRONG: [&str; 6] = ["ipx", ")", "and", "80", "10.0.0.1", "("];
    let mut all = Vec::new();
    for at in places(words.len()) {
        for word in WRONG {
            let mut other = words.clone();
            other.insert(at.min(words.len()), word);
            all.push(other);
        }
    }
    for pair in [["ipx", ")"], [")", "ipx"]] {
        let mut other = words.clone();
        other.insert(words.len() - 1, pair[1]);
        other.insert(1, pair[0]);
        all.push(other);
    }
    all.push(words[..words.len() - 1].to_vec());
    all.push([&words[..], &["or"]].concat());
    all.push([&words[..], &["or", "not"]].concat());
    all
}

/// The second parser has to find the size that was written.
fn check_parser(base: &Base, text: &[u8]) {
    let size = typing::size_of(text);
    let right = size.is_some_and(|s| s.records == base.records && s.brackets == base.brackets);
    if !right && !FIRST.load(std::sync::atomic::Ordering::Relaxed) {
        let (records, brackets) = (base.records, base.brackets);
        fail(&format!(
            "not {records} records and {brackets} brackets: {}",
            text.escape_ascii()
        ));
    }
}

/// Every count of records and of brackets, within the limits and beyond.
fn compare_counts(met: &mut Met) {
    for count in 1..=300 {
        let (joins, rest) = ((count - 1) / 2, (count - 1) % 2);
        met.ask_links(&joined(&chain(rest, joins)));
        met.ask_links(&joined(&chain(count - 1, 0)));
        met.ask_links(&joined(&wrapped(&["tcp", "port", "80"], count)));
        met.ask_links(&joined(&wrapped(&chain(1, 10), count)));
    }
}

/// Far beyond the limits, whole and with a fault at the end.
fn compare_large(met: &mut Met) {
    for size in [256, 257, 1000, 32_768, 65_536, 65_537, 100_000] {
        let mut all = of_records(size);
        all.extend(of_brackets(size));
        for base in all {
            check_parser(&base, &joined(&base.words));
            met.ask(1, &joined(&base.words));
            for end in [&["ipx"][..], &["or"], &[")"], &["and", "ip"]] {
                met.ask(1, &joined(&[&base.words[..], end].concat()));
            }
        }
    }
}

pub fn compare_all(rng: &mut Rng, _: u64, met: &mut Met) {
    const STRANGE_LINKS: [u8; 2] = [0, 4];
    for base in bases() {
        check_parser(&base, &joined(&base.words));
        met.ask_links(&joined(&base.words));
        met.ask_links(&spaced(rng, &base.words));
        for link in STRANGE_LINKS {
            met.ask(link, &joined(&base.words));
        }
        for words in faulty(&base.words) {
            met.ask(1 + rng.below(3) as u8, &joined(&words));
            met.ask(1 + rng.below(3) as u8, &spaced(rng, &words));
        }
    }
    compare_counts(met);
    compare_large(met);
}
