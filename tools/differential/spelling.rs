//! Words that are nearly those of the list, numbers and addresses of every form, bytes that are
//! nearly a space, and links.

use crate::asked::Met;
use crate::lines::{dotted, joined, PORTS, SIDES, TRANSPORTS};
use crate::trees::Rng;

/// By turns.
fn link(turn: usize) -> u8 {
    1 + (turn % 3) as u8
}

// ── Words ────────────────────────────────────────────────────────────────────

/// Each word where it can stand: what is before it, the word, and what is behind it.
const STANDING: [[&str; 3]; 22] = [
    ["", "ip", ""],
    ["", "ip6", ""],
    ["", "arp", ""],
    ["", "rarp", ""],
    ["", "tcp", ""],
    ["", "udp", ""],
    ["", "sctp", ""],
    ["", "icmp", ""],
    ["", "host", "10.0.0.1"],
    ["src", "host", "10.0.0.1"],
    ["", "port", "80"],
    ["tcp dst", "port", "80"],
    ["", "src", "host 10.0.0.1"],
    ["udp", "dst", "port 80"],
    ["", "(", "ip )"],
    ["( ip", ")", ""],
    ["", "not", "ip"],
    ["ip", "and", "ip6"],
    ["ip", "or", "ip6"],
    ["host", "192.168.10.1", ""],
    ["sctp port", "65535", ""],
    ["port", "0", ""],
];

/// A word with a byte changed to any other, dropped, or any one more; or all of its letters
/// otherwise.
fn near(word: &str) -> Vec<Vec<u8>> {
    let word = word.as_bytes();
    let mut all = vec![
        word.to_ascii_uppercase(),
        word.repeat(2),
        word.iter().rev().copied().collect(),
    ];
    for at in 0..=word.len() {
        for byte in 0..=255 {
            all.push([&word[..at], &[byte], &word[at..]].concat());
            if at < word.len() {
                all.push([&word[..at], &[byte], &word[at + 1..]].concat());
            }
        }
        if at < word.len() {
            all.push([&word[..at], &word[at + 1..]].concat());
        }
    }
    all
}

/// Each near word alone, and behind and before others.
fn compare_words(met: &mut Met) {
    for [before, word, behind] in STANDING {
        for (i, near) in near(word).iter().enumerate() {
            let line = joined(&[before.as_bytes(), near, behind.as_bytes()]);
            met.ask(link(i), &line);
            met.ask(link(i), &[b"not ( ", &line[..], b" ) and arp"].concat());
        }
    }
}

/// Every two words without a space between them, where one or the other can stand.
fn compare_glued(met: &mut Met) {
    for [before, word, behind] in STANDING {
        for [_, other, last] in STANDING {
            for glued in [[word, other], [other, word]] {
                let line = joined(&[before, &glued.concat(), behind]);
                met.ask_links(&line);
                met.ask_links(&joined(&[&line[..], b"and", last.as_bytes()]));
            }
        }
    }
}

/// Every byte in the place of each space, of all of them, and first and last.
fn compare_separators(met: &mut Met) {
    const LINES: [&str; 4] = [
        "ip and arp",
        "not ( tcp src port 80 or dst host 10.0.0.1 )",
        "( ( ip ) )",
        "udp",
    ];
    for line in LINES {
        let line = line.as_bytes();
        for byte in 0..=255 {
            let spaces = (0..line.len()).filter(|i| line[*i] == b' ');
            let mut all = line.to_vec();
            for at in spaces {
                all[at] = byte;
                met.ask_links(&[&line[..at], &[byte], &line[at + 1..]].concat());
                met.ask_links(&[&line[..at], &[b' ', byte, b' '], &line[at + 1..]].concat());
            }
            met.ask_links(&all);
            met.ask_links(&[&[byte], line].concat());
            met.ask_links(&[line, &[byte]].concat());
            met.ask_links(&[line, &[b' ', byte]].concat());
        }
    }
}

/// Every link byte over lines with each answer.
fn compare_links(met: &mut Met) {
    let mut lines: Vec<Vec<u8>> = [
        "", " ", "ip", "x", "ip x", "ip ip", "ip and", "( ip", "ip )",
    ]
    .map(|line| line.as_bytes().to_vec())
    .into();
    lines.extend(STANDING.map(|words| joined(&words)));
    let nots = |count| [b"not ".repeat(count), b"ip".to_vec()].concat();
    lines.extend([nots(127), nots(128), b"( ".repeat(129)]);
    for line in lines {
        (0..=255).for_each(|link| met.ask(link, &line));
    }
}

// ── Numbers ──────────────────────────────────────────────────────────────────

/// Every form of a port's words before its number.
fn port_forms() -> Vec<String> {
    let pairs = TRANSPORTS.iter().flat_map(|t| SIDES.map(|s| (t.0, s.0)));
    pairs
        .map(|(protocol, side)| format!("{protocol} {side} port"))
        .collect()
}

/// All numbers to 70,000 with all forms of a port; a third of them also behind others.
fn compare_ports(met: &mut Met) {
    const MOST: usize = 70_000;
    for form in port_forms() {
        for number in 0..=MOST {
            met.ask(link(number), format!("{form} {number}").as_bytes());
        }
    }
    for number in (0..=MOST).step_by(3) {
        let line = format!("not ip6 and ( port {number} )");
        met.ask(link(number / 3), line.as_bytes());
    }
}

/// All bytes to 300 at each place of an address, among others at the edges.
fn compare_addresses(met: &mut Met) {
    const OTHERS: [u8; 6] = [0, 9, 10, 99, 100, 255];
    for (side, _) in SIDES {
        for place in 0..4 {
            for (byte, other) in (0..=300).flat_map(|b| OTHERS.map(|other| (b, other))) {
                let mut parts = [other; 4].map(|part: u8| part.to_string());
                parts[place] = byte.to_string();
                let line = format!("{side} host {}", parts.join("."));
                met.ask(link(byte), line.as_bytes());
            }
        }
    }
}

/// Parts of an address, good and bad.
const PARTS: [&str; 26] = [
    "",
    "0",
    "1",
    "9",
    "10",
    "99",
    "100",
    "199",
    "249",
    "255",
    "00",
    "01",
    "010",
    "0255",
    "256",
    "260",
    "300",
    "999",
    "1000",
    "65536",
    "4294967296",
    "4294967297",
    "18446744073709551617",
    "+1",
    "-1",
    "a",
];

/// A row of parts by its number: so many digits, each a part.
fn parts_of(mut number: usize, count: usize, parts: &[&'static str]) -> Vec<&'static str> {
    let mut row = Vec::new();
    for _ in 0..count {
        row.push(parts[number % parts.len()]);
        number /= parts.len();
    }
    row
}

/// Every row of up to four parts, and of five and six of some, dotted, where an address is
/// wanted; the shorter ones also elsewhere.
fn compare_parts(met: &mut Met) {
    const SOME: [&str; 5] = ["", "0", "01", "255", "256"];
    for (count, parts) in [
        (1, &PARTS[..]),
        (2, &PARTS),
        (3, &PARTS),
        (4, &PARTS),
        (5, &SOME),
        (6, &SOME),
    ] {
        for number in 0..parts.len().pow(count as u32) {
            let address = parts_of(number, count, parts).join(".");
            met.ask(link(number), format!("host {address}").as_bytes());
            if count < 4 {
                for before in ["port", "src host", "", "ip", "( host"] {
                    met.ask(link(number), format!("{before} {address}").as_bytes());
                }
            }
        }
    }
}

/// Numbers that are small again when counted in 8, 16, 31, 32, 63, 64 or 128 bits, and small
/// ones behind many zeros.
fn long_numbers(small: u16) -> Vec<String> {
    let powers = [8, 16, 31, 32, 48, 63, 64, 96].map(|bits| 1_u128 << bits);
    let times = [1, 2, 3, 255, 256, 65_535];
    let wrapped = powers
        .iter()
        .flat_map(|p| times.map(|n| p * n + small as u128));
    let mut all: Vec<String> = wrapped.map(|n| n.to_string()).collect();
    let last = u128::MAX - u128::MAX % 100_000;
    all.push((last + small as u128).to_string());
    // 2^128 and 2^256, whose last nine digits have room for a small number
    for power in [
        ("340282366920938463463374607431", 768_211_456),
        (
            "115792089237316195423570985008687907853269984665640564039457584007913",
            129_639_936,
        ),
    ] {
        all.push(format!("{}{:09}", power.0, power.1 + small as u64));
    }
    all.extend(
        [1, 2, 3, 4, 5, 8, 10, 17, 20, 39, 300, 1000].map(|n| "0".repeat(n) + &small.to_string()),
    );
    all.extend(["+", "-", "0x", "#", "\u{661}"].map(|sign| format!("{sign}{small}")));
    all.extend([".", "e0", ".0", "u", "\0", "\t", "\n", ","].map(|end| format!("{small}{end}")));
    all
}

fn compare_long_numbers(met: &mut Met) {
    for small in PORTS {
        for (i, number) in long_numbers(small).iter().enumerate() {
            for form in port_forms()
                .iter()
                .map(String::as_str)
                .chain(["", "host", "ip and"])
            {
                met.ask(link(i), format!("{form} {number}").as_bytes());
            }
            for place in 0..4 {
                let mut parts = ["10", "0", "255", "1"];
                parts[place] = number;
                met.ask(link(i), format!("dst host {}", parts.join(".")).as_bytes());
            }
        }
    }
}

/// Drawn addresses over their whole range, in every form.
fn compare_drawn(rng: &mut Rng, count: u64, met: &mut Met) {
    for i in 0..count as usize {
        let bytes = (rng.draw() as u32).to_be_bytes();
        let (side, _) = rng.pick(&SIDES);
        met.ask(link(i), format!("{side} host {}", dotted(bytes)).as_bytes());
    }
}

pub fn compare_all(rng: &mut Rng, count: u64, met: &mut Met) {
    compare_words(met);
    compare_glued(met);
    compare_separators(met);
    compare_links(met);
    compare_long_numbers(met);
    compare_addresses(met);
    compare_parts(met);
    compare_ports(met);
    compare_drawn(rng, count, met);
}
