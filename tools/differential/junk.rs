//! Lines of any bytes and of any words: all of the shortest, drawn ones, and very long ones.

use crate::asked::Met;
use crate::lines::{any_byte, any_word, joined, spaced};
use crate::trees::Rng;

/// All lines of none, one and two bytes; of three and four that some bytes make.
fn compare_short(met: &mut Met) {
    const THREE: &[u8] = b" ()0123456789.abcdehimnoprstuIP\t\n\0\x7F\x80\xFF";
    const FOUR: &[u8] = b" ()ip6ortc.0";
    met.ask_links(b"");
    for first in 0..=255 {
        met.ask_links(&[first]);
        (0..=255).for_each(|second| met.ask_links(&[first, second]));
    }
    compare_made(&mut Vec::new(), THREE, 3, met);
    compare_made(&mut Vec::new(), FOUR, 4, met);
}

/// All lines of so many of these bytes.
fn compare_made(line: &mut Vec<u8>, bytes: &[u8], length: usize, met: &mut Met) {
    if line.len() == length {
        met.ask(1 + (met.lines() % 3) as u8, line);
        return;
    }
    for byte in bytes {
        line.push(*byte);
        compare_made(line, bytes, length, met);
        line.pop();
    }
}

/// Bytes of every sort, bytes that lines are made of, and words in any order.
fn compare_drawn(rng: &mut Rng, met: &mut Met) {
    let link = 1 + rng.below(3) as u8;
    let most = rng.pick(&[4, 10, 40, 300]);
    let length = rng.between(0, most);
    let line: Vec<u8> = (0..length).map(|_| rng.draw() as u8).collect();
    met.ask(link, &line);
    let line: Vec<u8> = (0..length).map(|_| any_byte(rng)).collect();
    met.ask(link, &line);
    let words: Vec<Vec<u8>> = (0..rng.between(0, 12)).map(|_| any_word(rng)).collect();
    met.ask(link, &spaced(rng, &words));
}

/// Lines whose words can follow one another more often than not: each is drawn again where the
/// one before it turned it down.
fn compare_patient(rng: &mut Rng, met: &mut Met) {
    let mut words: Vec<Vec<u8>> = Vec::new();
    let link = 1 + rng.below(3) as u8;
    for _ in 0..rng.between(1, 40) {
        words.push(any_word(rng));
        let line = joined(&words);
        met.ask(link, &line);
        let place = crate::typing::read(link, &line)
            .err()
            .map(|refusal| refusal.place);
        if place.is_some_and(|place| place < line.len()) {
            words.pop();
        }
    }
    met.ask(link, &joined(&words));
}

/// What long lines repeat.
const REPEATED: [&str; 18] = [
    " ",
    "a",
    "0",
    "1",
    "(",
    ")",
    "\0",
    "\t",
    ".",
    "( ",
    ") ",
    "not ",
    "ip and ",
    "( ip ) or ",
    "ip ",
    "1.",
    "not ( ",
    "src port 65535 and ",
];

/// From 10,000 to a million bytes of one thing, with a good start or none, and an end that
/// makes it whole, or does not.
fn compare_long(met: &mut Met) {
    const STARTS: [&str; 4] = ["", "ip ", "port ", "( host 10.0.0."];
    const ENDS: [&str; 6] = ["", "ip", " ip", "x", " and ip", " )"];
    for (turn, length) in [10_000, 65_535, 65_536, 100_000, 1_000_000]
        .into_iter()
        .enumerate()
    {
        for (i, piece) in REPEATED.iter().enumerate() {
            for start in STARTS {
                let end = ENDS[(turn + i) % ENDS.len()];
                let room = length - start.len() - end.len();
                let mut line = [start, &piece.repeat(room / piece.len())].concat();
                line += end;
                met.ask(1, line.as_bytes());
                met.ask(1, &line.as_bytes()[..line.len() - 1]);
            }
        }
    }
}

/// Long lines of which all brackets close, and lines of one condition between many spaces.
fn compare_whole(met: &mut Met) {
    for count in [128, 129, 5_000, 50_000, 200_000] {
        let wrapped = ["( ".repeat(count), "ip".into(), " )".repeat(count)].concat();
        let spaces = " ".repeat(count);
        let lines = [
            wrapped.clone(),
            wrapped.clone() + " )",
            wrapped + " and",
            format!("{spaces}tcp{spaces}src{spaces}port{spaces}80{spaces}"),
            format!("{spaces}tcp{spaces}src{spaces}port{spaces}"),
            format!("{spaces}tcp{spaces}src{spaces}host{spaces}"),
            format!("{spaces}tcp{spaces}080{spaces}"),
        ];
        lines.iter().for_each(|line| met.ask_links(line.as_bytes()));
    }
}

pub fn compare_all(rng: &mut Rng, count: u64, met: &mut Met) {
    for _ in 0..count {
        compare_drawn(rng, met);
        if rng.one_in(8) {
            compare_patient(rng, met);
        }
    }
    compare_short(met);
    compare_long(met);
    compare_whole(met);
}
