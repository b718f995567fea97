//! Typed lines, drawn word by word: such as the rules allow, and such as break them.

use std::net::Ipv4Addr;

use crate::trees::Rng;
use crate::values::Values;

const RAWIP: u8 = 2;
/// The last three name a kind that RawIp has not, so that its build refuses them (5).
const NAMES: [&str; 8] = ["ip", "tcp", "udp", "sctp", "icmp", "ip6", "arp", "rarp"];
const RAW_NAMES: &[&str] = NAMES.split_at(5).0;
const PROTOCOLS: [&str; 3] = ["tcp", "udp", "sctp"];
const SIDES: [&str; 2] = ["src", "dst"];
const JOINS: [&str; 2] = ["and", "or"];
/// The words beside names, numbers and addresses.
const OTHERS: [&str; 9] = ["src", "dst", "host", "port", "and", "or", "not", "(", ")"];
/// The most records of a tree, and the most brackets open at once.
const MOST: usize = 128;
/// Of so many lines one may have more records than that.
const UNBOUND: usize = 64;

pub type Words = Vec<String>;

// ── Counts ───────────────────────────────────────────────────────────────────

/// How many brackets are open after each word.
fn depths(words: &[String]) -> impl Iterator<Item = usize> + '_ {
    words.iter().scan(0, |open: &mut usize, word| {
        match word.as_str() {
            "(" => *open += 1,
            ")" => *open = open.saturating_sub(1),
            _ => (),
        }
        Some(*open)
    })
}

/// What the words of an allowed line count up to.
pub struct Size {
    pub conditions: usize,
    pub records: usize,
    pub brackets: usize,
}

impl Size {
    /// A join has a condition on either side, so that there is one condition more than joins.
    pub fn of(words: &[String]) -> Size {
        let count = |wanted: &str| words.iter().filter(|w| *w == wanted).count();
        let conditions = count("and") + count("or") + 1;
        let brackets = depths(words).max().unwrap_or(0);
        Size {
            conditions,
            records: 2 * conditions - 1 + count("not"),
            brackets,
        }
    }

    pub fn fits(&self) -> bool {
        self.records <= MOST && self.brackets <= MOST
    }
}

// ── Values ───────────────────────────────────────────────────────────────────

/// A number of the whole range, or one that frames have.
fn port(rng: &mut Rng, values: &Values) -> String {
    match rng.one_in(3) {
        true => rng.below(1 << 16).to_string(),
        false => values.port(rng).to_string(),
    }
}

fn address(rng: &mut Rng, values: &Values) -> String {
    let number = match rng.one_in(3) {
        true => rng.draw() as u32,
        false => values.address4(rng),
    };
    Ipv4Addr::from(number).to_string()
}

fn name(rng: &mut Rng, link: u8) -> String {
    match link == RAWIP && !rng.one_in(64) {
        true => rng.pick(RAW_NAMES).into(),
        false => rng.pick(&NAMES).into(),
    }
}

// ── Allowed lines ────────────────────────────────────────────────────────────

/// The words of a condition.
fn condition(rng: &mut Rng, link: u8, values: &Values) -> Words {
    let mut words = Words::new();
    let kind = rng.below(3);
    if kind == 2 && rng.one_in(2) {
        words.push(rng.pick(&PROTOCOLS).into());
    }
    if kind != 0 && rng.one_in(2) {
        words.push(rng.pick(&SIDES).into());
    }
    match kind {
        0 => words.push(name(rng, link)),
        1 => words.extend(["host".into(), address(rng, values)]),
        _ => words.extend(["port".into(), port(rng, values)]),
    }
    words
}

/// Draws one line.
struct Drawer<'a> {
    rng: &'a mut Rng,
    /// The conditions that it is made of.
    few: Vec<Words>,
    /// How many nots it may still have.
    nots: usize,
    words: Words,
}

impl Drawer<'_> {
    /// So many conditions, in parts that are joined.
    fn phrase(&mut self, mut conditions: usize) {
        loop {
            let part = match self.rng.one_in(3) {
                true => self.rng.between(1, conditions),
                false => 1,
            };
            self.operand(part);
            conditions -= part;
            if conditions == 0 {
                return;
            }
            self.words.push(self.rng.pick(&JOINS).into());
        }
    }

    /// Nots, then a condition or brackets.
    fn operand(&mut self, conditions: usize) {
        while self.nots > 0 && self.rng.one_in(5) {
            self.nots -= 1;
            self.words.push("not".into());
        }
        let brackets = self.brackets(conditions);
        self.put("(", brackets);
        match brackets {
            0 => self.words.extend(self.rng.pick(&self.few)),
            _ => self.phrase(conditions),
        }
        self.put(")", brackets);
    }

    /// How many brackets stand around so many conditions: more than are needed at times, or many.
    fn brackets(&mut self, conditions: usize) -> usize {
        match self.rng.below(128) {
            0 => self.rng.pick(&[2, 16, 100, 127, MOST, MOST + 1]),
            1..=15 => 1,
            _ => (conditions > 1) as usize,
        }
    }

    fn put(&mut self, word: &str, times: usize) {
        self.words.extend((0..times).map(|_| word.to_string()));
    }
}

/// An allowed line of up to so many conditions, over values that frames have and others.
pub fn allowed(rng: &mut Rng, link: u8, values: &Values, most: usize) -> Words {
    let conditions = rng.between(1, most);
    let kinds = rng.pick(&[1, 3, 6, conditions]);
    let few = (0..kinds).map(|_| condition(rng, link, values)).collect();
    let nots = match rng.one_in(UNBOUND) {
        true => MOST,
        false => MOST + 1 - 2 * conditions,
    };
    let words = Words::new();
    let mut drawer = Drawer {
        rng,
        few,
        nots,
        words,
    };
    drawer.phrase(conditions);
    drawer.words
}

/// The line: one or more spaces between words, and at times some around them.
pub fn spaced(rng: &mut Rng, words: &[String]) -> String {
    let ends: [usize; 2] = [0, 1].map(|_| rng.pick(&[0, 0, 0, 1, 3]));
    let mut line = " ".repeat(ends[0]);
    for (at, word) in words.iter().enumerate() {
        if at > 0 {
            line.push_str(&" ".repeat(rng.pick(&[1, 1, 1, 1, 2, 5])));
        }
        line.push_str(word);
    }
    line + &" ".repeat(ends[1])
}

// ── Broken lines ─────────────────────────────────────────────────────────────

/// Any word that is known.
fn word(rng: &mut Rng, values: &Values) -> String {
    match rng.below(4) {
        0 => rng.pick(&NAMES).into(),
        1 => port(rng, values),
        2 => address(rng, values),
        _ => rng.pick(&OTHERS).into(),
    }
}

/// Leaves a word out, doubles one, puts another in its place or before it, exchanges two
/// neighbours, or cuts the line.
fn broken_once(rng: &mut Rng, values: &Values, words: &mut Words) {
    let count = words.len().max(1);
    let at = rng.below(count);
    match rng.below(6) {
        _ if words.is_empty() => words.push(word(rng, values)),
        0 => drop(words.remove(at)),
        1 => words.insert(at, words[at].clone()),
        2 => words[at] = word(rng, values),
        3 => words.insert(at, word(rng, values)),
        4 => words.swap(at, (at + 1) % count),
        _ => words.truncate(at),
    }
}

/// An allowed line that is changed once or more, or any words.
pub fn broken(rng: &mut Rng, link: u8, values: &Values) -> Words {
    if rng.one_in(8) {
        let count = rng.between(1, 6);
        return (0..count).map(|_| word(rng, values)).collect();
    }
    let mut words = allowed(rng, link, values, 4);
    for _ in 0..rng.pick(&[1, 1, 2, 3]) {
        broken_once(rng, values, &mut words);
    }
    words
}

// ── Wrong words ──────────────────────────────────────────────────────────────

/// Another word of the same sort, the lowest bit of a value changed.
fn other(word: &str) -> Option<String> {
    const TURNS: [&[&str]; 4] = [&JOINS, &SIDES, &PROTOCOLS, &["ip", "ip6", "arp", "rarp"]];
    for turn in TURNS {
        if let Some(at) = turn.iter().position(|&w| w == word) {
            return Some(turn[(at + 1) % turn.len()].into());
        }
    }
    let number = word.parse::<u16>().map(|n| (n ^ 1).to_string());
    let address = word.parse::<Ipv4Addr>().map(u32::from);
    let address = address.map(|a| Ipv4Addr::from(a ^ 1).to_string());
    number.ok().or(address.ok())
}

/// An allowed line without the bracket that is opened at a place and the one that closes it.
pub fn unbracketed(words: &[String], at: usize) -> Words {
    let closed = depths(&words[at..]).position(|open| open == 0);
    let closed = at + closed.expect("the brackets of an allowed line are closed");
    [&words[..at], &words[at + 1..closed], &words[closed + 1..]].concat()
}

/// An allowed line with one word of another meaning, a not or a pair of brackets left out, or a
/// not before it.
pub fn altered(rng: &mut Rng, words: &[String]) -> Words {
    let mut words = words.to_vec();
    let at = rng.below(words.len());
    match (words[at].as_str(), other(&words[at])) {
        (_, Some(other)) => words[at] = other,
        ("not", _) => drop(words.remove(at)),
        ("(", _) => words = unbracketed(&words, at),
        _ => words.insert(0, "not".into()),
    }
    words
}
