//! Holds lines that are refused with 17, as they are typed, to libpcap's parser: it refuses them
//! too, but for what is named here. And it takes each line that is allowed.

use std::collections::HashSet;
use std::net::Ipv4Addr;

use crate::drawing::{broken, spaced, Size};
use crate::libpcap::Compiler;
use crate::pool::Pool;
use crate::translation::translated;
use crate::trees::Rng;
use crate::typing::{typed, Refused, TOO_LARGE, UNFINISHED};
use crate::values::Values;

/// How many differences are shown.
const SHOWN: u64 = 10;
/// Every line of up to so many words is asked, by link.
const SWEPT: [(u8, usize); 3] = [(1, 5), (2, 4), (3, 4)];
const WORDS: [&str; 19] = [
    "ip", "ip6", "arp", "rarp", "tcp", "udp", "sctp", "icmp", "src", "dst", "host", "port", "and",
    "or", "not", "(", ")", "80", "10.0.0.1",
];
/// What stands for all numbers, for all addresses, and for no word.
const NUMBER: &str = "number";
const ADDRESS: &str = "address";
const NONE: &str = "";

// ── Departures ───────────────────────────────────────────────────────────────

/// What pcap-filter takes beyond the rules: some word at which a line stops, after some word.
struct Departure {
    what: &'static str,
    after: &'static [&'static str],
    at: &'static [&'static str],
}

const DEPARTURES: [Departure; 7] = [
    Departure {
        what: "no word at all",
        after: &[NONE],
        at: &[NONE],
    },
    Departure {
        what: "a value without its word",
        after: &["and", "or", "not", "("],
        at: &[NUMBER, ADDRESS],
    },
    Departure {
        what: "brackets or not before a value",
        after: &["host", "port", "src", "dst"],
        at: &["(", "not"],
    },
    Departure {
        what: "two directions",
        after: &["src", "dst"],
        at: &["and", "or"],
    },
    Departure {
        what: "a direction without host",
        after: &["src", "dst"],
        at: &[NUMBER, ADDRESS],
    },
    Departure {
        what: "a number for an address",
        after: &["host"],
        at: &[NUMBER],
    },
    Departure {
        what: "ip, arp, rarp before host or direction",
        after: &["ip", "arp", "rarp"],
        at: &["host", "src", "dst"],
    },
];

/// A word, or what stands for it.
fn sort(word: Option<&str>) -> &str {
    match word {
        None => NONE,
        Some(word) if word.parse::<u16>().is_ok() => NUMBER,
        Some(word) if word.parse::<Ipv4Addr>().is_ok() => ADDRESS,
        Some(word) => word,
    }
}

/// The word at which a line stops, and the one before it.
fn stop(line: &str, place: usize) -> [&str; 2] {
    let (before, rest) = line.split_at(place);
    let full = |word: &&str| !word.is_empty();
    let after = before.split(' ').rfind(full);
    let at = rest.split(' ').find(full);
    [sort(after), sort(at)]
}

fn departure([after, at]: [&str; 2]) -> Option<usize> {
    let fits = |d: &Departure| d.after.contains(&after) && d.at.contains(&at);
    DEPARTURES.iter().position(fits)
}

// ── What was met ─────────────────────────────────────────────────────────────

/// Lines that stop at a departure, those of them that libpcap takes, and the shortest of these.
#[derive(Default, Clone)]
struct Taken {
    lines: u64,
    taken: u64,
    shortest: Option<String>,
}

impl Taken {
    fn note(&mut self, line: &str, taken: bool) {
        self.lines += 1;
        self.taken += taken as u64;
        let shorter = |shortest: &String| line.len() < shortest.len();
        if taken && self.shortest.as_ref().is_none_or(shorter) {
            self.shortest = Some(line.trim().into());
        }
    }
}

#[derive(Default)]
pub struct Met {
    /// Allowed lines, and those of them that are too large.
    allowed: u64,
    too_large: u64,
    /// Lines that stop elsewhere, and where: a word after another.
    others: u64,
    places: HashSet<[String; 2]>,
    departures: [Taken; DEPARTURES.len()],
    pub differences: u64,
}

impl Met {
    /// Lines put to both.
    pub fn compared(&self) -> u64 {
        let departing: u64 = self.departures.iter().map(|d| d.lines).sum();
        self.allowed + self.others + departing
    }

    pub fn print(&self) {
        println!(
            "lines as typed: {}, {} allowed and taken by libpcap, {} of them refused with 18; \
             {} refused with 17 and by libpcap, at {} pairs of a word and the one before it",
            self.compared(),
            self.allowed,
            self.too_large,
            self.others,
            self.places.len()
        );
        println!("  refused with 17 where libpcap takes some:");
        for (departure, met) in DEPARTURES.iter().zip(&self.departures) {
            let shortest = met.shortest.as_deref().unwrap_or("none");
            let (what, lines, taken) = (departure.what, met.lines, met.taken);
            println!("    {what}: {taken} of {lines}, `{shortest}`");
        }
    }
}

// ── All lines ────────────────────────────────────────────────────────────────

pub struct Refusals<'a> {
    compiler: Compiler,
    pool: &'a Pool,
    rng: Rng,
    pub met: Met,
}

impl<'a> Refusals<'a> {
    pub fn new(seed: u64, pool: &'a Pool) -> Refusals<'a> {
        Refusals {
            compiler: Compiler::new(),
            pool,
            rng: Rng(seed),
            met: Met::default(),
        }
    }

    /// Every short line, then so many drawn ones. Each departure has to show.
    pub fn compare(&mut self, count: u64) {
        for (link, most) in SWEPT {
            (0..=most).for_each(|words| self.sweep(link, words));
        }
        for _ in 0..count {
            let link = self.rng.pick(&[1, 1, 2, 3]);
            let frame = self.rng.pick(self.pool.of(link));
            let values = Values::of(&mut self.rng, link, &[&frame]);
            let words = broken(&mut self.rng, link, &values);
            let line = spaced(&mut self.rng, &words);
            self.line(link, &line);
        }
        for (departure, met) in DEPARTURES.iter().zip(self.met.departures.clone()) {
            if met.taken == 0 {
                self.differs(&format!("libpcap takes no line with {}", departure.what));
            }
        }
    }

    /// Every line of so many words.
    fn sweep(&mut self, link: u8, words: usize) {
        for number in 0..WORDS.len().pow(words as u32) {
            let digits = (0..words as u32).map(|at| number / WORDS.len().pow(at) % WORDS.len());
            let line: Vec<&str> = digits.map(|digit| WORDS[digit]).collect();
            self.line(link, &line.join(" "));
        }
    }

    fn line(&mut self, link: u8, line: &str) {
        let taken = self.compiler.compile(link, line, false).is_ok();
        match typed(link, line) {
            Ok(_) => self.allowed(link, line, taken, true),
            Err(Refused { number, .. }) if number == TOO_LARGE => {
                self.allowed(link, line, taken, false)
            }
            Err(refused) if refused.number == UNFINISHED => {
                self.unfinished(link, line, refused, taken)
            }
            Err(Refused { number, place }) => {
                self.differs(&format!("{link}: `{line}`: refused {number} at {place}"));
            }
        }
    }

    /// A line that is allowed, and by the answer fits or is too large. libpcap has no such limit.
    fn allowed(&mut self, link: u8, line: &str, taken: bool, fits: bool) {
        self.met.allowed += 1;
        self.met.too_large += !fits as u64;
        let words: Vec<String> = line.split_whitespace().map(String::from).collect();
        if Size::of(&words).fits() != fits {
            self.differs(&format!("{link}: `{line}`: fits {fits}"));
        }
        let said = translated(line);
        if !taken || self.compiler.compile(link, &said, false).is_err() {
            self.differs(&format!(
                "{link}: libpcap does not take `{line}` or `{said}`"
            ));
        }
    }

    fn unfinished(&mut self, link: u8, line: &str, refused: Refused, taken: bool) {
        let stop = stop(line, refused.place);
        match departure(stop) {
            Some(at) => self.met.departures[at].note(line, taken),
            None => {
                self.met.others += 1;
                self.met.places.insert(stop.map(String::from));
                if taken {
                    self.differs(&format!(
                        "{link}: libpcap takes `{line}`, refused 17 at {}",
                        refused.place
                    ));
                }
            }
        }
    }

    fn differs(&mut self, what: &str) {
        self.met.differences += 1;
        if self.met.differences <= SHOWN {
            println!("{what}");
        }
    }
}
