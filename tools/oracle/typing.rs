//! A second reading of typed lines, from the words of request T-04, and of what they say of a
//! frame, from document 01's direct reading. It shares nothing with the port.
//!
//! A line is first cut into words with their places. Whether a word can follow is asked of each
//! by itself: of the two words before it and the brackets that are open there. Records and
//! brackets are counted over a whole line without fault. Only then its phrase is made, from the
//! outside: words are split at their last join outside brackets, both sides in the same way.

use std::net::Ipv4Addr;

/// A tree file: its greatest length, its header, the link's place in it, and a record's length.
pub const TREE: usize = 3_080;
pub const HEADER: usize = 8;
pub const LINK: usize = 5;
pub const RECORD: usize = 24;

/// So many records, and so many brackets open at once, are not too large.
pub const MOST: usize = 128;

pub const STRANGE_FILE: u32 = 1;
pub const UNKNOWN_WORD: u32 = 16;
pub const UNFINISHED: u32 = 17;
pub const TOO_LARGE: u32 = 18;

/// A refusal stands above its place in an answer.
pub const REFUSAL: u32 = 32;

const SPACE: u8 = b' ';

/// Links, and where a frame of theirs has its ethertype and its network header.
const ETHERNET: u8 = 1;
const RAW_IP: u8 = 2;
const LINUX_SLL: u8 = 3;
const ETHERNET_TYPE: usize = 12;
const COOKED_TYPE: usize = 14;
const TYPE_BYTES: usize = 2;

/// Kinds of records.
const AND: u8 = 1;
const OR: u8 = 2;
const NOT: u8 = 3;
const PROTOCOL: u8 = 10;
const HOST: u8 = 11;
const PORT: u8 = 15;

/// Directions.
const EITHER: u8 = 0;
const SOURCE: u8 = 1;
const DESTINATION: u8 = 2;

/// Protocol bytes; none is for ports alone.
const NONE: u8 = 0;
const IP: u8 = 1;
const IP6: u8 = 2;
const ARP: u8 = 3;
const RARP: u8 = 4;
const TCP: u8 = 5;
const UDP: u8 = 6;
const ICMP: u8 = 7;
const SCTP: u8 = 10;

const IPV4_TYPE: u16 = 0x0800;
const IPV6_TYPE: u16 = 0x86DD;
const ARP_TYPE: u16 = 0x0806;
const RARP_TYPE: u16 = 0x8035;

const ICMP_NUMBER: u8 = 1;
const TCP_NUMBER: u8 = 6;
const UDP_NUMBER: u8 = 17;
const SCTP_NUMBER: u8 = 132;

#[derive(Clone, Copy, Debug, PartialEq)]
pub struct Refusal {
    pub number: u32,
    pub place: usize,
}

// ── Words ────────────────────────────────────────────────────────────────────

#[derive(Clone, Copy, Debug, PartialEq)]
pub enum Word {
    /// A protocol that no port goes with, by its byte.
    Protocol(u8),
    /// A protocol that a port can go with, by its byte.
    Transport(u8),
    /// Source or destination.
    Side(u8),
    Host,
    Port,
    Address([u8; 4]),
    Number(u16),
    Open,
    Close,
    Not,
    And,
    Or,
}

use Word::*;

pub const WORDS: [(&str, Word); 17] = [
    ("ip", Protocol(IP)),
    ("ip6", Protocol(IP6)),
    ("arp", Protocol(ARP)),
    ("rarp", Protocol(RARP)),
    ("tcp", Transport(TCP)),
    ("udp", Transport(UDP)),
    ("sctp", Transport(SCTP)),
    ("icmp", Protocol(ICMP)),
    ("host", Host),
    ("port", Port),
    ("src", Side(SOURCE)),
    ("dst", Side(DESTINATION)),
    ("(", Open),
    (")", Close),
    ("not", Not),
    ("and", And),
    ("or", Or),
];

/// A port number, written as it is printed.
fn port_number(text: &str) -> Option<Word> {
    let number = text.parse::<u16>().ok()?;
    (number.to_string() == text).then_some(Number(number))
}

/// A dotted address, written as it is printed.
fn address(text: &str) -> Option<Word> {
    let address = text.parse::<Ipv4Addr>().ok()?;
    (address.to_string() == text).then_some(Address(address.octets()))
}

/// What a word is, if it is known.
pub fn known(bytes: &[u8]) -> Option<Word> {
    let text = std::str::from_utf8(bytes).ok()?;
    let listed = WORDS.iter().find(|(name, _)| *name == text);
    let listed = listed.map(|(_, word)| *word);
    listed
        .or_else(|| port_number(text))
        .or_else(|| address(text))
}

/// The words of a line, each with the byte where it starts.
pub fn words(text: &[u8]) -> Vec<(usize, &[u8])> {
    let mut next = 0;
    let pieces = text.split(|byte| *byte == SPACE).map(|piece| {
        let place = next;
        next += piece.len() + 1;
        (place, piece)
    });
    pieces.filter(|(_, piece)| !piece.is_empty()).collect()
}

// ── What can follow ──────────────────────────────────────────────────────────

/// Whether a phrase can begin with a word.
fn begins(word: Option<Word>) -> bool {
    matches!(
        word,
        Some(Protocol(_) | Transport(_) | Side(_) | Host | Port | Open | Not)
    )
}

/// Whether a word, or the end, can follow a whole condition or a closing bracket.
fn goes_on(word: Option<Word>, open: usize) -> bool {
    match word {
        Some(And | Or) => true,
        Some(Close) => open > 0,
        Some(_) => false,
        None => open == 0,
    }
}

/// Whether a word, or the end, can follow words that follow one another, behind which so many
/// brackets are open.
fn can_follow(before: &[Word], open: usize, word: Option<Word>) -> bool {
    match *before {
        [] | [.., And | Or | Not | Open] => begins(word),
        [.., Transport(_), Side(_)] => word == Some(Port),
        [.., Side(_)] => matches!(word, Some(Host | Port)),
        [.., Host] => matches!(word, Some(Address(_))),
        [.., Port] => matches!(word, Some(Number(_))),
        [.., Transport(_)] => matches!(word, Some(Port | Side(_))) || goes_on(word, open),
        [.., Protocol(_) | Address(_) | Number(_) | Close] => goes_on(word, open),
    }
}

/// How many brackets are open before each word, and behind the last. A bracket that closes
/// nothing is never followed.
fn open_before(words: &[Word]) -> Vec<usize> {
    let mut open = vec![0];
    for word in words {
        let last: usize = open[open.len() - 1];
        open.push(match word {
            Open => last + 1,
            Close => last.saturating_sub(1),
            _ => last,
        });
    }
    open
}

/// The words of a line, or its fault: the earliest place of an unknown word, of one that can't
/// follow, or of an end that can't.
fn words_of(text: &[u8]) -> Result<Vec<Word>, Refusal> {
    let pieces = words(text);
    let read: Vec<Word> = pieces.iter().map_while(|(_, piece)| known(piece)).collect();
    let open = open_before(&read);
    let fits = |i: usize, word| can_follow(&read[..i], open[i], word);
    let refused = |number, place| Err(Refusal { number, place });
    if let Some(i) = (0..read.len()).find(|i| !fits(*i, Some(read[*i]))) {
        return refused(UNFINISHED, pieces[i].0);
    }
    if let Some((place, _)) = pieces.get(read.len()) {
        return refused(UNKNOWN_WORD, *place);
    }
    if !fits(read.len(), None) {
        return refused(UNFINISHED, text.len());
    }
    Ok(read)
}

// ── How large a line is ──────────────────────────────────────────────────────

/// Records and brackets of a line.
pub struct Size {
    pub records: usize,
    pub brackets: usize,
}

/// One record for each join, each not and each condition, which ends in a protocol, an address
/// or a number; a protocol that a port follows does not end it.
fn records(words: &[Word]) -> usize {
    let is_record = |i: &usize| match words[*i] {
        And | Or | Not | Protocol(_) | Address(_) | Number(_) => true,
        Transport(_) => !matches!(words.get(i + 1), Some(Port | Side(_))),
        Open | Close | Side(_) | Host | Port => false,
    };
    (0..words.len()).filter(is_record).count()
}

/// The most brackets that are open at once.
fn brackets(words: &[Word]) -> usize {
    open_before(words).into_iter().max().unwrap_or(0)
}

fn size(words: &[Word]) -> Size {
    Size {
        records: records(words),
        brackets: brackets(words),
    }
}

impl Size {
    /// Whether there are too many records, and whether too many brackets.
    pub fn over(&self) -> [bool; 2] {
        [self.records > MOST, self.brackets > MOST]
    }
}

/// The size of all words of a line that are known, whatever its faults.
pub fn size_of_known(text: &[u8]) -> Size {
    let words = words(text).into_iter();
    size(
        &words
            .filter_map(|(_, word)| known(word))
            .collect::<Vec<_>>(),
    )
}

/// The size of a line, if it has no fault.
pub fn size_of(text: &[u8]) -> Option<Size> {
    words_of(text).ok().map(|words| size(&words))
}

// ── Phrases ──────────────────────────────────────────────────────────────────

#[derive(Clone, Debug, PartialEq)]
pub enum Condition {
    Protocol(u8),
    Host { side: u8, address: [u8; 4] },
    Port { protocol: u8, side: u8, port: u16 },
}

#[derive(Clone, Debug, PartialEq)]
pub enum Phrase {
    Condition(Condition),
    Not(Box<Phrase>),
    And(Box<Phrase>, Box<Phrase>),
    Or(Box<Phrase>, Box<Phrase>),
}

fn condition(words: &[Word]) -> Option<Condition> {
    let (protocol, rest) = match *words {
        [Protocol(protocol) | Transport(protocol)] => return Some(Condition::Protocol(protocol)),
        [Transport(protocol), ref rest @ ..] => (protocol, rest),
        _ => (NONE, words),
    };
    let (side, rest) = match *rest {
        [Side(side), ref rest @ ..] => (side, rest),
        _ => (EITHER, rest),
    };
    match *rest {
        [Host, Address(address)] if protocol == NONE => Some(Condition::Host { side, address }),
        [Port, Number(port)] => Some(Condition::Port {
            protocol,
            side,
            port,
        }),
        _ => None,
    }
}

/// Words that no join outside brackets splits.
fn part(words: &[Word]) -> Option<Phrase> {
    match words {
        [Not, rest @ ..] => Some(Phrase::Not(Box::new(part(rest)?))),
        [Open, inside @ .., Close] => phrase(inside),
        _ => condition(words).map(Phrase::Condition),
    }
}

/// Where the last join outside brackets stands.
fn last_join(words: &[Word]) -> Option<usize> {
    let (mut depth, mut last) = (0, None);
    for (i, word) in words.iter().enumerate() {
        match word {
            Open => depth += 1,
            Close => depth -= 1,
            And | Or if depth == 0 => last = Some(i),
            _ => (),
        }
    }
    last
}

/// The phrase that words are, if they are one.
pub fn phrase(words: &[Word]) -> Option<Phrase> {
    let Some(at) = last_join(words) else {
        return part(words);
    };
    let left = Box::new(phrase(&words[..at])?);
    let right = Box::new(part(&words[at + 1..])?);
    Some(match words[at] {
        And => Phrase::And(left, right),
        _ => Phrase::Or(left, right),
    })
}

/// The phrase of a line on a link, or why there is none.
pub fn read(link: u8, text: &[u8]) -> Result<Phrase, Refusal> {
    let refused = |number| Err(Refusal { number, place: 0 });
    if !matches!(link, ETHERNET | RAW_IP | LINUX_SLL) {
        return refused(STRANGE_FILE);
    }
    let words = words_of(text)?;
    let size = size(&words);
    if size.records > MOST || size.brackets > MOST {
        return refused(TOO_LARGE);
    }
    Ok(phrase(&words).expect("words that follow one another are a phrase"))
}

// ── The tree file ────────────────────────────────────────────────────────────

fn record(condition: &Condition) -> [u8; RECORD] {
    let mut record = [0; RECORD];
    match *condition {
        Condition::Protocol(protocol) => {
            record[0] = PROTOCOL;
            record[2] = protocol;
        }
        Condition::Host { side, address } => {
            record[..2].copy_from_slice(&[HOST, side]);
            record[8..12].copy_from_slice(&address);
        }
        Condition::Port {
            protocol,
            side,
            port,
        } => {
            record[..3].copy_from_slice(&[PORT, side, protocol]);
            record[4..6].copy_from_slice(&port.to_be_bytes());
        }
    }
    record
}

fn join(kind: u8) -> [u8; RECORD] {
    let mut record = [0; RECORD];
    record[0] = kind;
    record
}

impl Phrase {
    /// A node, its left part, its right part.
    fn write(&self, to: &mut Vec<u8>) {
        match self {
            Phrase::Condition(condition) => to.extend(record(condition)),
            Phrase::Not(part) => {
                to.extend(join(NOT));
                part.write(to);
            }
            Phrase::And(left, right) | Phrase::Or(left, right) => {
                let is_and = matches!(self, Phrase::And(..));
                to.extend(join(if is_and { AND } else { OR }));
                left.write(to);
                right.write(to);
            }
        }
    }

    /// The version 1 tree file, as long as it is.
    pub fn file(&self, link: u8) -> Vec<u8> {
        let mut file = b"PFT\0\x01\0\0\0".to_vec();
        self.write(&mut file);
        let count = (file.len() - HEADER) / RECORD;
        file[LINK] = link;
        file[6..HEADER].copy_from_slice(&(count as u16).to_be_bytes());
        file
    }
}

/// The answer for a line and all bytes of the lent tree: the file's length and the file, or
/// the refusal with its place and none.
pub fn answer(read: &Result<Phrase, Refusal>, link: u8) -> (u64, Vec<u8>) {
    let (number, mut tree) = match read {
        Ok(phrase) => {
            let file = phrase.file(link);
            (file.len() as u64, file)
        }
        Err(refusal) => {
            let number = (refusal.number as u64) << REFUSAL;
            (number + refusal.place as u64, Vec::new())
        }
    };
    tree.resize(TREE, 0);
    (number, tree)
}

// ── What a line says of a frame ──────────────────────────────────────────────

/// A frame on its link. Bytes past the end are zero.
struct Seen<'f> {
    link: u8,
    frame: &'f [u8],
}

impl Seen<'_> {
    fn byte(&self, at: usize) -> u8 {
        *self.frame.get(at).unwrap_or(&0)
    }

    fn half(&self, at: usize) -> u16 {
        u16::from_be_bytes([self.byte(at), self.byte(at + 1)])
    }

    /// A byte's place in the network header.
    fn net(&self, at: usize) -> usize {
        let start = match self.link {
            ETHERNET => ETHERNET_TYPE + TYPE_BYTES,
            LINUX_SLL => COOKED_TYPE + TYPE_BYTES,
            _ => 0,
        };
        start + at
    }

    fn ethertype(&self) -> u16 {
        match self.link {
            ETHERNET => self.half(ETHERNET_TYPE),
            LINUX_SLL => self.half(COOKED_TYPE),
            _ => IPV4_TYPE,
        }
    }

    fn protocol(&self, protocol: u8) -> bool {
        let ipv4 = |number| self.ethertype() == IPV4_TYPE && self.byte(self.net(9)) == number;
        match protocol {
            IP => self.ethertype() == IPV4_TYPE,
            IP6 => self.ethertype() == IPV6_TYPE,
            ARP => self.ethertype() == ARP_TYPE,
            RARP => self.ethertype() == RARP_TYPE,
            TCP => ipv4(TCP_NUMBER),
            UDP => ipv4(UDP_NUMBER),
            ICMP => ipv4(ICMP_NUMBER),
            _ => ipv4(SCTP_NUMBER),
        }
    }

    /// Source and destination address, of IPv4 alone.
    fn addresses(&self) -> Option<[[u8; 4]; 2]> {
        let at = |start: usize| [0, 1, 2, 3].map(|i| self.byte(self.net(start + i)));
        (self.ethertype() == IPV4_TYPE).then(|| [at(12), at(16)])
    }

    /// The number of what an IP packet carries, and where that starts; a later fragment of
    /// IPv4 carries no ports.
    fn carried(&self) -> Option<(u8, usize)> {
        const FRAGMENT: u16 = 0x1FFF;
        const IPV6_HEADER: usize = 40;
        match self.ethertype() {
            IPV4_TYPE if self.half(self.net(6)) & FRAGMENT == 0 => {
                let words = self.byte(self.net(0)) & 0x0F;
                Some((self.byte(self.net(9)), self.net(4 * words as usize)))
            }
            IPV6_TYPE => Some((self.byte(self.net(6)), self.net(IPV6_HEADER))),
            _ => None,
        }
    }

    /// Source and destination port, where the packet carries them for a protocol.
    fn ports(&self, protocol: u8) -> Option<[u16; 2]> {
        let (number, start) = self.carried()?;
        let wanted = match protocol {
            TCP => number == TCP_NUMBER,
            UDP => number == UDP_NUMBER,
            SCTP => number == SCTP_NUMBER,
            _ => number == TCP_NUMBER || number == UDP_NUMBER,
        };
        wanted.then(|| [self.half(start), self.half(start + 2)])
    }
}

/// Whether a value stands on the side that is meant.
fn stands<T: PartialEq>(found: Option<[T; 2]>, side: u8, value: T) -> bool {
    let Some([source, destination]) = found else {
        return false;
    };
    match side {
        SOURCE => source == value,
        DESTINATION => destination == value,
        _ => source == value || destination == value,
    }
}

impl Condition {
    fn holds(&self, seen: &Seen) -> bool {
        match *self {
            Condition::Protocol(protocol) => seen.protocol(protocol),
            Condition::Host { side, address } => stands(seen.addresses(), side, address),
            Condition::Port {
                protocol,
                side,
                port,
            } => stands(seen.ports(protocol), side, port),
        }
    }
}

impl Phrase {
    fn holds(&self, seen: &Seen) -> bool {
        match self {
            Phrase::Condition(condition) => condition.holds(seen),
            Phrase::Not(part) => !part.holds(seen),
            Phrase::And(left, right) => left.holds(seen) && right.holds(seen),
            Phrase::Or(left, right) => left.holds(seen) || right.holds(seen),
        }
    }

    /// Whether what was typed is true of a frame on a link.
    pub fn says(&self, link: u8, frame: &[u8]) -> bool {
        self.holds(&Seen { link, frame })
    }
}
