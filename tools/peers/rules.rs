//! A reader of classic captures: T-01's, and by rules libpcap's.
//!
//! With no rule it reads as T-01 says, with all of them as libpcap 1.10.3 does. So what the two
//! make of a file may differ by these rules and in nothing else.

use std::borrow::Cow;

use crate::trees::{ETHERNET, RAWIP, SLL};

const FILE_HEADER: usize = 24;
const FRAME_HEADER: usize = 16;
/// Of the mark 0xa1b2cd34: an interface, a protocol and a packet type stand behind the lengths.
const PATCHED_HEADER: usize = 24;
const MARKS: [u32; 2] = [0xa1b2_c3d4, 0xa1b2_3c4d];
const PATCHED_MARK: u32 = 0xa1b2_cd34;
const PCAPNG_MARK: [u8; 4] = [0x0a, 0x0d, 0x0d, 0x0a];
const LONGEST: usize = 65_535;
/// libpcap's, for all links that are ours; also the snap length where the file has none.
const LIBPCAP_LONGEST: usize = 262_144;
/// How many bytes a cooked header may add to a frame of the mark 0xa1b2cd34.
const COOKED: usize = 14;
/// The bits of the link field that libpcap takes as the link.
const LINK_BITS: u32 = 0x03ff_ffff;
/// The number of RAW where it is no file that is spoken of.
const RAW_IN_MEMORY: u32 = 12;
/// DG/UX's tcpdump.
const DG_UX: (u16, u16) = (543, 0);
/// A cooked header, and the identifier of a CAN frame behind it.
const SLL_HEADER: usize = 16;
const CAN_ID: usize = 4;
const CAN_PROTOCOLS: [[u8; 2]; 2] = [[0, 0x0c], [0, 0x0d]];

/// What libpcap does otherwise.
#[derive(Clone, Copy, PartialEq, Eq, PartialOrd, Ord)]
pub enum Rule {
    Pcapng,
    Patched,
    Version,
    Exchanged,
    HighBits,
    Raw12,
    Snap,
    Long,
    Can,
}

pub const RULES: [(Rule, &str); 9] = [
    (Rule::Pcapng, "reads pcapng"),
    (Rule::Patched, "reads the mark a1b2cd34"),
    (Rule::Version, "opens versions 2.0 to 2.4 and 543.0 alone"),
    (
        Rule::Exchanged,
        "takes the other length as the captured one in old versions",
    ),
    (
        Rule::HighBits,
        "takes no notice of the link's six high bits",
    ),
    (Rule::Raw12, "takes link 12 as RAW"),
    (Rule::Snap, "cuts frames to the snap length"),
    (Rule::Long, "reads frames of up to 262,144 bytes"),
    (Rule::Can, "turns a CAN identifier round"),
];

/// A set of rules.
#[derive(Clone, Copy)]
pub struct Rules(u16);

impl Rules {
    pub const NONE: Rules = Rules(0);
    pub const ALL: Rules = Rules(u16::MAX);

    pub fn only(rule: Rule) -> Rules {
        Rules(1 << rule as u16)
    }

    pub fn without(self, rule: Rule) -> Rules {
        Rules(self.0 & !Rules::only(rule).0)
    }

    fn has(self, rule: Rule) -> bool {
        self.0 & Rules::only(rule).0 != 0
    }
}

/// What a reader makes of a file.
pub enum Reading<'a> {
    /// It is no capture.
    Closed,
    /// pcapng is not read here.
    Pcapng,
    Opened(Opened<'a>),
}

/// The link if it is ours, the frames, and whether they end at one that is cut.
pub struct Opened<'a> {
    pub link: Option<u8>,
    pub frames: Vec<Cow<'a, [u8]>>,
    pub cut: bool,
}

// ── Numbers ──────────────────────────────────────────────────────────────────

fn number(bytes: &[u8], at: usize, big: bool) -> u32 {
    let four = bytes[at..at + 4].try_into().expect("four bytes");
    match big {
        true => u32::from_be_bytes(four),
        false => u32::from_le_bytes(four),
    }
}

fn half(bytes: &[u8], at: usize, big: bool) -> u16 {
    let two = bytes[at..at + 2].try_into().expect("two bytes");
    match big {
        true => u16::from_be_bytes(two),
        false => u16::from_le_bytes(two),
    }
}

// ── The file header ──────────────────────────────────────────────────────────

/// What of a file header the frames depend on.
struct Header {
    big: bool,
    patched: bool,
    version: (u16, u16),
    link: Option<u8>,
    snap: usize,
    rules: Rules,
}

impl Header {
    fn read(file: &[u8], rules: Rules) -> Option<Header> {
        let file = file.get(..FILE_HEADER)?;
        let known =
            |mark| MARKS.contains(&mark) || rules.has(Rule::Patched) && mark == PATCHED_MARK;
        let big = [true, false]
            .into_iter()
            .find(|&big| known(number(file, 0, big)))?;
        let version = (half(file, 4, big), half(file, 6, big));
        let current = version.0 == 2 && version.1 <= 4;
        if rules.has(Rule::Version) && !current && version != DG_UX {
            return None;
        }
        let mut header = Header {
            big,
            patched: number(file, 0, big) == PATCHED_MARK,
            version,
            link: link(number(file, 20, big), rules),
            snap: usize::MAX,
            rules,
        };
        if rules.has(Rule::Snap) {
            header.snap = header.snap_length(number(file, 16, big));
        }
        Some(header)
    }

    fn snap_length(&self, field: u32) -> usize {
        let length = match field {
            0 | 0x8000_0000.. => LIBPCAP_LONGEST,
            length => length as usize,
        };
        match self.patched && self.link == Some(ETHERNET) {
            true => length + COOKED,
            false => length,
        }
    }

    /// Whether the second length is the captured one.
    fn exchanges(&self, first: u32, second: u32) -> bool {
        self.rules.has(Rule::Exchanged)
            && match self.version {
                (2, 0..=2) | DG_UX => true,
                (2, 3) => first > second,
                _ => false,
            }
    }
}

/// Our link byte for the field.
fn link(field: u32, rules: Rules) -> Option<u8> {
    let field = match rules.has(Rule::HighBits) {
        true => field & LINK_BITS,
        false => field,
    };
    match field {
        1 => Some(ETHERNET),
        101 => Some(RAWIP),
        RAW_IN_MEMORY if rules.has(Rule::Raw12) => Some(RAWIP),
        113 => Some(SLL),
        _ => None,
    }
}

// ── The frames ───────────────────────────────────────────────────────────────

impl Header {
    /// The frame at the front and what follows it, or none where no whole one is there.
    fn next<'a>(&self, rest: &'a [u8]) -> Option<(Cow<'a, [u8]>, &'a [u8])> {
        let size = if self.patched {
            PATCHED_HEADER
        } else {
            FRAME_HEADER
        };
        let header = rest.get(..size)?;
        let (mut captured, mut other) = (number(header, 8, self.big), number(header, 12, self.big));
        if self.exchanges(captured, other) {
            (captured, other) = (other, captured);
        }
        let (captured, other) = (captured as usize, other as usize);
        let longest = match self.rules.has(Rule::Long) {
            true => LIBPCAP_LONGEST,
            false => LONGEST,
        };
        if captured > longest {
            return None;
        }
        let frame = rest[size..].get(..captured)?;
        let frame = self.turned(&frame[..captured.min(self.snap)], other);
        Some((frame, &rest[size + captured..]))
    }

    /// A cooked CAN frame's identifier is in the order of the machine that wrote the file; libpcap
    /// has it in that of this one.
    fn turned<'a>(&self, frame: &'a [u8], other: usize) -> Cow<'a, [u8]> {
        let foreign = self.big != cfg!(target_endian = "big");
        let enough = frame.len().min(other) >= SLL_HEADER + CAN_ID;
        if !self.rules.has(Rule::Can) || self.link != Some(SLL) || !foreign || !enough {
            return frame.into();
        }
        if !CAN_PROTOCOLS.iter().any(|p| frame[14..SLL_HEADER] == *p) {
            return frame.into();
        }
        let mut frame = frame.to_vec();
        frame[SLL_HEADER..SLL_HEADER + CAN_ID].reverse();
        frame.into()
    }
}

/// What a file is by these rules.
pub fn read(file: &[u8], rules: Rules) -> Reading<'_> {
    if rules.has(Rule::Pcapng) && file.starts_with(&PCAPNG_MARK) {
        return Reading::Pcapng;
    }
    let Some(header) = Header::read(file, rules) else {
        return Reading::Closed;
    };
    let (mut frames, mut rest) = (Vec::new(), &file[FILE_HEADER..]);
    while let Some((frame, after)) = header.next(rest) {
        frames.push(frame);
        rest = after;
    }
    Reading::Opened(Opened {
        link: header.link,
        frames,
        cut: !rest.is_empty(),
    })
}
