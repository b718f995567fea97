//! Captures to compare on: drawn ones, and sweeps over what a header can hold.

use crate::trees::{Rng, SLL};

pub const MARKS: [u32; 2] = [0xa1b2_c3d4, 0xa1b2_3c4d];
const PATCHED_MARK: u32 = 0xa1b2_cd34;
const FILE_HEADER: usize = 24;
const FRAME_HEADER: usize = 16;
/// What follows the lengths in a frame header of the mark 0xa1b2cd34.
const PATCH: [u8; 8] = [0, 0, 0, 1, 8, 0, 4, 0];
/// By link byte, the field in a file.
const LINKS: [u32; 4] = [0, 1, 101, 113];
const CURRENT: (u16, u16) = (2, 4);
const VERSIONS: [(u16, u16); 9] = [
    (2, 0),
    (2, 2),
    (2, 3),
    (2, 3),
    (2, 5),
    (1, 4),
    (3, 4),
    (543, 0),
    (0, 0),
];
const SNAPS: [u32; 4] = [65_535, 262_144, 0, 0x8000_0000];
/// Captured lengths around the limits here and in libpcap.
const EDGES: [u32; 9] = [
    65_534,
    65_535,
    65_536,
    65_537,
    262_143,
    262_144,
    262_145,
    0x8000_0000,
    0xffff_ffff,
];
/// Up to so many bytes are put behind a header that says so.
const MOST: u32 = 262_145;
/// Link fields up to here are swept; the known ones are below.
const LINK_FIELDS: u32 = 1_024;
/// Every size up to here, and some that are longer.
const SIZES: usize = 300;
const LONGER: [usize; 6] = [1_514, 4_096, 9_000, 32_768, 65_534, 65_535];

#[derive(Clone)]
struct Packet {
    times: [u32; 2],
    captured: u32,
    original: u32,
    bytes: Vec<u8>,
}

#[derive(Clone)]
struct Savefile {
    big: bool,
    mark: u32,
    /// Frame headers as the mark 0xa1b2cd34 has them.
    patched: bool,
    version: (u16, u16),
    zone: u32,
    figures: u32,
    snap: u32,
    link: u32,
    packets: Vec<Packet>,
}

impl Savefile {
    /// As tcpdump writes it.
    fn new(big: bool, mark: u32, link: u8, frames: &[Vec<u8>]) -> Savefile {
        let packet = |frame: &Vec<u8>| Packet {
            times: [0; 2],
            captured: frame.len() as u32,
            original: frame.len() as u32,
            bytes: frame.clone(),
        };
        Savefile {
            big,
            mark,
            patched: false,
            version: CURRENT,
            zone: 0,
            figures: 0,
            snap: SNAPS[1],
            link: LINKS[link as usize],
            packets: frames.iter().map(packet).collect(),
        }
    }

    fn word(&self, n: u32) -> [u8; 4] {
        match self.big {
            true => n.to_be_bytes(),
            false => n.to_le_bytes(),
        }
    }

    fn half(&self, n: u16) -> [u8; 2] {
        match self.big {
            true => n.to_be_bytes(),
            false => n.to_le_bytes(),
        }
    }

    fn bytes(&self) -> Vec<u8> {
        let mut file = self.word(self.mark).to_vec();
        file.extend(self.half(self.version.0));
        file.extend(self.half(self.version.1));
        for n in [self.zone, self.figures, self.snap, self.link] {
            file.extend(self.word(n));
        }
        for packet in &self.packets {
            for n in [
                packet.times[0],
                packet.times[1],
                packet.captured,
                packet.original,
            ] {
                file.extend(self.word(n));
            }
            file.extend(self.patched.then_some(PATCH).into_iter().flatten());
            file.extend(&packet.bytes);
        }
        file
    }
}

// ── Drawn ────────────────────────────────────────────────────────────────────

/// A capture of these frames: most headers are as they should be, and about a quarter is cut.
pub fn drawn(rng: &mut Rng, link: u8, frames: &[Vec<u8>]) -> Vec<u8> {
    let (big, mark) = (rng.one_in(2), rng.pick(&MARKS));
    let mut file = Savefile::new(big, mark, link, frames);
    draw_header(rng, &mut file, link);
    for packet in &mut file.packets {
        draw_packet(rng, packet, link);
    }
    if !file.packets.is_empty() && rng.one_in(8) {
        let at = rng.below(file.packets.len());
        draw_edge(rng, &mut file.packets[at]);
    }
    let mut bytes = file.bytes();
    if rng.one_in(4) {
        bytes.truncate(rng.below(bytes.len() + 1));
    }
    bytes
}

fn draw_header(rng: &mut Rng, file: &mut Savefile, link: u8) {
    match rng.below(16) {
        0 => file.mark ^= 1 << rng.below(32),
        1 => (file.mark, file.patched) = (PATCHED_MARK, rng.one_in(2)),
        _ => (),
    }
    file.version = match rng.below(8) {
        0 => rng.pick(&VERSIONS),
        1 => (rng.draw() as u16, rng.draw() as u16),
        _ => CURRENT,
    };
    (file.zone, file.figures) = (rng.draw() as u32, rng.draw() as u32);
    file.snap = match rng.below(8) {
        0 => rng.below(100) as u32,
        1 => rng.draw() as u32,
        _ => rng.pick(&SNAPS),
    };
    file.link = match rng.below(16) {
        0 => rng.pick(&LINKS),
        1 => LINKS[link as usize] | (rng.draw() as u32) << 26,
        2 => rng.pick(&[12, 0x3000_000c]),
        3 => rng.draw() as u32,
        4 => LINKS[link as usize] ^ 1 << rng.below(32),
        _ => LINKS[link as usize],
    };
}

fn draw_packet(rng: &mut Rng, packet: &mut Packet, link: u8) {
    packet.times = [rng.draw() as u32, rng.draw() as u32];
    packet.original = match rng.below(8) {
        0 => packet.captured.saturating_sub(rng.below(4) as u32),
        1 => rng.draw() as u32,
        _ => packet.captured + rng.pick(&[0, 0, 1, 1_000]),
    };
    if link == SLL && packet.bytes.len() >= 16 && rng.one_in(8) {
        packet.bytes[14..16].copy_from_slice(&[0, rng.pick(&[12, 13])]);
    }
}

/// Another captured length, at times with so many bytes behind it.
fn draw_edge(rng: &mut Rng, packet: &mut Packet) {
    packet.captured = match rng.below(4) {
        0 => packet.captured.wrapping_add(rng.pick(&[1, 2, u32::MAX])),
        1 => rng.draw() as u32,
        _ => rng.pick(&EDGES),
    };
    packet.original = packet.original.max(packet.captured);
    if packet.captured <= MOST && rng.one_in(2) {
        packet.bytes.resize(packet.captured as usize, 0);
    }
}

// ── Swept ────────────────────────────────────────────────────────────────────

/// Hands on, for each order and mark: a capture of two frames cut at each place; each byte of the
/// file header and of the first frame header with each value; frames of many sizes; and link fields.
pub fn sweep(link: u8, frames: &[Vec<u8>; 2], mut hand_on: impl FnMut(&[u8])) {
    for (big, mark) in [true, false]
        .into_iter()
        .flat_map(|b| MARKS.map(|m| (b, m)))
    {
        let plain = Savefile::new(big, mark, link, frames);
        let mut bytes = plain.bytes();
        (0..=bytes.len()).for_each(|end| hand_on(&bytes[..end]));
        for at in 0..FILE_HEADER + FRAME_HEADER {
            let before = bytes[at];
            for value in 0..=u8::MAX {
                bytes[at] = value;
                hand_on(&bytes);
            }
            bytes[at] = before;
        }
        sweep_sizes(&plain, &mut hand_on);
        sweep_links(plain, &mut hand_on);
    }
}

/// One capture of many sizes, and one of the first frame with each length at the edge.
fn sweep_sizes(plain: &Savefile, hand_on: &mut impl FnMut(&[u8])) {
    let first = &plain.packets[0];
    let sized = |size: usize| {
        let mut packet = first.clone();
        (packet.captured, packet.original) = (size as u32, size as u32);
        packet.bytes.resize(size, 0);
        packet
    };
    let mut file = plain.clone();
    file.packets = (0..=SIZES).chain(LONGER).map(sized).collect();
    hand_on(&file.bytes());
    for size in EDGES.into_iter().filter(|&size| size <= MOST) {
        file.packets = vec![first.clone(), sized(size as usize), first.clone()];
        hand_on(&file.bytes());
    }
}

/// Low numbers, and each value of the six high bits above ours.
fn sweep_links(mut file: Savefile, hand_on: &mut impl FnMut(&[u8])) {
    let own = file.link;
    let high = (0..64).map(|bits| own | bits << 26);
    for link in (0..LINK_FIELDS).chain(high) {
        file.link = link;
        hand_on(&file.bytes());
    }
}
