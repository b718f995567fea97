//! Captures to be read: drawn ones, and the faults of 12 to 14 put into them.

use crate::pcap::{Order, CAPTURED, CUT_FRAME, FILE_HEADER, FRAME_HEADER, LONGEST};
use crate::pcap::{MARKS, NO_CAPTURE, ORDERS, OTHER_LINK};
use crate::trees::Rng;
use crate::Number;

/// Marks that other readers know, and what other files begin with: libpcap's modified
/// captures, those of two makers of probes, pcapng, snoop, gzip and zstd.
pub const OTHER_MARKS: [u32; 10] = [
    0xA1B2_CD34,
    0xA1B2_34CD,
    0xA1E2_CB12,
    0x1C00_01AC,
    0x0A0D_0D0A,
    0x736E_6F6F,
    0x1F8B_0800,
    0x28B5_2FFD,
    0,
    u32::MAX,
];

/// Link fields of other links: none, what some systems call raw IP, 802.11, cooked v2.
const OTHER_LINKS: [u32; 8] = [0, 2, 3, 12, 14, 105, 276, u32::MAX];

/// Byte order and mark of a capture.
#[derive(Clone, Copy)]
pub struct Form {
    pub order: Order,
    pub mark: u32,
}

pub fn forms() -> impl Iterator<Item = Form> {
    let all = |order| MARKS.map(|mark| Form { order, mark });
    ORDERS.into_iter().flat_map(all)
}

/// A frame to be written.
pub struct Framed {
    /// Seconds and their fraction.
    times: [u8; 8],
    original: u32,
    pub body: Vec<u8>,
}

impl Framed {
    pub fn new(rng: &mut Rng, body: Vec<u8>) -> Framed {
        let n = body.len() as u32;
        let drawn = rng.draw() as u32;
        let near = [n, n, 0, n / 2, n + 1, 1514, 65_536, u32::MAX, drawn];
        Framed {
            times: rng.draw().to_be_bytes(),
            original: rng.pick(&near),
            body,
        }
    }

    fn bytes(&self, order: Order) -> Vec<u8> {
        let captured = order.bytes(self.body.len() as u32);
        let original = order.bytes(self.original);
        [&self.times[..], &captured, &original, &self.body].concat()
    }
}

/// A capture without a fault.
pub struct Draft {
    pub form: Form,
    /// Version, time zone, accuracy and snap length.
    untested: [u8; 16],
    pub link: u32,
    pub frames: Vec<Framed>,
}

/// As they are written by most, as drawn, or with a snap length that frames exceed.
fn untested(rng: &mut Rng, order: Order) -> [u8; 16] {
    let mut bytes = [0; 16];
    for byte in &mut bytes {
        *byte = rng.draw() as u8;
    }
    let version = match order {
        Order::Big => [0, 2, 0, 4],
        Order::Little => [2, 0, 4, 0],
    };
    let snap = match rng.below(4) {
        0 => return bytes,
        1 => rng.below(100) as u32,
        _ => rng.pick(&[65_535, 262_144]),
    };
    bytes[..4].copy_from_slice(&version);
    bytes[4..12].fill(0);
    bytes[12..].copy_from_slice(&order.bytes(snap));
    bytes
}

impl Draft {
    pub fn new(rng: &mut Rng, form: Form, link: u32, bodies: Vec<Vec<u8>>) -> Draft {
        let untested = untested(rng, form.order);
        let frames = bodies.into_iter().map(|body| Framed::new(rng, body));
        let frames = frames.collect();
        Draft {
            form,
            untested,
            link,
            frames,
        }
    }

    pub fn bytes(&self) -> Vec<u8> {
        let order = self.form.order;
        let (mark, link) = (order.bytes(self.form.mark), order.bytes(self.link));
        let mut file = [&mark[..], &self.untested, &link].concat();
        for frame in &self.frames {
            file.extend(frame.bytes(order));
        }
        file
    }

    /// Where the header of a frame stands.
    pub fn place(&self, frame: usize) -> usize {
        let before = self.frames[..frame].iter();
        let bytes: usize = before.map(|f| FRAME_HEADER + f.body.len()).sum();
        FILE_HEADER + bytes
    }
}

// ── Faults ───────────────────────────────────────────────────────────────────

/// A capture's bytes, the numbers of the faults in it, and how many of its frames
/// stand before the first bad one.
pub struct Spoiled {
    pub bytes: Vec<u8>,
    pub faults: Vec<Number>,
    pub good: usize,
}

/// A mark that is neither of the two in either byte order.
fn other_mark(rng: &mut Rng) -> u32 {
    let mark = rng.pick(&MARKS);
    let near = [
        mark ^ 1 << rng.below(32),
        mark.rotate_left(8 * rng.between(1, 3) as u32),
        (mark & 0x00FF_00FF) << 8 | mark >> 8 & 0x00FF_00FF,
        rng.pick(&OTHER_MARKS),
        rng.draw() as u32,
    ];
    let drawn = rng.pick(&near);
    match [drawn, drawn.swap_bytes()]
        .iter()
        .any(|m| MARKS.contains(m))
    {
        true => 0,
        false => drawn,
    }
}

/// A field that is not this one: another link's, or with other high bits, or in the
/// other byte order.
fn other_link(rng: &mut Rng, field: u32) -> u32 {
    let near = [
        field ^ 1 << rng.below(32),
        field | 1 << rng.between(16, 31),
        field | 0x3000_0000,
        field.swap_bytes(),
        field << 16,
        rng.pick(&[1, 101, 113]),
        rng.pick(&OTHER_LINKS),
        rng.draw() as u32,
    ];
    match rng.pick(&near) {
        same if same == field => !field,
        other => other,
    }
}

/// A captured length that no frame may have with so many bytes behind its header: too
/// long for any, or longer than what is left.
fn bad_length(rng: &mut Rng, left: usize) -> u32 {
    let drawn = rng.draw() as u32;
    let long = [
        65_536,
        65_537,
        1 << 17,
        1 << 31,
        u32::MAX,
        drawn.max(65_536),
    ];
    if left >= LONGEST || rng.one_in(2) {
        return rng.pick(&long);
    }
    let past = [left + 1, left + 1, rng.between(left + 1, LONGEST), LONGEST];
    rng.pick(&past) as u32
}

/// Number 14: a file that ends too late or too soon, or a bad length. How many frames
/// stand before it.
fn cut(rng: &mut Rng, draft: &Draft, file: &mut Vec<u8>) -> usize {
    let frames = draft.frames.len();
    match rng.below(4) {
        0 if frames > 0 => {
            let last = file.len() - draft.place(frames - 1);
            file.truncate(file.len() - rng.between(1, last - 1));
            frames - 1
        }
        1 | 2 if frames > 0 => {
            let bad = rng.below(frames);
            let at = draft.place(bad);
            let length = bad_length(rng, file.len() - at - FRAME_HEADER);
            let field = at + CAPTURED..at + CAPTURED + 4;
            file[field].copy_from_slice(&draft.form.order.bytes(length));
            bad
        }
        _ => {
            let rest = rng.between(1, FRAME_HEADER - 1);
            file.extend((0..rest).map(|_| rng.draw() as u8));
            frames
        }
    }
}

/// The capture with these faults, which are some of 12 to 14.
pub fn spoiled(rng: &mut Rng, mut draft: Draft, faults: &[Number]) -> Spoiled {
    if faults.contains(&OTHER_LINK) {
        draft.link = other_link(rng, draft.link);
    }
    let short = faults.contains(&NO_CAPTURE) && rng.one_in(4);
    if faults.contains(&NO_CAPTURE) && !short {
        draft.form.mark = other_mark(rng);
    }
    let mut bytes = draft.bytes();
    let mut good = draft.frames.len();
    if faults.contains(&CUT_FRAME) {
        good = cut(rng, &draft, &mut bytes);
    }
    if short {
        bytes.truncate(rng.below(FILE_HEADER));
    }
    Spoiled {
        bytes,
        faults: faults.to_vec(),
        good,
    }
}
