//! Captures without a draw: every byte of both headers, marks, links and lengths through
//! their ranges, cuts at every byte, many frames, and every order of refusals.

use crate::captures::{compare_set, Met};
use crate::drafts::{forms, Draft, Form, OTHER_MARKS};
use crate::filter::Filter;
use crate::frames::{network, Sketch};
use crate::pcap::{field_of, CAPTURED, CUT_FRAME, FILE_HEADER, FRAME_HEADER, LINK, LONGEST};
use crate::pcap::{MARKS, NO_CAPTURE, OTHER_LINK};
use crate::trees::edges::{self, file_of};
use crate::trees::systematic::{with, LINKS};
use crate::trees::{Rng, ETHERNET, RAWIP};

const HALF: u32 = 1 << 16;

/// Protocol of a condition: Ip, which RawIp accepts without a read, and Tcp.
const IP: u8 = 1;
const TCP: u8 = 5;

fn filter(link: u8, protocol: u8) -> Filter {
    Filter::new(&file_of(link, &[with(10, &[(2, protocol)])]))
}

/// A frame that Tcp accepts, or drops.
fn tcp(link: u8, accepted: bool) -> Vec<u8> {
    let mut sketch = Sketch::new(link, vec![0; network(link) + 20]);
    sketch.protocol4(if accepted { 6 } else { 17 });
    sketch.frame
}

/// Accepted, short, dropped, accepted.
fn few(rng: &mut Rng, form: Form, link: u8) -> Draft {
    let bodies = vec![tcp(link, true), vec![], tcp(link, false), tcp(link, true)];
    Draft::new(rng, form, field_of(link), bodies)
}

fn write(file: &mut [u8], at: usize, bytes: &[u8]) {
    file[at..at + bytes.len()].copy_from_slice(bytes);
}

fn ask(met: &mut Met, filter: &Filter, capture: &[u8]) {
    met.ask(filter, capture, &[filter.exact()]);
}

// ── Headers ──────────────────────────────────────────────────────────────────

/// Every value of every byte of the file header and of each frame's header; the captures
/// themselves, and cut at every byte.
fn headers(rng: &mut Rng, form: Form, link: u8, met: &mut Met) {
    let (filter, draft) = (filter(link, TCP), few(rng, form, link));
    let mut file = draft.bytes();
    let frames = (0..draft.frames.len()).map(|i| draft.place(i));
    let bytes = frames.flat_map(|at| at..at + FRAME_HEADER);
    for at in (0..FILE_HEADER).chain(bytes) {
        let old = file[at];
        for value in 0..=255 {
            file[at] = value;
            ask(met, &filter, &file);
        }
        file[at] = old;
    }
    met.ask_cuts(&filter, &file);
}

/// The four bytes of a number through all orders.
fn shuffled(bytes: [u8; 4]) -> impl Iterator<Item = [u8; 4]> {
    let places = (0..256).map(|i| [i >> 6, i >> 4 & 3, i >> 2 & 3, i & 3]);
    let orders = places.filter(|p| (0..4).all(|i| p.contains(&i)));
    orders.map(move |p| p.map(|i| bytes[i]))
}

/// Marks with either half through all values, with their bytes in all orders, and those
/// of other files.
fn marks(rng: &mut Rng, form: Form, met: &mut Met) {
    let filter = filter(ETHERNET, TCP);
    let mut file = few(rng, form, ETHERNET).bytes();
    let halves = (0..HALF).flat_map(|half| {
        let (high, low) = (form.mark & !(HALF - 1), form.mark & (HALF - 1));
        [high | half, half << 16 | low]
    });
    for mark in halves.chain(OTHER_MARKS) {
        write(&mut file, 0, &form.order.bytes(mark));
        ask(met, &filter, &file);
    }
    for bytes in shuffled(form.mark.to_be_bytes()) {
        write(&mut file, 0, &bytes);
        ask(met, &filter, &file);
    }
}

/// Link fields with either half through all values.
fn links(rng: &mut Rng, form: Form, link: u8, met: &mut Met) {
    let (filter, field) = (filter(link, TCP), field_of(link));
    let mut file = few(rng, form, link).bytes();
    for half in 0..HALF {
        for field in [half, half << 16, half << 16 | field] {
            write(&mut file, LINK, &form.order.bytes(field));
            ask(met, &filter, &file);
        }
    }
}

// ── Lengths ──────────────────────────────────────────────────────────────────

/// One frame with room behind it, whose captured length is written as wanted.
struct Stretch {
    filter: Filter,
    form: Form,
    file: Vec<u8>,
}

impl Stretch {
    /// Behind the frame that Tcp accepts all bytes have one value.
    fn new(rng: &mut Rng, form: Form, link: u8, fill: u8) -> Stretch {
        const ROOM: usize = 200;
        let draft = Draft::new(rng, form, field_of(link), vec![tcp(link, true)]);
        let mut file = draft.bytes();
        file.resize(FILE_HEADER + FRAME_HEADER + LONGEST + ROOM, fill);
        Stretch {
            filter: filter(link, TCP),
            form,
            file,
        }
    }

    /// The file up to so many bytes behind the frame's header.
    fn ask(&mut self, captured: u32, behind: usize, met: &mut Met) {
        let end = FILE_HEADER + FRAME_HEADER + behind;
        let number = self.form.order.bytes(captured);
        write(&mut self.file, FILE_HEADER + CAPTURED, &number);
        ask(met, &self.filter, &self.file[..end.min(self.file.len())]);
    }
}

/// Frames of all lengths and a few too long, in files that end just before, at and behind
/// them.
fn lengths(rng: &mut Rng, form: Form, link: u8, met: &mut Met) {
    const BEYOND: usize = 40;
    let mut stretch = Stretch::new(rng, form, link, (link == RAWIP) as u8 * 255);
    for length in 0..=LONGEST + BEYOND {
        let ends = [length.saturating_sub(1), length, length + 1];
        let far = [length + FRAME_HEADER - 1, length + FRAME_HEADER];
        for end in ends.into_iter().chain(far) {
            stretch.ask(length as u32, end, met);
        }
    }
}

/// Lengths whose high half has all values, and about the powers of two, in a file that is
/// longer than a frame may be.
fn far_lengths(rng: &mut Rng, form: Form, link: u8, met: &mut Met) {
    let mut stretch = Stretch::new(rng, form, link, 0);
    let end = stretch.file.len();
    for high in 0..HALF {
        for low in [0, 30, 60, 0x7FFF, 0xFFFF] {
            stretch.ask(high << 16 | low, end, met);
        }
    }
    for power in (0..32).map(|i| 1u32 << i) {
        for length in [power - 1, power, power + 1, power.wrapping_neg()] {
            stretch.ask(length, end, met);
            stretch.ask(length, 60, met);
        }
    }
}

// ── Many frames ──────────────────────────────────────────────────────────────

/// More frames than 16 bits count, all accepted on RawIp; then a rest that is none.
fn many(rng: &mut Rng, form: Form, link: u8, met: &mut Met) {
    let filter = filter(link, if link == RAWIP { IP } else { TCP });
    for frames in [HALF as usize - 1, HALF as usize, 100_000] {
        let bodies = (0..frames).map(|i| match i % 3 {
            0 => vec![],
            n => tcp(link, n == 1),
        });
        let bodies = bodies.collect();
        let mut file = Draft::new(rng, form, field_of(link), bodies).bytes();
        ask(met, &filter, &file);
        file.push(0);
        ask(met, &filter, &file);
    }
}

// ── The order of refusals ────────────────────────────────────────────────────

/// A tree that a number of 1 to 8 or 15 refuses, or one that is accepted.
fn tree_of(rng: &mut Rng, number: u32) -> Filter {
    if number == 0 || number == 9 {
        return filter(rng.pick(&LINKS), TCP);
    }
    loop {
        let faulty = edges::faulty(rng);
        let filter = Filter::new(&faulty.file);
        if filter.refusal() == Some(number) {
            return filter;
        }
    }
}

/// Trees with every number over captures with every set of 12 to 14; buffers that are too
/// short (9) are among those of each.
fn orders(rng: &mut Rng, met: &mut Met) {
    const EACH: usize = 20;
    let numbers = (0..10).chain([15]);
    for (number, set) in numbers.flat_map(|n| (0..8).map(move |set| (n, set))) {
        let all = [NO_CAPTURE, OTHER_LINK, CUT_FRAME].into_iter();
        let faults: Vec<u32> = all.filter(|n| set >> (n - NO_CAPTURE) & 1 == 1).collect();
        for _ in 0..EACH {
            let filter = tree_of(rng, number);
            if !met.builds_differ(&filter) {
                compare_set(rng, &filter, &faults, met);
            }
        }
    }
}

/// No byte at all, and a mark alone.
fn starts(met: &mut Met) {
    let filter = filter(ETHERNET, TCP);
    ask(met, &filter, &[]);
    for mark in MARKS {
        ask(met, &filter, &mark.to_be_bytes());
    }
}

pub fn compare_all(rng: &mut Rng, met: &mut Met) {
    starts(met);
    orders(rng, met);
    for (i, form) in forms().enumerate() {
        let turn = LINKS[(i + 1) % LINKS.len()];
        many(rng, form, turn, met);
        far_lengths(rng, form, turn, met);
        marks(rng, form, met);
        for link in LINKS {
            headers(rng, form, link, met);
            links(rng, form, link, met);
        }
        lengths(rng, form, turn, met);
    }
}
