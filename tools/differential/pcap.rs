//! Classic captures, read from the format's description and T-01's sentences, apart
//! from the port and its definitions.
//!
//! A file header of 24 bytes: mark, version (two numbers of 16 bits), time zone,
//! accuracy, snap length, link. Then for each frame a header of 16 bytes, seconds,
//! their fraction, captured length and original length, and the bytes captured. The
//! mark tells the byte order of all numbers.

use crate::Number;

pub const FILE_HEADER: usize = 24;
pub const FRAME_HEADER: usize = 16;
/// Where the link stands in a file header, and the captured length in a frame header.
pub const LINK: usize = 20;
pub const CAPTURED: usize = 8;
/// With microseconds and with nanoseconds.
pub const MARKS: [u32; 2] = [0xA1B2_C3D4, 0xA1B2_3C4D];
/// The most bytes of a frame.
pub const LONGEST: usize = 65_535;

pub const NO_CAPTURE: Number = 12;
pub const OTHER_LINK: Number = 13;
pub const CUT_FRAME: Number = 14;

/// The byte order of a file's numbers.
#[derive(Clone, Copy, Debug, PartialEq)]
pub enum Order {
    Big,
    Little,
}

pub const ORDERS: [Order; 2] = [Order::Big, Order::Little];

impl Order {
    pub fn number(self, bytes: &[u8], at: usize) -> u32 {
        let four = bytes[at..at + 4].try_into().expect("four bytes");
        match self {
            Order::Big => u32::from_be_bytes(four),
            Order::Little => u32::from_le_bytes(four),
        }
    }

    pub fn bytes(self, number: u32) -> [u8; 4] {
        match self {
            Order::Big => number.to_be_bytes(),
            Order::Little => number.to_le_bytes(),
        }
    }
}

/// "12 for a short header or other mark": the byte order of a file that has neither.
pub fn order_of(file: &[u8]) -> Result<Order, Number> {
    let header = file.get(..FILE_HEADER).ok_or(NO_CAPTURE)?;
    let fits = |order: &Order| MARKS.contains(&order.number(header, 0));
    ORDERS.into_iter().find(fits).ok_or(NO_CAPTURE)
}

/// "In the 32-bit link field 1, 101 and 113 are Ethernet, RawIp and LinuxSll."
pub fn field_of(link: u8) -> u32 {
    match link {
        1 => 1,
        2 => 101,
        _ => 113,
    }
}

/// The frame whose header begins these bytes, unless "header or body runs past the
/// file or is over 65,535 bytes".
fn first_frame(order: Order, bytes: &[u8]) -> Result<&[u8], Number> {
    let split = bytes.split_at_checked(FRAME_HEADER);
    let (header, behind) = split.ok_or(CUT_FRAME)?;
    let captured = order.number(header, CAPTURED) as usize;
    if captured > LONGEST {
        return Err(CUT_FRAME);
    }
    behind.get(..captured).ok_or(CUT_FRAME)
}

/// The captured length of the frame whose header stands at a place.
pub fn frame_at(file: &[u8], at: usize) -> Result<usize, Number> {
    let order = order_of(file)?;
    let bytes = file.get(at..).ok_or(CUT_FRAME)?;
    first_frame(order, bytes).map(<[u8]>::len)
}

/// The frames that a file gives, and why it gives no more.
#[derive(Debug, PartialEq)]
pub struct Given<'f> {
    pub frames: Vec<&'f [u8]>,
    /// The file's end, or where the header of a bad frame stands.
    pub stop: usize,
    pub refusal: Option<Number>,
}

/// "Frames before a bad one are still given."
fn frames_of(file: &[u8], order: Order) -> Given<'_> {
    let (mut frames, mut stop) = (Vec::new(), FILE_HEADER);
    while stop < file.len() {
        let frame = match first_frame(order, &file[stop..]) {
            Ok(frame) => frame,
            Err(refusal) => {
                return Given {
                    frames,
                    stop,
                    refusal: Some(refusal),
                }
            }
        };
        frames.push(frame);
        stop += FRAME_HEADER + frame.len();
    }
    Given {
        frames,
        stop,
        refusal: None,
    }
}

fn nothing(refusal: Number) -> Given<'static> {
    Given {
        frames: Vec::new(),
        stop: 0,
        refusal: Some(refusal),
    }
}

/// The frames whatever the link is: 12, then 14.
pub fn walked(file: &[u8]) -> Given<'_> {
    match order_of(file) {
        Ok(order) => frames_of(file, order),
        Err(refusal) => nothing(refusal),
    }
}

/// The frames for a tree of a link: 12, 13 "when the link isn't the tree's", 14, "in
/// that order".
pub fn given(file: &[u8], link: u8) -> Given<'_> {
    let order = match order_of(file) {
        Ok(order) => order,
        Err(refusal) => return nothing(refusal),
    };
    if order.number(file, LINK) != field_of(link) {
        return nothing(OTHER_LINK);
    }
    frames_of(file, order)
}
