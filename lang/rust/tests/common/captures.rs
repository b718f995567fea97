//! Captures for the tests: written here, and read by a reader that shares nothing with the library.

pub const FILE_HEADER: usize = 24;
pub const FRAME_HEADER: usize = 16;
/// The place of the link in a file header, and of the captured length in a frame header.
pub const LINK_PLACE: usize = 20;
pub const CAPTURED_PLACE: usize = 8;

pub const MARKS: [u32; 2] = [0xa1b2_c3d4, 0xa1b2_3c4d];
pub const ORDERS: [Order; 2] = [u32::to_be_bytes, u32::to_le_bytes];
/// The link field by a tree's link byte.
pub const LINK_FIELDS: [(u8, u32); 3] = [
    (super::ETHERNET, 1),
    (super::RAW_IP, 101),
    (super::LINUX_SLL, 113),
];

/// How a file writes its numbers.
pub type Order = fn(u32) -> [u8; 4];

pub fn field_of(link: u8) -> u32 {
    let (_, field) = LINK_FIELDS[usize::from(link) - 1];
    field
}

/// A file header; the fields that are not tested have odd numbers.
pub fn file_header(order: Order, mark: u32, link: u32) -> Vec<u8> {
    [mark, 0xfeed_beef, 0x8000_0000, 0x7fff_ffff, 1, link]
        .map(order)
        .concat()
}

/// A frame header that names a captured length; times and original length are odd.
pub fn frame_header(order: Order, captured: usize) -> Vec<u8> {
    [0xffff_ffff, 0xffff_fffe, captured as u32, 3]
        .map(order)
        .concat()
}

pub fn capture<F: AsRef<[u8]>>(order: Order, mark: u32, link: u8, frames: &[F]) -> Vec<u8> {
    let mut bytes = file_header(order, mark, field_of(link));
    for frame in frames.iter().map(AsRef::as_ref) {
        bytes.extend(frame_header(order, frame.len()));
        bytes.extend(frame);
    }
    bytes
}

/// What stands in a capture.
pub struct Reading<'a> {
    pub link: u32,
    pub frames: Vec<&'a [u8]>,
    /// The bytes that no good frame takes.
    pub rest: &'a [u8],
}

/// Reads a capture; none where it is none.
pub fn read(capture: &[u8]) -> Option<Reading<'_>> {
    let (header, mut rest) = capture.split_first_chunk::<FILE_HEADER>()?;
    let number = match header {
        [0xa1, 0xb2, 0xc3, 0xd4, ..] | [0xa1, 0xb2, 0x3c, 0x4d, ..] => u32::from_be_bytes,
        [0xd4, 0xc3, 0xb2, 0xa1, ..] | [0x4d, 0x3c, 0xb2, 0xa1, ..] => u32::from_le_bytes,
        _ => return None,
    };
    let [.., a, b, c, d] = *header;
    let link = number([a, b, c, d]);
    let mut frames = Vec::new();
    while let Some((frame, after)) = first_frame(rest, number) {
        frames.push(frame);
        rest = after;
    }
    Some(Reading { link, frames, rest })
}

/// The frame that some bytes start with, and what follows it.
fn first_frame(bytes: &[u8], number: fn([u8; 4]) -> u32) -> Option<(&[u8], &[u8])> {
    let (header, rest) = bytes.split_first_chunk::<FRAME_HEADER>()?;
    let [_, _, _, _, _, _, _, _, a, b, c, d, ..] = *header;
    let captured = u16::try_from(number([a, b, c, d])).ok()?;
    rest.split_at_checked(captured.into())
}
