//! Buffers as they are lent to a call, and as they are found after it.

/// Bytes before and after the lent part, and what the lent part holds before.
pub const MARGIN: usize = 16;
pub const CANARY: u8 = 0xC5;
pub const STALE: u8 = 0x5A;

/// What a call answers that is lent a buffer of a length, and its bytes after.
pub fn lent<N>(length: usize, call: impl FnOnce(&mut [u8]) -> N) -> (N, Vec<u8>) {
    let mut space = vec![CANARY; length + 2 * MARGIN];
    let part = &mut space[MARGIN..MARGIN + length];
    part.fill(STALE);
    let number = call(part);
    (number, space)
}

/// Where two lent buffers differ, in words.
pub fn other_byte(here: &[u8], there: &[u8]) -> String {
    let mut bytes = here.iter().zip(there);
    let place = bytes.position(|(a, b)| a != b).unwrap_or(0) as i64 - MARGIN as i64;
    format!(" with another byte {place}")
}
