//! `pft_type`.

use dabberpearl::MAX_TREE;

extern "C" {
    fn pft_type(link: u8, text: *const u8, text_length: usize, tree: *mut u8) -> u64;
}

/// The numbers of a line that is refused.
pub const UNFINISHED: u32 = 17;
pub const TOO_LARGE: u32 = 18;

/// A refusal, and the byte of the line where it is.
#[derive(Clone, Copy)]
pub struct Refused {
    pub number: u32,
    pub place: usize,
}

/// The tree file of a line.
pub fn typed(link: u8, line: &str) -> Result<Vec<u8>, Refused> {
    let mut tree = [0xff; MAX_TREE];
    // SAFETY: pointer and length are those of a string that lives through the call, and the tree
    // has the bytes that are written.
    let answer = unsafe { pft_type(link, line.as_ptr(), line.len(), tree.as_mut_ptr()) };
    match (answer >> 32) as u32 {
        0 => Ok(tree[..answer as usize].to_vec()),
        number => Err(Refused {
            number,
            place: answer as u32 as usize,
        }),
    }
}
