//! The functions that the port exports, over slices.

mod c {
    extern "C" {
        pub fn pft_build(tree: *const u8, size: usize, program: *mut u8, length: usize) -> u32;
        pub fn pft_question(tree: *const u8, size: usize) -> u32;
        pub fn pft_load(
            tree: *const u8,
            size: usize,
            count: u32,
            program: *mut u8,
            length: usize,
        ) -> u32;
        pub fn pft_run(program: *const u8, size: usize, frame: *const u8, length: usize) -> u32;
        pub fn pft_direct(tree: *const u8, size: usize, frame: *const u8, length: usize) -> u32;
        pub fn pft_count(
            tree: *const u8,
            size: usize,
            program: *mut u8,
            length: usize,
            capture: *const u8,
            bytes: usize,
        ) -> u64;
        pub fn pft_frame(capture: *const u8, bytes: usize, at: usize) -> u64;
        pub fn pft_type(link: u8, text: *const u8, length: usize, tree: *mut u8) -> u64;
    }
}

/// Refusal × 65,536 + count.
pub fn build(tree: &[u8], program: &mut [u8]) -> u32 {
    unsafe {
        c::pft_build(
            tree.as_ptr(),
            tree.len(),
            program.as_mut_ptr(),
            program.len(),
        )
    }
}

/// Refusal × 65,536 + count, without a buffer.
pub fn question(tree: &[u8]) -> u32 {
    unsafe { c::pft_question(tree.as_ptr(), tree.len()) }
}

/// Refusal × 65,536 + count, of a tree that has a count.
pub fn load(tree: &[u8], count: u32, program: &mut [u8]) -> u32 {
    unsafe {
        c::pft_load(
            tree.as_ptr(),
            tree.len(),
            count,
            program.as_mut_ptr(),
            program.len(),
        )
    }
}

/// Verdict × 65,536 + steps, or (256 + refusal) × 65,536.
pub fn run(program: &[u8], frame: &[u8]) -> u32 {
    unsafe { c::pft_run(program.as_ptr(), program.len(), frame.as_ptr(), frame.len()) }
}

/// 1 or 0, or 256 + refusal.
pub fn direct(tree: &[u8], frame: &[u8]) -> u32 {
    unsafe { c::pft_direct(tree.as_ptr(), tree.len(), frame.as_ptr(), frame.len()) }
}

/// Refusal × 2^32 + accepted frames.
pub fn count(tree: &[u8], program: &mut [u8], capture: &[u8]) -> u64 {
    unsafe {
        c::pft_count(
            tree.as_ptr(),
            tree.len(),
            program.as_mut_ptr(),
            program.len(),
            capture.as_ptr(),
            capture.len(),
        )
    }
}

/// Captured length, or refusal × 2^32.
pub fn frame(capture: &[u8], at: usize) -> u64 {
    unsafe { c::pft_frame(capture.as_ptr(), capture.len(), at) }
}

/// A tree file at its longest.
pub const TREE: usize = 3_080;

/// The file's length, or refusal × 2^32 + place.
pub fn typed(link: u8, text: &[u8], tree: &mut [u8; TREE]) -> u64 {
    unsafe { c::pft_type(link, text.as_ptr(), text.len(), tree.as_mut_ptr()) }
}
