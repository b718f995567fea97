//! The functions of libpft.a. A slice is passed as pointer and length.

use crate::MAX_TREE;

mod c {
    #[link(name = "pft", kind = "static")]
    extern "C" {
        pub fn pft_build(
            tree: *const u8,
            tree_length: usize,
            program: *mut u8,
            program_length: usize,
        ) -> u32;
        pub fn pft_question(tree: *const u8, tree_length: usize) -> u32;
        pub fn pft_load(
            tree: *const u8,
            tree_length: usize,
            count: u32,
            program: *mut u8,
            program_length: usize,
        ) -> u32;
        pub fn pft_run(
            program: *const u8,
            program_length: usize,
            frame: *const u8,
            frame_length: usize,
        ) -> u32;
        pub fn pft_direct(
            tree: *const u8,
            tree_length: usize,
            frame: *const u8,
            frame_length: usize,
        ) -> u32;
        pub fn pft_count(
            tree: *const u8,
            tree_length: usize,
            program: *mut u8,
            program_length: usize,
            capture: *const u8,
            capture_length: usize,
        ) -> u64;
        pub fn pft_frame(capture: *const u8, capture_length: usize, at: usize) -> u64;
        pub fn pft_type(link: u8, text: *const u8, text_length: usize, tree: *mut u8) -> u64;
        pub fn pft_version() -> u32;
    }
}

pub fn build(tree: &[u8], program: &mut [u8]) -> u32 {
    // SAFETY: each pointer and length is that of a slice which lives through the call, `program`
    // is lent mutably and so overlaps nothing, and the function keeps neither.
    unsafe {
        c::pft_build(
            tree.as_ptr(),
            tree.len(),
            program.as_mut_ptr(),
            program.len(),
        )
    }
}

pub fn question(tree: &[u8]) -> u32 {
    // SAFETY: pointer and length are those of a slice which lives through the call; the function
    // writes and keeps nothing.
    unsafe { c::pft_question(tree.as_ptr(), tree.len()) }
}

pub fn load(tree: &[u8], count: u32, program: &mut [u8]) -> u32 {
    // SAFETY: each pointer and length is that of a slice which lives through the call, `program`
    // is lent mutably and so overlaps nothing, and the function keeps neither and takes any count.
    unsafe {
        c::pft_load(
            tree.as_ptr(),
            tree.len(),
            count,
            program.as_mut_ptr(),
            program.len(),
        )
    }
}

pub fn run(program: &[u8], frame: &[u8]) -> u32 {
    // SAFETY: each pointer and length is that of a slice which lives through the call; the
    // function writes neither and keeps neither.
    unsafe { c::pft_run(program.as_ptr(), program.len(), frame.as_ptr(), frame.len()) }
}

pub fn direct(tree: &[u8], frame: &[u8]) -> u32 {
    // SAFETY: each pointer and length is that of a slice which lives through the call; the
    // function writes neither and keeps neither.
    unsafe { c::pft_direct(tree.as_ptr(), tree.len(), frame.as_ptr(), frame.len()) }
}

pub fn count(tree: &[u8], program: &mut [u8], capture: &[u8]) -> u64 {
    // SAFETY: each pointer and length is that of a slice which lives through the call, `program`
    // is lent mutably and so overlaps nothing, and the function keeps none.
    unsafe {
        c::pft_count(
            tree.as_ptr(),
            tree.len(),
            program.as_mut_ptr(),
            program.len(),
            capture.as_ptr(),
            capture.len(),
        )
    }
}

pub fn frame(capture: &[u8], at: usize) -> u64 {
    // SAFETY: pointer and length are those of a slice which lives through the call; the function
    // writes and keeps nothing, and takes any `at`.
    unsafe { c::pft_frame(capture.as_ptr(), capture.len(), at) }
}

pub fn type_line(link: u8, line: &[u8], tree: &mut [u8; MAX_TREE]) -> u64 {
    // SAFETY: pointer and length are those of a slice which lives through the call, `tree` has the
    // bytes that the function writes, is lent mutably and so overlaps nothing, and the function
    // keeps neither.
    unsafe { c::pft_type(link, line.as_ptr(), line.len(), tree.as_mut_ptr()) }
}

pub fn version() -> u32 {
    // SAFETY: the function takes nothing and touches no memory.
    unsafe { c::pft_version() }
}
