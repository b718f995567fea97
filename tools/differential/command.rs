//! What the programs of this folder have in common as commands.

use crate::fail;

extern "C" {
    fn signal(number: i32, action: usize) -> usize;
}

const SIGPIPE: i32 = 13;

/// A reader that goes away ends the run, as it does other programs.
pub fn end_with_reader() {
    const DEFAULT: usize = 0;
    unsafe { signal(SIGPIPE, DEFAULT) };
}

/// Writing to a program that does not read to the end is an error like others.
pub fn outlive_reader() {
    const IGNORE: usize = 1;
    unsafe { signal(SIGPIPE, IGNORE) };
}

pub fn number(word: &str) -> u64 {
    let Ok(number) = word.parse() else {
        fail(&format!(
            "not a number from 0 to 18446744073709551615: {word}"
        ));
    };
    number
}
