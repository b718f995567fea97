//! Classic BPF programs made from trees of conditions, and their runs over frames and captures.
//!
//! A [`Tree`] holds conditions on a frame, joined by and, or and not; [`Tree::typed`] reads them from
//! a line of text. [`Program::from_tree`] turns it into a program, [`Program::run`] runs that over a
//! frame, and [`Tree::holds`] reads the tree on a frame without one. [`Tree::size`] tells how large
//! the program is before room is reserved for it, and [`load`] writes it there if the tree still has
//! that [`Size`]. [`Tree::count`] tells how many frames of a classic pcap file the tree accepts, and
//! [`frames`] gives them one by one.
//!
//! ```
//! use dabberpearl::conditions::*;
//! use dabberpearl::{Program, Tree, Verdict};
//!
//! let tree = Tree::ethernet(port(Destination, Tcp, 80).and(host(Source, [10, 0, 0, 1]).not()))?;
//! let program = Program::from_tree(&tree)?;
//!
//! let mut frame = [0; 78];
//! frame[12] = 0x08; // ethertype 0x0800
//! frame[14] = 0x45; // IPv4, a header of 20 bytes
//! frame[23] = 6; // TCP
//! frame[37] = 80; // destination port
//! assert_eq!(program.run(&frame)?.verdict, Verdict::Accepted);
//! assert_eq!(program.run(&frame[..37])?.verdict, Verdict::Short);
//! assert!(tree.holds(&frame)?);
//!
//! frame[26..30].copy_from_slice(&[10, 0, 0, 1]); // source address
//! assert!(!program.accepts(&frame));
//! # Ok::<(), dabberpearl::Error>(())
//! ```
//!
//! [`type_line`], [`build`], [`question`], [`load`], [`run`], [`direct`] and [`count`] do the same with
//! bytes of the caller's. All seven are Rattle, proved equal to their definitions for all inputs, and
//! linked from `libpft.a`; this crate is their safe face. What it adds, the making and taking apart of
//! trees and answers, the step from a frame to the next, what could follow in a line and the calls
//! themselves, is tested and not proved.
//!
//! What is proved of an accepted tree, in short: its program has 2 to 3,946 instructions, all
//! jumps lead forward, and a run takes no more steps than that. Where a run is not
//! [`Short`](Verdict::Short), its verdict is what [`direct`] says of the frame, and it stays the
//! same whatever bytes follow. No run is short on a frame that has 64 bytes past the start of its
//! network header, and none is ever [`Broken`](Verdict::Broken).
//!
//! # Linking
//!
//! The build looks for `libpft.a` in the folder that the variable `PFT_LIB_DIR` names, or else in
//! `target/staticlib` of the repository, where `tools/library` writes it. It is for x86-64.
//! An archive that is older than this crate is an [`Error::OldArchive`]; one that is newer serves,
//! and a number of its own is an error, never a panic.
//!
//! # Memory
//!
//! The crate takes `core` alone and no heap. A [`Tree`] has 3 KiB and a [`Program`] 31 KiB. A build
//! takes up to 256 KiB of stack, whatever the thread, and so do a question, a load and a count; the
//! other calls a tenth of that. Frames are pieces of the capture that was lent, and never copied.

#![no_std]
#![deny(missing_docs, unsafe_code)]

mod answers;
mod capture;
mod condition;
pub mod conditions;
#[allow(unsafe_code)]
mod ffi;
mod program;
mod record;
mod size;
mod terms;
mod tree;
mod typing;

pub use answers::{Counted, Error, Outcome, Refusal, Verdict};
pub use capture::Frames;
pub use condition::Condition;
pub use program::{Instruction, Instructions, Program};
pub use record::Record;
pub use size::Size;
pub use terms::{Direction, Link, Mac, NoMac, Protocol};
pub use tree::{Part, Records, Tree};
pub use typing::TypeError;

// The examples of the README are tests.
#[cfg(doctest)]
#[doc = include_str!("../../README.md")]
struct Readme;

/// The version of libpft.a that this crate is made for. Each addition to the interface raises it
/// by one.
pub const VERSION: u32 = 5;

/// The most records of a tree.
pub const MAX_RECORDS: usize = 128;
/// The largest tree file: 8 bytes and 128 records of 24.
pub const MAX_TREE: usize = 3_080;
/// The most instructions of a built program.
pub const MAX_INSTRUCTIONS: usize = 3_946;
/// The most bytes of a built program. With so many lent no build is a
/// [`ShortBuffer`](Refusal::ShortBuffer).
pub const MAX_PROGRAM: usize = 8 * MAX_INSTRUCTIONS;
/// The longest program that is run.
pub const MAX_RUN: usize = 32_768;
/// The longest frame that is run or read, and the longest of a capture.
pub const MAX_FRAME: usize = 65_535;
/// The bytes of a capture before its first frame header.
pub const CAPTURE_HEADER: usize = 24;
/// The bytes of a frame header.
pub const FRAME_HEADER: usize = 16;

/// The version of the libpft.a that is linked.
pub fn archive_version() -> u32 {
    ffi::version()
}

/// Whether the libpft.a that is linked has all that this crate calls: its version is [`VERSION`]
/// or a later one. [`Program::from_tree`], [`Program::load`], [`Tree::typed`], [`Tree::size`],
/// [`Tree::count`] and the reading of a [`Tree`] ask this; who calls [`type_line`], [`build`],
/// [`question`], [`load`], [`run`], [`direct`], [`count`] or [`frames`] asks once.
///
/// # Errors
///
/// [`OldArchive`](Error::OldArchive) with the archive's version.
///
/// ```
/// assert_eq!(dabberpearl::check_archive(), Ok(()));
/// ```
pub fn check_archive() -> Result<(), Error> {
    answers::serves(archive_version())
}

/// Writes the tree file of a typed line for a link's byte into a lent array, and answers the file's
/// length. All of the array is written: zero after the file's end. [`Tree::typed`] lends one, and has
/// the words.
///
/// # Errors
///
/// [`StrangeFile`](Refusal::StrangeFile) for another byte than 1 to 3, before the line is read; then
/// [`UnknownWord`](Refusal::UnknownWord) or [`Unfinished`](Refusal::Unfinished), whichever stands
/// first; then [`TooLarge`](Refusal::TooLarge). The whole array is zero after each.
///
/// In a line of 4 GiB or more libpft.a does not tell a place from a refusal.
///
/// ```
/// use dabberpearl::{type_line, Refusal, MAX_TREE};
///
/// let mut tree = [0xff; MAX_TREE];
/// assert_eq!(type_line(1, b"not ip", &mut tree), Ok(8 + 2 * 24));
/// assert_eq!(tree[..9], [b'P', b'F', b'T', 0, 1, 1, 0, 2, 3]);
///
/// let error = type_line(4, b"not ip", &mut tree).unwrap_err();
/// assert_eq!(error.refusal(), Some(Refusal::StrangeFile));
/// assert_eq!(tree, [0; MAX_TREE]);
/// ```
pub fn type_line(link: u8, line: &[u8], tree: &mut [u8; MAX_TREE]) -> Result<usize, TypeError> {
    answers::typed(ffi::type_line(link, line, tree))
        .map_err(|(error, place)| TypeError::of(link, line, error, place))
}

/// Builds the program of a tree file into a lent buffer, and answers the count of its
/// instructions.
///
/// The program is the first 8 × count bytes; the rest of the buffer is set to zero. An
/// instruction is 8 bytes, little-endian: 16-bit code, jt, jf, 32-bit k.
///
/// # Errors
///
/// Refusals 1 to 4 in this order over the whole file, then of 5 to 8 and 15 the one that is met
/// first, then 9. The whole buffer is zero after each.
///
/// ```
/// use dabberpearl::{build, conditions::*, Refusal, Tree};
///
/// let mut buffer = [0xff; 40];
/// assert_eq!(build(b"no tree file", &mut buffer), Err(Refusal::StrangeFile.into()));
/// assert_eq!(buffer, [0; 40]);
///
/// let tree = Tree::raw_ip(protocol(Ip))?;
/// assert_eq!(build(tree.as_bytes(), &mut buffer), Ok(2));
/// assert_eq!(buffer[..8], [6, 0, 0, 0, 0xff, 0xff, 0xff, 0xff]);
/// assert_eq!(build(tree.as_bytes(), &mut buffer[..15]), Err(Refusal::ShortBuffer.into()));
/// # Ok::<(), dabberpearl::Error>(())
/// ```
pub fn build(tree: &[u8], program: &mut [u8]) -> Result<usize, Error> {
    answers::built(ffi::build(tree, program))
}

/// Tells how large the program of a tree file is, so that room is reserved before it is loaded.
/// Nothing is written. [`Tree::size`] asks of a [`Tree`].
///
/// # Errors
///
/// Refusals 1 to 8 and 15, as of [`build`]; never [`ShortBuffer`](Refusal::ShortBuffer) or
/// [`CountMoved`](Refusal::CountMoved).
///
/// ```
/// use dabberpearl::{conditions::*, question, Refusal, Tree};
///
/// let tree = Tree::ethernet(protocol(Ip))?;
/// assert_eq!(question(tree.as_bytes())?.count(), 4);
/// assert_eq!(question(b"no tree file"), Err(Refusal::StrangeFile.into()));
/// # Ok::<(), dabberpearl::Error>(())
/// ```
pub fn question(tree: &[u8]) -> Result<Size, Error> {
    answers::asked(ffi::question(tree))
}

/// Loads the program of a tree file that still has a size into a lent buffer, and answers the count
/// of its instructions. The tree is taken as it is now, and the buffer is left as [`build`] leaves it.
/// [`Size`] shows how a slot is reserved first; [`Program::load`] lends a buffer.
///
/// # Errors
///
/// Refusals 1 to 8 and 15, as of [`build`]; then [`CountMoved`](Refusal::CountMoved) where the tree
/// has another count; then [`ShortBuffer`](Refusal::ShortBuffer). The whole buffer is zero after each.
///
/// ```
/// use dabberpearl::{conditions::*, load, Refusal, Tree};
///
/// let tree = Tree::raw_ip(protocol(Ip))?;
/// let size = tree.size()?;
/// let mut buffer = [0xff; 40];
/// assert_eq!(load(tree.as_bytes(), size, &mut buffer), Ok(2));
/// assert_eq!(buffer[..8], [6, 0, 0, 0, 0xff, 0xff, 0xff, 0xff]);
///
/// let edited = Tree::raw_ip(protocol(Ip).not())?;
/// assert_eq!(load(edited.as_bytes(), size, &mut buffer), Err(Refusal::CountMoved.into()));
/// assert_eq!(buffer, [0; 40]);
/// # Ok::<(), dabberpearl::Error>(())
/// ```
pub fn load(tree: &[u8], size: Size, program: &mut [u8]) -> Result<usize, Error> {
    answers::built(ffi::load(tree, size.into(), program))
}

/// Runs a program over a frame. Any bytes may be run, those of a build or others.
///
/// # Errors
///
/// [`OddProgram`](Refusal::OddProgram) for a program of no bytes, of more than [`MAX_RUN`] or of
/// a length that is not a multiple of 8; then [`LongFrame`](Refusal::LongFrame) for a frame of
/// more than [`MAX_FRAME`].
///
/// ```
/// use dabberpearl::{run, Outcome, Refusal, Verdict};
///
/// let ret_1 = [6, 0, 0, 0, 1, 0, 0, 0];
/// assert_eq!(run(&ret_1, b""), Ok(Outcome { verdict: Verdict::Accepted, steps: 1 }));
/// assert_eq!(run(&ret_1[..7], b""), Err(Refusal::OddProgram.into()));
/// ```
pub fn run(program: &[u8], frame: &[u8]) -> Result<Outcome, Error> {
    answers::ran(ffi::run(program, frame))
}

/// Reads a tree file on a frame directly, without a program: whether its conditions hold. Bytes
/// past the frame's end are zero.
///
/// # Errors
///
/// Refusals 1 to 4, then [`LongFrame`](Refusal::LongFrame). Trees that [`build`] refuses with 5
/// to 8 or 15 can be read.
///
/// ```
/// use dabberpearl::{conditions::*, direct, Tree};
///
/// let tree = Tree::ethernet(ether_multicast())?;
/// assert_eq!(direct(tree.as_bytes(), &[0x01]), Ok(true));
/// assert_eq!(direct(tree.as_bytes(), &[]), Ok(false));
/// # Ok::<(), dabberpearl::Error>(())
/// ```
pub fn direct(tree: &[u8], frame: &[u8]) -> Result<bool, Error> {
    answers::read(ffi::direct(tree, frame))
}

/// Builds the program of a tree file into a lent buffer and runs it over each frame of a capture.
///
/// A capture is a classic pcap file of either byte order, with times in microseconds or
/// nanoseconds; of its header mark and link are tested and no other field. The buffer is left as
/// [`build`] leaves it, whatever the capture is. [`Tree::count`] lends one.
///
/// The error is a refusal of [`build`], then [`NoCapture`](Refusal::NoCapture), then
/// [`OtherLink`](Refusal::OtherLink), then at the first bad frame [`CutFrame`](Refusal::CutFrame),
/// beside which the accepted frames before it stand.
///
/// From 2^32 accepted frames on, in a capture of over 64 GiB, libpft.a does not tell their count
/// from a refusal; such a capture is for [`frames`].
///
/// ```
/// use dabberpearl::{conditions::*, count, Counted, Refusal, Tree, MAX_PROGRAM};
///
/// let tree = Tree::ethernet(ether_multicast())?;
/// let mut program = [0; MAX_PROGRAM];
/// let refused = count(tree.as_bytes(), &mut program, b"no capture");
/// assert_eq!(refused, Counted { accepted: 0, error: Some(Refusal::NoCapture.into()) });
/// assert_eq!(program[..8], [0x30, 0, 0, 0, 0, 0, 0, 0]); // the program is there
/// # Ok::<(), dabberpearl::Error>(())
/// ```
pub fn count(tree: &[u8], program: &mut [u8], capture: &[u8]) -> Counted {
    answers::counted(ffi::count(tree, program, capture))
}

/// The frames of a capture, each a piece of it; a bad frame is an error after those before it. The
/// link is not tested: [`count`] does.
///
/// # Errors
///
/// [`NoCapture`](Refusal::NoCapture) at once; [`CutFrame`](Refusal::CutFrame) as the last item.
///
/// ```
/// use dabberpearl::{conditions::*, frames, Error, Program, Refusal, Tree};
///
/// /// How many bytes the accepted frames of a capture have.
/// fn bytes_of(capture: &[u8], program: &Program) -> Result<usize, Error> {
///     let mut sum = 0;
///     for frame in frames(capture)? {
///         let frame = frame?;
///         if program.accepts(frame) {
///             sum += frame.len();
///         }
///     }
///     Ok(sum)
/// }
///
/// let mut capture = [0; 24 + 16 + 4 + 16];
/// capture[..4].copy_from_slice(&0xa1b2c3d4_u32.to_be_bytes()); // the mark
/// capture[24 + 11] = 4; // a frame of 4 bytes, and another of none
/// let program = Program::from_tree(&Tree::ethernet(ether_multicast().not())?)?;
/// assert_eq!(bytes_of(&capture, &program), Ok(4));
/// assert_eq!(bytes_of(&capture[..59], &program), Err(Refusal::CutFrame.into()));
/// assert_eq!(frames(&capture[..59])?.flatten().count(), 1);
/// # Ok::<(), dabberpearl::Error>(())
/// ```
pub fn frames(capture: &[u8]) -> Result<Frames<'_>, Error> {
    Frames::new(capture)
}
