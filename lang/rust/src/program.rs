//! A built program and its instructions.

use core::fmt;
use core::iter::FusedIterator;
use core::slice;

use crate::{build, check_archive, load, run, Error, Outcome, Size, Verdict, MAX_PROGRAM};

/// The bytes of an instruction.
pub(crate) const INSTRUCTION: usize = 8;

/// The program of an accepted tree.
///
/// Its frames can only be refused as too long, and its runs are never broken. It needs no heap and
/// is 31 KiB large whatever its length: best lent, or put into a `Box`. [`build`] and [`load`] take a
/// buffer of the caller's instead.
#[derive(Clone, PartialEq, Eq, Hash)]
pub struct Program {
    /// The instructions, and zero after the last.
    bytes: [u8; MAX_PROGRAM],
    length: usize,
}

impl Program {
    /// Builds the program of a [`Tree`](crate::Tree), or of the bytes of a tree file.
    ///
    /// # Errors
    ///
    /// Refusals 1 to 8 and 15, for a [`Tree`](crate::Tree) 5 to 8 and 15.
    /// [`OldArchive`](Error::OldArchive) where [`check_archive`] says so.
    ///
    /// ```
    /// use dabberpearl::{conditions::*, Program, Refusal, Tree};
    ///
    /// let tree = Tree::raw_ip(ether_multicast())?;
    /// assert_eq!(Program::from_tree(&tree), Err(Refusal::EtherOnRaw.into()));
    /// let tree = Tree::linux_sll(ether_multicast())?;
    /// assert_eq!(Program::from_tree(&tree), Err(Refusal::CookedAddress.into()));
    /// assert_eq!(Program::from_tree(b"no tree file"), Err(Refusal::StrangeFile.into()));
    /// # Ok::<(), dabberpearl::Error>(())
    /// ```
    pub fn from_tree<T: AsRef<[u8]> + ?Sized>(tree: &T) -> Result<Program, Error> {
        Program::made(|bytes| build(tree.as_ref(), bytes))
    }

    /// Loads the program of a [`Tree`](crate::Tree), or of the bytes of a tree file, that still has
    /// this size. The tree is taken as it is now.
    ///
    /// # Errors
    ///
    /// Those of [`from_tree`](Program::from_tree), then [`CountMoved`](crate::Refusal::CountMoved).
    ///
    /// ```
    /// use dabberpearl::{conditions::*, Program, Refusal, Tree};
    ///
    /// let tcp = Tree::ethernet(protocol(Tcp))?;
    /// let size = tcp.size()?;
    /// assert_eq!(Program::load(&tcp, size), Program::from_tree(&tcp));
    /// let udp = Tree::ethernet(protocol(Udp))?; // as many instructions
    /// assert_eq!(Program::load(&udp, size), Program::from_tree(&udp));
    /// let both = Tree::ethernet(protocol(Tcp).or(protocol(Udp)))?;
    /// assert_eq!(Program::load(&both, size), Err(Refusal::CountMoved.into()));
    /// # Ok::<(), dabberpearl::Error>(())
    /// ```
    pub fn load<T: AsRef<[u8]> + ?Sized>(tree: &T, size: Size) -> Result<Program, Error> {
        Program::made(|bytes| load(tree.as_ref(), size, bytes))
    }

    /// The program that a call writes and whose count it answers.
    fn made(call: impl FnOnce(&mut [u8]) -> Result<usize, Error>) -> Result<Program, Error> {
        check_archive()?;
        let mut program = Program {
            bytes: [0; MAX_PROGRAM],
            length: 0,
        };
        program.length = INSTRUCTION * call(&mut program.bytes)?;
        Ok(program)
    }

    /// Its bytes, 8 for each instruction, little-endian. On a little-endian machine they are those
    /// of an array of Linux's `struct sock_filter`.
    pub fn as_bytes(&self) -> &[u8] {
        &self.bytes[..self.length]
    }

    /// The count of its instructions, 2 to [`MAX_INSTRUCTIONS`](crate::MAX_INSTRUCTIONS).
    #[allow(clippy::len_without_is_empty)]
    pub fn len(&self) -> usize {
        self.length / INSTRUCTION
    }

    /// Its instructions in order.
    ///
    /// ```
    /// use dabberpearl::{conditions::*, Instruction, Program, Tree};
    ///
    /// let program = Program::from_tree(&Tree::raw_ip(protocol(Ip))?)?;
    /// let accept = Instruction { code: 6, jt: 0, jf: 0, k: 0xffff_ffff };
    /// assert!(program.instructions().eq([accept, Instruction { k: 0, ..accept }]));
    /// # Ok::<(), dabberpearl::Error>(())
    /// ```
    pub fn instructions(&self) -> Instructions<'_> {
        Instructions {
            rest: self.as_bytes().chunks_exact(INSTRUCTION),
        }
    }

    /// Runs it over a frame.
    ///
    /// # Errors
    ///
    /// [`LongFrame`](crate::Refusal::LongFrame) alone.
    pub fn run(&self, frame: &[u8]) -> Result<Outcome, Error> {
        run(self.as_bytes(), frame)
    }

    /// Whether a frame is accepted. One that is dropped, short or too long is not.
    ///
    /// ```
    /// use dabberpearl::{conditions::*, Program, Tree};
    ///
    /// let program = Program::from_tree(&Tree::raw_ip(protocol(Ip))?)?;
    /// assert!(program.accepts(&[]));
    /// assert!(program.accepts(&[0; 65_535]));
    /// assert!(!program.accepts(&[0; 65_536]));
    /// # Ok::<(), dabberpearl::Error>(())
    /// ```
    pub fn accepts(&self, frame: &[u8]) -> bool {
        self.run(frame)
            .is_ok_and(|outcome| outcome.verdict == Verdict::Accepted)
    }
}

impl AsRef<[u8]> for Program {
    fn as_ref(&self) -> &[u8] {
        self.as_bytes()
    }
}

impl<'a> IntoIterator for &'a Program {
    type Item = Instruction;
    type IntoIter = Instructions<'a>;

    fn into_iter(self) -> Instructions<'a> {
        self.instructions()
    }
}

/// The count, then a line for each instruction: what `pft-list` prints.
///
/// ```
/// use dabberpearl::{conditions::*, Program, Tree};
///
/// let program = Program::from_tree(&Tree::ethernet(protocol(Ip).not())?)?;
/// assert_eq!(program.to_string(), "\
/// 5
/// 40 0 0 12
/// 21 0 1 2048
/// 5 0 0 1
/// 6 0 0 4294967295
/// 6 0 0 0
/// ");
/// # Ok::<(), dabberpearl::Error>(())
/// ```
impl fmt::Display for Program {
    fn fmt(&self, f: &mut fmt::Formatter<'_>) -> fmt::Result {
        writeln!(f, "{}", self.len())?;
        self.into_iter()
            .try_for_each(|instruction| writeln!(f, "{instruction}"))
    }
}

/// The list of its instructions.
impl fmt::Debug for Program {
    fn fmt(&self, f: &mut fmt::Formatter<'_>) -> fmt::Result {
        f.debug_list().entries(self).finish()
    }
}

/// One instruction of a program.
#[derive(Clone, Copy, Debug, PartialEq, Eq, Hash)]
pub struct Instruction {
    /// What it does.
    pub code: u16,
    /// How many instructions are skipped where its test holds.
    pub jt: u8,
    /// How many instructions are skipped where its test fails.
    pub jf: u8,
    /// Its number.
    pub k: u32,
}

impl Instruction {
    fn of(b: &[u8]) -> Instruction {
        Instruction {
            code: u16::from_le_bytes([b[0], b[1]]),
            jt: b[2],
            jf: b[3],
            k: u32::from_le_bytes([b[4], b[5], b[6], b[7]]),
        }
    }
}

/// Code, jt, jf and k, decimal, as `pft-list` prints them.
impl fmt::Display for Instruction {
    fn fmt(&self, f: &mut fmt::Formatter<'_>) -> fmt::Result {
        write!(f, "{} {} {} {}", self.code, self.jt, self.jf, self.k)
    }
}

/// The instructions of a program in order; see [`Program::instructions`].
#[derive(Clone, Debug)]
pub struct Instructions<'a> {
    rest: slice::ChunksExact<'a, u8>,
}

impl Iterator for Instructions<'_> {
    type Item = Instruction;

    fn next(&mut self) -> Option<Instruction> {
        self.rest.next().map(Instruction::of)
    }

    fn size_hint(&self) -> (usize, Option<usize>) {
        self.rest.size_hint()
    }
}

impl DoubleEndedIterator for Instructions<'_> {
    fn next_back(&mut self) -> Option<Instruction> {
        self.rest.next_back().map(Instruction::of)
    }
}

impl ExactSizeIterator for Instructions<'_> {}
impl FusedIterator for Instructions<'_> {}
