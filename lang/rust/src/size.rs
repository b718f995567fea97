//! The size of a program, known before it is loaded.

use crate::program::INSTRUCTION;

/// How large the program of a tree is: what [`question`](crate::question()) and
/// [`Tree::size`](crate::Tree::size) tell, so that room is reserved, and what
/// [`load`](crate::load()) and [`Program::load`](crate::Program::load) take.
///
/// It is a count of instructions and knows no tree. A tree that was edited to another program of the
/// same count is loaded as it then is; one of another count is a
/// [`CountMoved`](crate::Refusal::CountMoved).
///
/// ```
/// use dabberpearl::{conditions::*, load, run, Error, Refusal, Tree, Verdict};
///
/// let web = Tree::raw_ip(port(Destination, Tcp, 80))?;
/// let size = web.size()?;
/// assert_eq!((size.count(), size.bytes()), (9, 72));
/// let mut slot = vec![0; size.bytes()]; // reserved, in whatever memory it is
/// load(web.as_bytes(), size, &mut slot)?;
///
/// // Edited before it is loaded: another port, and another count of instructions.
/// let proxy = Tree::raw_ip(port(Destination, Tcp, 8080))?;
/// load(proxy.as_bytes(), size, &mut slot)?;
/// let mut packet = [0; 64];
/// packet[0] = 0x45; // IPv4, a header of 20 bytes
/// packet[9] = 6; // TCP
/// packet[22..24].copy_from_slice(&8080_u16.to_be_bytes());
/// assert_eq!(run(&slot, &packet)?.verdict, Verdict::Accepted);
///
/// let more = Tree::raw_ip(port(Either, Tcp, 80))?;
/// let moved = Err(Error::Refused(Refusal::CountMoved));
/// assert_eq!(load(more.as_bytes(), size, &mut slot), moved);
/// assert_eq!(slot, [0; 72]);
/// # Ok::<(), dabberpearl::Error>(())
/// ```
///
/// A number becomes one by [`from_stored`](Size::from_stored) alone:
///
/// ```compile_fail,E0451
/// let size = dabberpearl::Size { count: 4 };
/// ```
#[derive(Clone, Copy, Debug, PartialEq, Eq, PartialOrd, Ord, Hash)]
#[must_use = "a size is for a slot and its load"]
pub struct Size {
    pub(crate) count: u32,
}

impl Size {
    /// The size of a count of instructions that was stored, and not told just now. Nothing is tested
    /// here: a load tests, in all 32 bits, that the tree has this count.
    ///
    /// ```
    /// use dabberpearl::{conditions::*, Program, Refusal, Size, Tree};
    ///
    /// let tree = Tree::ethernet(protocol(Ip))?;
    /// let stored = u32::from(tree.size()?);
    /// assert_eq!(Program::load(&tree, Size::from_stored(stored))?.len(), 4);
    /// for other in [0, stored + 1, stored + 65_536, u32::MAX] {
    ///     let refused = Program::load(&tree, Size::from_stored(other));
    ///     assert_eq!(refused, Err(Refusal::CountMoved.into()));
    /// }
    /// # Ok::<(), dabberpearl::Error>(())
    /// ```
    pub const fn from_stored(count: u32) -> Size {
        Size { count }
    }

    /// The instructions. Of a size that was told they are 2 to
    /// [`MAX_INSTRUCTIONS`](crate::MAX_INSTRUCTIONS).
    pub const fn count(self) -> usize {
        self.count as usize
    }

    /// Their bytes: the room to reserve, and the length of the program to run.
    pub const fn bytes(self) -> usize {
        INSTRUCTION * self.count()
    }
}

/// The count, to be stored.
impl From<Size> for u32 {
    fn from(size: Size) -> u32 {
        size.count
    }
}
