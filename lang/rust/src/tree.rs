//! Tree files and their parts.

use core::fmt;
use core::iter::FusedIterator;
use core::slice;

use crate::record::RECORD;
use crate::{
    check_archive, count, direct, question, type_line, Condition, Counted, Error, Link, Record,
    Refusal, Size, TypeError, MAX_PROGRAM, MAX_TREE,
};

/// The bytes before the first record.
const HEADER: usize = 8;
const MARK: [u8; 5] = [b'P', b'F', b'T', 0, 1];
const LINK_PLACE: usize = 5;
const COUNT_PLACE: usize = 6;

/// A tree file: a link, and one condition joined of single ones.
///
/// It has passed the refusals 1 to 4; a build may still refuse it with 5 to 8 or 15.
///
/// ```
/// use dabberpearl::conditions::*;
/// use dabberpearl::{Link, Program, Record, Tree};
///
/// // Made, ..
/// let tree = Tree::ethernet(protocol(Tcp).and(port(Destination, Tcp, 80).not()))?;
/// assert_eq!(tree.to_string(), "Ethernet: tcp and not tcp dst port 80");
/// assert_eq!(tree.as_bytes().len(), 8 + 4 * 24);
///
/// // .. written and read again, ..
/// let same = Tree::try_from(tree.as_bytes())?;
/// assert_eq!(same, tree);
///
/// // .. and taken apart.
/// assert_eq!(same.link(), Link::Ethernet);
/// assert_eq!(same.root().record(), Record::And);
/// assert!(same.records().eq([
///     Record::And,
///     Record::Protocol(Tcp),
///     Record::Not,
///     Record::Port(Destination, Some(Tcp), 80),
/// ]));
/// # Ok::<(), dabberpearl::Error>(())
/// ```
#[derive(Clone, PartialEq, Eq, Hash)]
pub struct Tree {
    /// The file, and zero after its end.
    bytes: [u8; MAX_TREE],
    length: usize,
    link: Link,
}

impl Tree {
    /// The tree of a condition.
    ///
    /// # Errors
    ///
    /// [`WrongCount`](Refusal::WrongCount) for a condition of more than
    /// [`MAX_RECORDS`](crate::MAX_RECORDS) records.
    ///
    /// ```
    /// use dabberpearl::conditions::*;
    /// use dabberpearl::{Link, Refusal, Tree};
    ///
    /// let mut deep = protocol(Ip);
    /// for _ in 0..127 {
    ///     deep = deep.not();
    /// }
    /// assert!(Tree::new(Link::LinuxSll, deep.clone()).is_ok());
    /// assert_eq!(Tree::new(Link::LinuxSll, deep.not()), Err(Refusal::WrongCount.into()));
    /// ```
    pub fn new(link: Link, condition: Condition) -> Result<Tree, Error> {
        let records = condition.records().ok_or(Refusal::WrongCount)?;
        let count = condition.len() as u16;
        let length = HEADER + records.len();
        let mut bytes = [0; MAX_TREE];
        bytes[..LINK_PLACE].copy_from_slice(&MARK);
        bytes[LINK_PLACE] = link as u8;
        bytes[COUNT_PLACE..HEADER].copy_from_slice(&count.to_be_bytes());
        bytes[HEADER..length].copy_from_slice(records);
        Ok(Tree {
            bytes,
            length,
            link,
        })
    }

    /// The tree of a typed line: words in any number of spaces.
    ///
    /// They are `ip`, `ip6`, `arp`, `rarp`, `icmp`, `tcp`, `udp`, `sctp`; `host` with an IPv4 address,
    /// `port` with a number, `src` or `dst` before these, `tcp`, `udp` or `sctp` before `port` or its
    /// direction; `(`, `)`, `not`, `and`, `or`. `not` binds tightest, `and` and `or` bind equally and
    /// join from the left.
    ///
    /// They are those of pcap-filter but mean less: **`tcp`, `udp` and `sctp` alone are IPv4, `port`
    /// leaves SCTP out, `host` leaves ARP and RARP out** (docs/FORMAT.md).
    ///
    /// # Errors
    ///
    /// [`UnknownWord`](Refusal::UnknownWord) and [`Unfinished`](Refusal::Unfinished), whichever stands
    /// first, with its place; [`TooLarge`](Refusal::TooLarge) of a line without either.
    /// [`OldArchive`](Error::OldArchive) where [`check_archive`] says so.
    ///
    /// ```
    /// use dabberpearl::{conditions::*, Link, Refusal, Tree};
    ///
    /// let line = "( udp or sctp ) and not src host 10.20.0.5";
    /// let tree = Tree::typed(Link::Ethernet, line)?;
    /// assert_eq!(tree.to_string(), format!("Ethernet: {line}"));
    ///
    /// let left = Tree::typed(Link::Ethernet, "ip or udp and port 53")?;
    /// assert_eq!(left.to_string(), "Ethernet: ( ip or udp ) and port 53");
    /// let same = Tree::ethernet(protocol(Ip).or(protocol(Udp)).and(port(Either, None, 53)))?;
    /// assert_eq!(left, same);
    ///
    /// let error = Tree::typed(Link::Ethernet, "host 80").unwrap_err();
    /// assert_eq!(error.refusal(), Some(Refusal::Unfinished));
    /// assert_eq!(error.place(), Some(5));
    /// # Ok::<(), dabberpearl::Error>(())
    /// ```
    pub fn typed(link: Link, line: impl AsRef<[u8]>) -> Result<Tree, TypeError> {
        check_archive()?;
        let mut bytes = [0; MAX_TREE];
        let length = type_line(link as u8, line.as_ref(), &mut bytes)?;
        Ok(Tree {
            bytes,
            length,
            link,
        })
    }

    /// [`Tree::new`] for Ethernet frames.
    pub fn ethernet(condition: Condition) -> Result<Tree, Error> {
        Tree::new(Link::Ethernet, condition)
    }

    /// [`Tree::new`] for frames that start with the IP header.
    pub fn raw_ip(condition: Condition) -> Result<Tree, Error> {
        Tree::new(Link::RawIp, condition)
    }

    /// [`Tree::new`] for frames of Linux cooked captures.
    pub fn linux_sll(condition: Condition) -> Result<Tree, Error> {
        Tree::new(Link::LinuxSll, condition)
    }

    /// The file.
    pub fn as_bytes(&self) -> &[u8] {
        &self.bytes[..self.length]
    }

    /// Its link.
    pub fn link(&self) -> Link {
        self.link
    }

    /// The whole tree as a part: the first record, and all that is below it.
    pub fn root(&self) -> Part<'_> {
        Part::new(&self.bytes[HEADER..self.length])
    }

    /// Its records in the order of the file: a join, its left part, its right part.
    pub fn records(&self) -> Records<'_> {
        self.root().records()
    }

    /// How large its program is, so that room is reserved before it is loaded.
    ///
    /// # Errors
    ///
    /// Refusals 5 to 8 and 15: the tree has no program. [`OldArchive`](Error::OldArchive) where
    /// [`check_archive`] says so.
    ///
    /// ```
    /// use dabberpearl::{conditions::*, Refusal, Tree};
    ///
    /// assert_eq!(Tree::raw_ip(protocol(Ip))?.size()?.bytes(), 2 * 8);
    /// let six = Tree::raw_ip(protocol(Ip6))?;
    /// assert_eq!(six.size(), Err(Refusal::KindOnRaw.into()));
    /// # Ok::<(), dabberpearl::Error>(())
    /// ```
    pub fn size(&self) -> Result<Size, Error> {
        check_archive()?;
        question(self.as_bytes())
    }

    /// Whether its conditions hold of a frame, read directly, without a program. Bytes past the
    /// frame's end are zero.
    ///
    /// # Errors
    ///
    /// [`LongFrame`](Refusal::LongFrame).
    ///
    /// ```
    /// use dabberpearl::{conditions::*, Tree};
    ///
    /// let tree = Tree::raw_ip(protocol(Udp))?;
    /// assert!(tree.holds(&[0x45, 0, 0, 0, 0, 0, 0, 0, 0, 17])?);
    /// assert!(!tree.holds(&[])?);
    /// # Ok::<(), dabberpearl::Error>(())
    /// ```
    pub fn holds(&self, frame: &[u8]) -> Result<bool, Error> {
        direct(self.as_bytes(), frame)
    }

    /// Builds its program and counts the frames of a capture that it accepts: [`count`] without
    /// a buffer of the caller's.
    ///
    /// ```
    /// use dabberpearl::{conditions::*, Counted, Refusal, Tree};
    ///
    /// let mut capture = [0; 24 + 16 + 10];
    /// capture[..4].copy_from_slice(&0xa1b2c3d4_u32.to_be_bytes()); // the mark
    /// capture[23] = 101; // the link: RawIp
    /// capture[24 + 11] = 10; // the captured length of the frame
    /// capture[40] = 0x45; // IPv4, a header of 20 bytes
    /// capture[49] = 17; // UDP
    ///
    /// let tree = Tree::raw_ip(protocol(Udp))?;
    /// assert_eq!(tree.count(&capture), Counted { accepted: 1, error: None });
    /// let cut = tree.count(&capture[..49]);
    /// assert_eq!(cut, Counted { accepted: 0, error: Some(Refusal::CutFrame.into()) });
    ///
    /// let other = Tree::ethernet(protocol(Udp))?;
    /// assert_eq!(other.count(&capture).into_result(), Err(Refusal::OtherLink.into()));
    /// # Ok::<(), dabberpearl::Error>(())
    /// ```
    pub fn count(&self, capture: &[u8]) -> Counted {
        match check_archive() {
            Ok(()) => count(self.as_bytes(), &mut [0; MAX_PROGRAM], capture),
            Err(error) => error.into(),
        }
    }
}

/// A tree file read: it passes the refusals 1 to 4, which libpft.a tests.
///
/// ```
/// use dabberpearl::{Error, Refusal, Tree};
///
/// let refused = Tree::try_from(&b"no tree file"[..]);
/// assert_eq!(refused, Err(Error::Refused(Refusal::StrangeFile)));
/// ```
impl TryFrom<&[u8]> for Tree {
    type Error = Error;

    fn try_from(file: &[u8]) -> Result<Tree, Error> {
        check_archive()?;
        direct(file, &[])?;
        // The proved checks leave no file that is longer or has another link; a later archive's may.
        let length = file.len();
        let mut bytes = [0; MAX_TREE];
        let place = bytes.get_mut(..length).ok_or(Refusal::WrongCount)?;
        place.copy_from_slice(file);
        let link = Link::of(bytes[LINK_PLACE]).ok_or(Refusal::StrangeFile)?;
        Ok(Tree {
            bytes,
            length,
            link,
        })
    }
}

impl AsRef<[u8]> for Tree {
    fn as_ref(&self) -> &[u8] {
        self.as_bytes()
    }
}

impl<'a> IntoIterator for &'a Tree {
    type Item = Record;
    type IntoIter = Records<'a>;

    fn into_iter(self) -> Records<'a> {
        self.records()
    }
}

/// The link and the conditions in words, as `Ethernet: tcp and not dst port 80`.
impl fmt::Display for Tree {
    fn fmt(&self, f: &mut fmt::Formatter<'_>) -> fmt::Result {
        write!(f, "{}: {}", self.link, self.root())
    }
}

/// As it is displayed.
impl fmt::Debug for Tree {
    fn fmt(&self, f: &mut fmt::Formatter<'_>) -> fmt::Result {
        write!(f, "Tree({self})")
    }
}

/// A part of a tree: a record, and all that is below it.
///
/// ```
/// use dabberpearl::conditions::*;
/// use dabberpearl::{Part, Record, Tree};
///
/// /// The ports that a part names, be they wanted or not.
/// fn ports_of(part: Part<'_>, found: &mut Vec<u16>) {
///     if let Record::Port(_, _, number) = part.record() {
///         found.push(number);
///     }
///     for below in [part.left(), part.right()].into_iter().flatten() {
///         ports_of(below, found);
///     }
/// }
///
/// let tree = Tree::ethernet(protocol(Tcp).and(port(Either, Tcp, 80).or(port(Either, Tcp, 443))))?;
/// let mut found = Vec::new();
/// ports_of(tree.root(), &mut found);
/// assert_eq!(found, [80, 443]);
///
/// let right = tree.root().right().unwrap();
/// assert_eq!(right.to_string(), "tcp port 80 or tcp port 443");
/// let others = Tree::ethernet(Condition::from(right).not())?;
/// assert_eq!(others.to_string(), "Ethernet: not ( tcp port 80 or tcp port 443 )");
/// # Ok::<(), dabberpearl::Error>(())
/// ```
#[derive(Clone, Copy, PartialEq, Eq, Hash)]
pub struct Part<'a> {
    /// Its records in prefix order: at least one, and no more than are its own.
    bytes: &'a [u8],
}

impl<'a> Part<'a> {
    pub(crate) fn new(bytes: &'a [u8]) -> Part<'a> {
        Part { bytes }
    }

    pub(crate) fn as_bytes(self) -> &'a [u8] {
        self.bytes
    }

    /// Its first record.
    pub fn record(self) -> Record {
        row_at(self.bytes, 0).into()
    }

    /// Its left part: that of an and or an or, and the part of a not.
    pub fn left(self) -> Option<Part<'a>> {
        part_at(self.bytes, RECORD)
    }

    /// The right part of an and or an or.
    pub fn right(self) -> Option<Part<'a>> {
        part_at(self.bytes, RECORD + self.left()?.bytes.len())
    }

    /// Its records in prefix order.
    pub fn records(self) -> Records<'a> {
        Records {
            rest: self.bytes.chunks_exact(RECORD),
        }
    }
}

/// How many parts stand below a record.
fn below(record: Record) -> usize {
    match record {
        Record::And | Record::Or => 2,
        Record::Not => 1,
        _ => 0,
    }
}

fn row_at(bytes: &[u8], place: usize) -> [u8; RECORD] {
    core::array::from_fn(|i| bytes[place + i])
}

/// The part that starts at a place, if one does.
fn part_at(bytes: &[u8], place: usize) -> Option<Part<'_>> {
    let rest = bytes.get(place..)?;
    let mut wanted = 1;
    let mut length = 0;
    while wanted > 0 {
        if length == rest.len() {
            return None;
        }
        wanted = wanted - 1 + below(row_at(rest, length).into());
        length += RECORD;
    }
    Some(Part::new(&rest[..length]))
}

/// Writes a part that stands in another, with brackets around a join other than `plain`.
fn write_inner(f: &mut fmt::Formatter<'_>, part: Part<'_>, plain: Record) -> fmt::Result {
    let record = part.record();
    if below(record) == 2 && record != plain {
        write!(f, "( {part} )")
    } else {
        write!(f, "{part}")
    }
}

/// The part in the words of pcap-filter. Joins of the same kind stand without brackets where they
/// are joined from the left. Where the words are those of [`Tree::typed`], typing them gives the part
/// again.
impl fmt::Display for Part<'_> {
    fn fmt(&self, f: &mut fmt::Formatter<'_>) -> fmt::Result {
        let record = self.record();
        match (self.left(), self.right()) {
            (Some(left), Some(right)) => {
                write_inner(f, left, record)?;
                write!(f, " {record} ")?;
                write_inner(f, right, Record::Not)
            }
            (Some(part), None) => {
                write!(f, "{record} ")?;
                write_inner(f, part, Record::Not)
            }
            _ => record.fmt(f),
        }
    }
}

/// As it is displayed.
impl fmt::Debug for Part<'_> {
    fn fmt(&self, f: &mut fmt::Formatter<'_>) -> fmt::Result {
        write!(f, "Part({self})")
    }
}

/// The records of a tree in order; see [`Tree::records`].
#[derive(Clone, Debug)]
pub struct Records<'a> {
    rest: slice::ChunksExact<'a, u8>,
}

impl Iterator for Records<'_> {
    type Item = Record;

    fn next(&mut self) -> Option<Record> {
        self.rest.next().map(|row| row_at(row, 0).into())
    }

    fn size_hint(&self) -> (usize, Option<usize>) {
        self.rest.size_hint()
    }
}

impl DoubleEndedIterator for Records<'_> {
    fn next_back(&mut self) -> Option<Record> {
        self.rest.next_back().map(|row| row_at(row, 0).into())
    }
}

impl ExactSizeIterator for Records<'_> {}
impl FusedIterator for Records<'_> {}
