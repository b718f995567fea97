//! Conditions: the records of a tree, without its link.

use core::fmt;

use crate::record::RECORD;
use crate::{Part, Record, MAX_RECORDS};

/// A condition on a frame, single or joined. [`conditions`](crate::conditions) makes single ones;
/// a [`Tree`](crate::Tree) is a condition with a link.
///
/// ```
/// use dabberpearl::conditions::*;
///
/// let web = protocol(Tcp).and(port(Destination, Tcp, 80).or(port(Destination, Tcp, 443)));
/// assert_eq!(web.to_string(), "tcp and ( tcp dst port 80 or tcp dst port 443 )");
/// assert_eq!(
///     web.not().to_string(),
///     "not ( tcp and ( tcp dst port 80 or tcp dst port 443 ) )"
/// );
/// ```
///
/// A list is joined by `reduce`, which gives none for an empty one:
///
/// ```
/// use dabberpearl::conditions::*;
///
/// let ports = [80, 443, 8080].map(|number| port(Destination, Tcp, number));
/// let any = ports.into_iter().reduce(Condition::or).unwrap();
/// assert_eq!(any.to_string(), "tcp dst port 80 or tcp dst port 443 or tcp dst port 8080");
/// ```
#[derive(Clone, PartialEq, Eq, Hash)]
#[must_use = "a join makes a new condition and changes none"]
pub struct Condition {
    /// The records in prefix order, and zero after the last. All zero where they are too many.
    bytes: [u8; RECORD * MAX_RECORDS],
    /// How many bytes the records have, or would have.
    length: usize,
}

impl Condition {
    pub(crate) fn single(record: Record) -> Condition {
        Condition::of(&<[u8; RECORD]>::from(record))
    }

    /// The condition of a tree's records.
    fn of(records: &[u8]) -> Condition {
        let mut bytes = [0; RECORD * MAX_RECORDS];
        let length = records.len();
        bytes[..length].copy_from_slice(records);
        Condition { bytes, length }
    }

    /// Both conditions hold.
    pub fn and(self, right: Condition) -> Condition {
        joined(Record::And, &[&self, &right])
    }

    /// One of two conditions holds, or both.
    pub fn or(self, right: Condition) -> Condition {
        joined(Record::Or, &[&self, &right])
    }

    /// The condition does not hold.
    #[allow(clippy::should_implement_trait)] // it stands beside `and` and `or`
    pub fn not(self) -> Condition {
        joined(Record::Not, &[&self])
    }

    /// The count of its records. A [`Tree`](crate::Tree) takes up to [`MAX_RECORDS`].
    #[allow(clippy::len_without_is_empty)]
    pub fn len(&self) -> usize {
        self.length / RECORD
    }

    /// The bytes of its records; none where they are too many.
    pub(crate) fn records(&self) -> Option<&[u8]> {
        self.bytes.get(..self.length)
    }
}

/// A join and its parts in prefix order.
fn joined(join: Record, parts: &[&Condition]) -> Condition {
    let lengths = parts.iter().map(|part| part.length);
    let length = lengths.fold(RECORD, usize::saturating_add);
    let mut joined = Condition::single(join);
    if length > joined.bytes.len() {
        joined.bytes = [0; RECORD * MAX_RECORDS];
        joined.length = length;
        return joined;
    }
    for part in parts {
        let place = joined.length;
        joined.length += part.length;
        joined.bytes[place..joined.length].copy_from_slice(&part.bytes[..part.length]);
    }
    joined
}

/// A part of a tree on its own, to be joined with others.
impl From<Part<'_>> for Condition {
    fn from(part: Part<'_>) -> Condition {
        Condition::of(part.as_bytes())
    }
}

/// The condition in words; see [`Part`]'s.
impl fmt::Display for Condition {
    fn fmt(&self, f: &mut fmt::Formatter<'_>) -> fmt::Result {
        match self.records() {
            Some(records) => Part::new(records).fmt(f),
            None => write!(f, "{} records, too many for a tree", self.len()),
        }
    }
}

/// As it is displayed.
impl fmt::Debug for Condition {
    fn fmt(&self, f: &mut fmt::Formatter<'_>) -> fmt::Result {
        write!(f, "Condition({self})")
    }
}
