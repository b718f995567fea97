//! Typed lines: where one is at fault, what could stand there, and how that is shown.

use core::fmt;
use core::iter;

use crate::{answers, ffi, Error, Refusal, MAX_TREE};

/// What may stand in a line, in the order in which it is told, and what is typed to ask for it.
const FOLLOWERS: [(&str, &str); 19] = [
    ("ip", "ip"),
    ("ip6", "ip6"),
    ("arp", "arp"),
    ("rarp", "rarp"),
    ("icmp", "icmp"),
    ("tcp", "tcp"),
    ("udp", "udp"),
    ("sctp", "sctp"),
    ("host", "host"),
    ("port", "port"),
    ("src", "src"),
    ("dst", "dst"),
    ("(", "("),
    (")", ")"),
    ("not", "not"),
    ("and", "and"),
    ("or", "or"),
    ("an address", "0.0.0.0"),
    ("a port number", "0"),
];
const THE_END: &str = "the end";

/// The longest of what is typed.
const LONGEST: usize = 7;

/// How many bytes before a fault are typed again to ask what could follow them.
const MOST_ASKED: usize = 4_096;

/// How many characters of a line are shown.
const SHOWN: usize = 72;
/// What stands where a line is cut.
const CUT: &str = "...";

/// What could stand at a place: a bit for each of [`FOLLOWERS`], and one for the end.
#[derive(Clone, Copy, Debug, Default, PartialEq, Eq, Hash)]
struct Expected(u32);

impl Expected {
    /// What could follow the start of a line, up to its fault. The library says so itself: what
    /// cannot follow is [`Unfinished`](Refusal::Unfinished) at its own place.
    fn after(link: u8, start: &[u8]) -> Expected {
        let mut set = Expected::default();
        if start.len() > MOST_ASKED {
            return set;
        }
        let mut line = [b' '; MOST_ASKED + 1 + LONGEST];
        line[..start.len()].copy_from_slice(start);
        let place = start.len() + 1;
        for (i, (_, typed)) in FOLLOWERS.iter().enumerate() {
            let end = place + typed.len();
            line[place..end].copy_from_slice(typed.as_bytes());
            if asked(link, &line[..end]) != Err((Refusal::Unfinished.into(), place)) {
                set.0 |= 1 << i;
            }
        }
        if let Ok(_) | Err((Error::Refused(Refusal::TooLarge), _)) = asked(link, start) {
            set.0 |= 1 << FOLLOWERS.len();
        }
        set
    }

    fn iter(self) -> impl Iterator<Item = &'static str> {
        let told = FOLLOWERS.iter().map(|(told, _)| *told);
        told.chain(iter::once(THE_END))
            .enumerate()
            .filter_map(move |(i, told)| (self.0 & 1 << i != 0).then_some(told))
    }
}

/// Words with spaces between, and what is told in more words behind a comma.
impl fmt::Display for Expected {
    fn fmt(&self, f: &mut fmt::Formatter<'_>) -> fmt::Result {
        let mut between = "";
        for told in self.iter() {
            let comma = !between.is_empty() && told.contains(' ');
            write!(f, "{}{between}{told}", if comma { "," } else { "" })?;
            between = " ";
        }
        Ok(())
    }
}

/// What the library says of a line; the file itself is not wanted.
fn asked(link: u8, line: &[u8]) -> Result<usize, (Error, usize)> {
    answers::typed(ffi::type_line(link, line, &mut [0; MAX_TREE]))
}

/// Why a line is no tree file, where it is at fault, and what could stand there.
///
/// ```
/// use dabberpearl::{Link, Refusal, Tree};
///
/// let line = "tcp and prot 80";
/// let error = Tree::typed(Link::Ethernet, line).unwrap_err();
/// assert_eq!(error.refusal(), Some(Refusal::UnknownWord));
/// assert_eq!(error.place(), Some(8));
/// assert!(error.expected().any(|word| word == "port"));
/// assert_eq!(error.show(line).to_string(), "\
/// tcp and prot 80
///         ^
/// refused 16, unknown word, at byte 8; here could follow: \
/// ip ip6 arp rarp icmp tcp udp sctp host port src dst ( not");
/// ```
///
/// It turns into an [`Error`] where that is all that is wanted, as by `?`.
#[derive(Clone, Copy, Debug, PartialEq, Eq, Hash)]
pub struct TypeError {
    error: Error,
    place: Option<usize>,
    expected: Expected,
}

impl TypeError {
    /// Of a line that the library refuses.
    pub(crate) fn of(link: u8, line: &[u8], error: Error, place: usize) -> TypeError {
        let (Error::Refused(Refusal::UnknownWord | Refusal::Unfinished), Some(start)) =
            (error, line.get(..place))
        else {
            return error.into();
        };
        TypeError {
            error,
            place: Some(place),
            expected: Expected::after(link, start),
        }
    }

    /// The error without its place.
    pub fn error(self) -> Error {
        self.error
    }

    /// The refusal: [`UnknownWord`](Refusal::UnknownWord), [`Unfinished`](Refusal::Unfinished),
    /// [`TooLarge`](Refusal::TooLarge) or, of a link's byte, [`StrangeFile`](Refusal::StrangeFile).
    /// None for an error that speaks of libpft.a.
    pub fn refusal(self) -> Option<Refusal> {
        match self.error {
            Error::Refused(refusal) => Some(refusal),
            _ => None,
        }
    }

    /// The byte of the line, from 0 on, where an unknown word starts, or a word that cannot follow
    /// those before it; the line's length where more has to follow. None with every other error.
    pub fn place(self) -> Option<usize> {
        self.place
    }

    /// What could stand at the place: words, and `an address`, `a port number`, `the end`.
    ///
    /// The library is asked for each, with the line's start before it; there is no second grammar.
    /// It is asked behind at most 4,096 bytes, so of a longer start, as of an error without a place,
    /// nothing is told.
    ///
    /// ```
    /// use dabberpearl::{Link, Tree};
    ///
    /// let expected = |line| -> Vec<_> {
    ///     Tree::typed(Link::Ethernet, line).unwrap_err().expected().collect()
    /// };
    /// assert_eq!(expected("src"), ["host", "port"]);
    /// assert_eq!(expected("host"), ["an address"]);
    /// assert_eq!(expected("tcp 80"), ["port", "src", "dst", "and", "or", "the end"]);
    /// ```
    pub fn expected(self) -> impl Iterator<Item = &'static str> {
        self.expected.iter()
    }

    /// The line with a mark under the place, and the error below; without a place the error alone.
    ///
    /// Of a line of more than 72 characters so many around the place are shown. What is no UTF-8, and
    /// a control character, is shown as `?`.
    pub fn show<L: AsRef<[u8]> + ?Sized>(self, line: &L) -> impl fmt::Display + '_ {
        Shown {
            line: line.as_ref(),
            error: self,
        }
    }
}

/// An error without a place.
impl From<Error> for TypeError {
    fn from(error: Error) -> TypeError {
        TypeError {
            error,
            place: None,
            expected: Expected::default(),
        }
    }
}

impl From<TypeError> for Error {
    fn from(error: TypeError) -> Error {
        error.error
    }
}

/// One line: the refusal, its place, and what could stand there.
///
/// ```
/// use dabberpearl::{Link, Tree};
///
/// let error = Tree::typed(Link::RawIp, "not ( udp").unwrap_err();
/// assert_eq!(
///     error.to_string(),
///     "refused 17, unfinished, at byte 9; here could follow: port src dst ) and or"
/// );
/// ```
impl fmt::Display for TypeError {
    fn fmt(&self, f: &mut fmt::Formatter<'_>) -> fmt::Result {
        self.error.fmt(f)?;
        if let Some(place) = self.place {
            write!(f, ", at byte {place}")?;
        }
        if self.expected != Expected::default() {
            write!(f, "; here could follow: {}", self.expected)?;
        }
        Ok(())
    }
}

impl core::error::Error for TypeError {}

/// See [`TypeError::show`].
struct Shown<'a> {
    line: &'a [u8],
    error: TypeError,
}

/// The characters of a line as they are shown: one for each of its own, and for each byte that is no
/// part of one.
fn shown(line: &[u8]) -> impl Iterator<Item = char> + '_ {
    line.utf8_chunks().flat_map(|chunk| {
        let chars = chunk.valid().chars();
        let plain = chars.map(|c| if c.is_control() { '?' } else { c });
        plain.chain(chunk.invalid().iter().map(|_| '?'))
    })
}

impl fmt::Display for Shown<'_> {
    fn fmt(&self, f: &mut fmt::Formatter<'_>) -> fmt::Result {
        let Some(place) = self.error.place else {
            return self.error.fmt(f);
        };
        let count = shown(self.line).count();
        let mark = shown(self.line.get(..place).unwrap_or(self.line)).count();
        let start = mark
            .saturating_sub(SHOWN / 2)
            .min(count.saturating_sub(SHOWN));
        let before = if start > 0 { CUT } else { "" };
        f.write_str(before)?;
        for c in shown(self.line).skip(start).take(SHOWN) {
            write!(f, "{c}")?;
        }
        writeln!(f, "{}", if start + SHOWN < count { CUT } else { "" })?;
        writeln!(f, "{:>1$}", '^', before.len() + mark - start + 1)?;
        self.error.fmt(f)
    }
}

#[cfg(test)]
mod tests {
    extern crate std;

    use super::*;
    use std::string::ToString;

    #[test]
    fn what_is_typed_fits() {
        assert!(FOLLOWERS.iter().all(|(_, typed)| typed.len() <= LONGEST));
    }

    #[test]
    fn what_is_told() {
        let all = Expected((1 << (FOLLOWERS.len() + 1)) - 1);
        assert_eq!(
            all.to_string(),
            "ip ip6 arp rarp icmp tcp udp sctp host port src dst ( ) not and or, \
             an address, a port number, the end"
        );
        assert_eq!(Expected(1 << 17).to_string(), "an address");
        assert_eq!(Expected(0).to_string(), "");
    }

    /// Errors of other archives, and of lines that are none of theirs.
    #[test]
    fn without_a_place() {
        for error in [
            Error::OldArchive(3),
            Error::UnknownRefusal(99),
            Refusal::TooLarge.into(),
            Refusal::StrangeFile.into(),
        ] {
            let typed = TypeError::of(1, b"ip", error, 1);
            assert_eq!(typed, TypeError::from(error));
            assert_eq!((typed.place(), typed.expected().count()), (None, 0));
            assert_eq!(typed.to_string(), error.to_string());
            assert_eq!(typed.show("ip").to_string(), error.to_string());
            assert_eq!(Error::from(typed), error);
        }
        let past = TypeError::of(1, b"ip", Refusal::UnknownWord.into(), 3);
        assert_eq!(past.place(), None);
    }
}
