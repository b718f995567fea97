//! Answers: the numbers of libpft.a taken apart.

use core::fmt;

use crate::{Size, MAX_TREE};

/// The smallest tree file: 8 bytes and one record.
const MIN_TREE: usize = 32;

/// Why a call is refused.
///
/// Later versions add refusals. A number that this version does not know is an
/// [`Error::UnknownRefusal`].
#[derive(Clone, Copy, Debug, PartialEq, Eq, Hash)]
#[non_exhaustive]
pub enum Refusal {
    /// 1: under 8 bytes, or mark, version or link differs.
    StrangeFile = 1,
    /// 2: count 0 or over 128, or length not 8 + 24 × count.
    WrongCount = 2,
    /// 3: unknown kind, direction or protocol, or an unused byte not zero.
    BadRecord = 3,
    /// 4: prefix reading doesn't end exactly at the last record.
    NotOneTree = 4,
    /// 5: RawIp, and an ethertype other than 0x0800 is to be tested.
    KindOnRaw = 5,
    /// 6: port or range with a protocol other than none, Tcp, Udp and Sctp.
    PortProtocol = 6,
    /// 7: RawIp with ether host or ether multicast.
    EtherOnRaw = 7,
    /// 8: a resolved distance exceeds 255.
    FarJump = 8,
    /// 9: fewer than 8 × instructions bytes lent.
    ShortBuffer = 9,
    /// 10: frame over 65,535 bytes.
    LongFrame = 10,
    /// 11: program of length 0, over 32,768, or not a multiple of 8.
    OddProgram = 11,
    /// 12: a short header or other mark.
    NoCapture = 12,
    /// 13: the link isn't the tree's.
    OtherLink = 13,
    /// 14: a frame header or body runs past the file or is over 65,535 bytes.
    CutFrame = 14,
    /// 15: LinuxSll with ether multicast, or with an ether host of another direction than source.
    CookedAddress = 15,
    /// 16: a typed word that is none, and no address or port number either.
    UnknownWord = 16,
    /// 17: a typed word that can't follow those before it, or the line's end where more has to.
    Unfinished = 17,
    /// 18: a typed line of over 128 records, or with over 128 brackets open at once.
    TooLarge = 18,
    /// 19: a load of another count than the tree has.
    CountMoved = 19,
}

impl Refusal {
    /// All refusals, by number from 1 on.
    pub const ALL: &'static [Refusal] = &[
        Refusal::StrangeFile,
        Refusal::WrongCount,
        Refusal::BadRecord,
        Refusal::NotOneTree,
        Refusal::KindOnRaw,
        Refusal::PortProtocol,
        Refusal::EtherOnRaw,
        Refusal::FarJump,
        Refusal::ShortBuffer,
        Refusal::LongFrame,
        Refusal::OddProgram,
        Refusal::NoCapture,
        Refusal::OtherLink,
        Refusal::CutFrame,
        Refusal::CookedAddress,
        Refusal::UnknownWord,
        Refusal::Unfinished,
        Refusal::TooLarge,
        Refusal::CountMoved,
    ];

    /// Its number.
    ///
    /// ```
    /// assert_eq!(dabberpearl::Refusal::FarJump.number(), 8);
    /// ```
    pub const fn number(self) -> u32 {
        self as u32
    }

    /// Its word.
    ///
    /// ```
    /// assert_eq!(dabberpearl::Refusal::FarJump.word(), "far jump");
    /// ```
    pub const fn word(self) -> &'static str {
        match self {
            Refusal::StrangeFile => "strange file",
            Refusal::WrongCount => "wrong count",
            Refusal::BadRecord => "bad record",
            Refusal::NotOneTree => "not one tree",
            Refusal::KindOnRaw => "kind on raw",
            Refusal::PortProtocol => "port protocol",
            Refusal::EtherOnRaw => "ether on raw",
            Refusal::FarJump => "far jump",
            Refusal::ShortBuffer => "short buffer",
            Refusal::LongFrame => "long frame",
            Refusal::OddProgram => "odd program",
            Refusal::NoCapture => "no capture",
            Refusal::OtherLink => "other link",
            Refusal::CutFrame => "cut frame",
            Refusal::CookedAddress => "cooked address",
            Refusal::UnknownWord => "unknown word",
            Refusal::Unfinished => "unfinished",
            Refusal::TooLarge => "too large",
            Refusal::CountMoved => "count moved",
        }
    }
}

/// The refusal of a number, as one that another program has printed.
///
/// ```
/// use dabberpearl::{Error, Refusal};
///
/// assert_eq!(Refusal::try_from(8), Ok(Refusal::FarJump));
/// assert_eq!(Refusal::try_from(99), Err(Error::UnknownRefusal(99)));
/// ```
impl TryFrom<u32> for Refusal {
    type Error = Error;

    fn try_from(number: u32) -> Result<Refusal, Error> {
        let mut known = Refusal::ALL.iter().copied();
        known
            .find(|refusal| refusal.number() == number)
            .ok_or(Error::UnknownRefusal(number))
    }
}

/// Its number and word.
///
/// ```
/// assert_eq!(dabberpearl::Refusal::FarJump.to_string(), "refused 8, far jump");
/// ```
impl fmt::Display for Refusal {
    fn fmt(&self, f: &mut fmt::Formatter<'_>) -> fmt::Result {
        write!(f, "refused {}, {}", self.number(), self.word())
    }
}

impl core::error::Error for Refusal {}

/// Why there is no answer.
///
/// All but [`Refused`](Error::Refused) speak of a libpft.a that is of another version than this
/// crate.
#[derive(Clone, Copy, Debug, PartialEq, Eq, Hash)]
#[non_exhaustive]
pub enum Error {
    /// The call is refused.
    Refused(Refusal),
    /// The call is refused with a number that this crate has no word for.
    UnknownRefusal(u32),
    /// The answer is no number that this crate can take apart.
    UnknownAnswer(u32),
    /// libpft.a has this version, which is lower than [`VERSION`](crate::VERSION).
    OldArchive(u32),
}

impl Error {
    /// The number of a refusal, be its word known or not; none for the other errors.
    ///
    /// ```
    /// use dabberpearl::{Error, Refusal};
    ///
    /// assert_eq!(Error::Refused(Refusal::FarJump).number(), Some(8));
    /// assert_eq!(Error::UnknownRefusal(99).number(), Some(99));
    /// assert_eq!(Error::OldArchive(0).number(), None);
    /// ```
    pub const fn number(self) -> Option<u32> {
        match self {
            Error::Refused(refusal) => Some(refusal.number()),
            Error::UnknownRefusal(number) => Some(number),
            _ => None,
        }
    }
}

impl From<Refusal> for Error {
    fn from(refusal: Refusal) -> Error {
        Error::Refused(refusal)
    }
}

/// One line in words.
///
/// ```
/// use dabberpearl::{Error, Refusal};
///
/// assert_eq!(Error::from(Refusal::FarJump).to_string(), "refused 8, far jump");
/// assert_eq!(Error::UnknownRefusal(99).to_string(), "refused 99, unknown refusal");
/// ```
impl fmt::Display for Error {
    fn fmt(&self, f: &mut fmt::Formatter<'_>) -> fmt::Result {
        match self {
            Error::Refused(refusal) => refusal.fmt(f),
            Error::UnknownRefusal(number) => write!(f, "refused {number}, unknown refusal"),
            Error::UnknownAnswer(answer) => write!(f, "libpft.a gives an unknown answer, {answer}"),
            Error::OldArchive(version) => write!(
                f,
                "libpft.a has version {version}, at least {} is needed",
                crate::VERSION
            ),
        }
    }
}

impl core::error::Error for Error {}

/// How a run ends.
#[derive(Clone, Copy, Debug, PartialEq, Eq, Hash)]
pub enum Verdict {
    /// The program returned another number than 0.
    Accepted = 1,
    /// The program returned 0.
    Dropped = 2,
    /// A packet load left the frame.
    Short = 3,
    /// An unknown code, size 0x18 in a packet load, a scratch index over 15, a divisor 0, or a
    /// counter past the program. Built programs never end so.
    Broken = 4,
}

impl Verdict {
    /// All verdicts, by number from 1 on.
    const ALL: [Verdict; 4] = [
        Verdict::Accepted,
        Verdict::Dropped,
        Verdict::Short,
        Verdict::Broken,
    ];

    fn of(number: u32) -> Option<Verdict> {
        let mut known = Verdict::ALL.into_iter();
        known.find(|verdict| *verdict as u32 == number)
    }
}

/// Its word, as `accepted`.
impl fmt::Display for Verdict {
    fn fmt(&self, f: &mut fmt::Formatter<'_>) -> fmt::Result {
        f.write_str(match self {
            Verdict::Accepted => "accepted",
            Verdict::Dropped => "dropped",
            Verdict::Short => "short",
            Verdict::Broken => "broken",
        })
    }
}

/// What a run answers.
#[derive(Clone, Copy, Debug, PartialEq, Eq, Hash)]
pub struct Outcome {
    /// How it ended.
    pub verdict: Verdict,
    /// The instructions fetched.
    pub steps: u32,
}

/// What a count answers: how many frames of a capture are accepted, and what stopped it, if
/// something did.
///
/// A bad frame does not undo the count of the frames before it, so the two stand side by side.
/// [`into_result`](Counted::into_result) is for who wants whole captures alone.
#[derive(Clone, Copy, Debug, PartialEq, Eq, Hash)]
#[must_use = "a count may have been stopped by an error"]
pub struct Counted {
    /// The accepted frames: with [`CutFrame`](Refusal::CutFrame) those before the bad one, with
    /// another error 0.
    pub accepted: u64,
    /// What stopped the count; none where the capture was read to its end.
    pub error: Option<Error>,
}

impl Counted {
    /// The accepted frames of a capture that was read to its end.
    ///
    /// # Errors
    ///
    /// What stopped the count.
    ///
    /// ```
    /// use dabberpearl::{Counted, Refusal};
    ///
    /// let whole = Counted { accepted: 7, error: None };
    /// assert_eq!(whole.into_result(), Ok(7));
    /// let cut = Counted { accepted: 7, error: Some(Refusal::CutFrame.into()) };
    /// assert_eq!(cut.into_result(), Err(Refusal::CutFrame.into()));
    /// ```
    pub const fn into_result(self) -> Result<u64, Error> {
        match self.error {
            None => Ok(self.accepted),
            Some(error) => Err(error),
        }
    }
}

/// No frame was read.
impl From<Error> for Counted {
    fn from(error: Error) -> Counted {
        Counted {
            accepted: 0,
            error: Some(error),
        }
    }
}

/// The error of a number that is a refusal's.
fn refused(number: u32) -> Error {
    Refusal::try_from(number).map_or_else(|unknown| unknown, Error::Refused)
}

/// Refusal × 65,536 + count.
pub(crate) fn built(answer: u32) -> Result<usize, Error> {
    match answer >> 16 {
        0 => Ok(answer as usize),
        refusal => Err(refused(refusal)),
    }
}

/// The same, of a question.
pub(crate) fn asked(answer: u32) -> Result<Size, Error> {
    built(answer).map(|_| Size { count: answer })
}

/// Verdict × 65,536 + steps, or (256 + refusal) × 65,536.
pub(crate) fn ran(answer: u32) -> Result<Outcome, Error> {
    match answer >> 16 {
        high @ 0..=256 => {
            let verdict = Verdict::of(high).ok_or(Error::UnknownAnswer(answer))?;
            let steps = answer & 0xffff;
            Ok(Outcome { verdict, steps })
        }
        high => Err(refused(high - 256)),
    }
}

/// 1 or 0, or 256 + refusal.
pub(crate) fn read(answer: u32) -> Result<bool, Error> {
    match answer {
        0 => Ok(false),
        1 => Ok(true),
        2..=256 => Err(Error::UnknownAnswer(answer)),
        _ => Err(refused(answer - 256)),
    }
}

/// Refusal × 2^32 + accepted frames.
pub(crate) fn counted(answer: u64) -> Counted {
    let refusal = (answer >> 32) as u32;
    Counted {
        accepted: answer & 0xffff_ffff,
        error: (refusal != 0).then(|| refused(refusal)),
    }
}

/// The captured length, or refusal × 2^32.
pub(crate) fn framed(answer: u64) -> Result<usize, Error> {
    match (answer >> 32) as u32 {
        0 => Ok(answer as usize),
        refusal => Err(refused(refusal)),
    }
}

/// The file's length, or refusal × 2^32 + place: the error and its place.
pub(crate) fn typed(answer: u64) -> Result<usize, (Error, usize)> {
    let low = (answer & 0xffff_ffff) as usize;
    match (answer >> 32) as u32 {
        0 if (MIN_TREE..=MAX_TREE).contains(&low) => Ok(low),
        0 => Err((Error::UnknownAnswer(low as u32), 0)),
        refusal => Err((refused(refusal), low)),
    }
}

/// Whether an archive of a version has all that this crate calls: versions only add.
pub(crate) fn serves(version: u32) -> Result<(), Error> {
    if version < crate::VERSION {
        return Err(Error::OldArchive(version));
    }
    Ok(())
}

#[cfg(test)]
mod tests {
    use super::*;

    /// Numbers from the first that has no word, up to the largest that fits.
    fn unknown(most: u32) -> impl Iterator<Item = u32> {
        let first = Refusal::ALL.len() as u32 + 1;
        (first..first + 300).chain([most])
    }

    #[test]
    fn numbers_of_builds() {
        assert_eq!(built(2), Ok(2));
        assert_eq!(built(3_946), Ok(3_946));
        for &refusal in Refusal::ALL {
            assert_eq!(built(refusal.number() << 16), Err(refusal.into()));
        }
        for number in unknown(0xffff) {
            assert_eq!(built(number << 16), Err(Error::UnknownRefusal(number)));
        }
    }

    #[test]
    fn numbers_of_questions() {
        for count in [2, 3_946, 0xffff] {
            assert_eq!(asked(count), Ok(Size { count }));
        }
        for &refusal in Refusal::ALL {
            assert_eq!(asked(refusal.number() << 16), Err(refusal.into()));
        }
        for number in unknown(0xffff) {
            assert_eq!(asked(number << 16), Err(Error::UnknownRefusal(number)));
        }
    }

    #[test]
    fn numbers_of_runs() {
        for (verdict, number) in Verdict::ALL.into_iter().zip(1..) {
            for steps in [0, 1, 4_096] {
                assert_eq!(ran((number << 16) + steps), Ok(Outcome { verdict, steps }));
            }
        }
        for number in [0, 5, 6, 255, 256] {
            let answer = (number << 16) + 7;
            assert_eq!(ran(answer), Err(Error::UnknownAnswer(answer)));
        }
        for &refusal in Refusal::ALL {
            assert_eq!(ran((256 + refusal.number()) << 16), Err(refusal.into()));
        }
        for number in unknown(0xffff - 256) {
            assert_eq!(
                ran((256 + number) << 16),
                Err(Error::UnknownRefusal(number))
            );
        }
    }

    #[test]
    fn numbers_of_readings() {
        assert_eq!((read(0), read(1)), (Ok(false), Ok(true)));
        for answer in 2..=256 {
            assert_eq!(read(answer), Err(Error::UnknownAnswer(answer)));
        }
        for &refusal in Refusal::ALL {
            assert_eq!(read(256 + refusal.number()), Err(refusal.into()));
        }
        for number in unknown(u32::MAX - 256) {
            assert_eq!(read(256 + number), Err(Error::UnknownRefusal(number)));
        }
    }

    #[test]
    fn numbers_of_counts() {
        for accepted in [0, 1, 0xffff_ffff] {
            let counted_of = |number| counted((u64::from(number) << 32) + accepted);
            let stopped_by = |error| Counted { accepted, error };
            assert_eq!(counted_of(0), stopped_by(None));
            for &refusal in Refusal::ALL {
                assert_eq!(
                    counted_of(refusal.number()),
                    stopped_by(Some(refusal.into()))
                );
            }
            for number in unknown(u32::MAX) {
                let error = Error::UnknownRefusal(number);
                assert_eq!(counted_of(number), stopped_by(Some(error)));
            }
        }
    }

    #[test]
    fn numbers_of_frames() {
        for length in [0, 1, 65_535] {
            assert_eq!(framed(length as u64), Ok(length));
        }
        for &refusal in Refusal::ALL {
            assert_eq!(
                framed(u64::from(refusal.number()) << 32),
                Err(refusal.into())
            );
        }
        for number in unknown(u32::MAX) {
            let error = Error::UnknownRefusal(number);
            assert_eq!(framed(u64::from(number) << 32), Err(error));
        }
    }

    #[test]
    fn numbers_of_typed_lines() {
        for length in [MIN_TREE, 56, MAX_TREE] {
            assert_eq!(typed(length as u64), Ok(length));
        }
        for length in [0, 1, MIN_TREE - 1, MAX_TREE + 1, 0xffff_ffff] {
            let error = Error::UnknownAnswer(length as u32);
            assert_eq!(typed(length as u64), Err((error, 0)));
        }
        for place in [0, 1, 0xffff_ffff] {
            let typed_of = |number| typed((u64::from(number) << 32) + place as u64);
            for &refusal in Refusal::ALL {
                assert_eq!(typed_of(refusal.number()), Err((refusal.into(), place)));
            }
            for number in unknown(u32::MAX) {
                let error = Error::UnknownRefusal(number);
                assert_eq!(typed_of(number), Err((error, place)));
            }
        }
    }

    #[test]
    fn versions() {
        assert_eq!(
            serves(crate::VERSION - 1),
            Err(Error::OldArchive(crate::VERSION - 1))
        );
        assert_eq!(serves(crate::VERSION), Ok(()));
        assert_eq!(serves(crate::VERSION + 1), Ok(()));
    }
}
