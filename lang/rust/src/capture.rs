//! The frames of a capture.

use core::fmt;
use core::iter::FusedIterator;

use crate::{answers, ffi, Error, Refusal, CAPTURE_HEADER, FRAME_HEADER};

/// The frames of a capture in order, each a piece of the capture itself; see [`frames`].
///
/// A bad frame is an error after the frames before it, and the last item: as with the readers of
/// `std`, a loop cannot take a cut capture for a whole one unless it says so, as
/// [`flatten`](Iterator::flatten) does, which gives the good frames alone.
///
/// [`frames`]: crate::frames()
#[derive(Clone)]
pub struct Frames<'a> {
    capture: &'a [u8],
    at: usize,
    stopped: bool,
}

impl<'a> Frames<'a> {
    pub(crate) fn new(capture: &'a [u8]) -> Result<Frames<'a>, Error> {
        // A first frame that is cut, or that is not there, is no fault of the file header.
        match answers::framed(ffi::frame(capture, CAPTURE_HEADER)) {
            Ok(_) | Err(Error::Refused(Refusal::CutFrame)) => Ok(Frames {
                capture,
                at: CAPTURE_HEADER,
                stopped: false,
            }),
            Err(error) => Err(error),
        }
    }

    /// The byte of the capture where the header of the next frame stands; after an error that of
    /// the bad frame, in the end the capture's length.
    ///
    /// ```
    /// # use dabberpearl::{frames, Refusal};
    /// # let mut capture = [0; 24 + 16 + 4 + 15];
    /// # capture[..4].copy_from_slice(&0xa1b2c3d4_u32.to_be_bytes());
    /// # capture[24 + 11] = 4;
    /// // A frame of 4 bytes, and another whose header lacks a byte.
    /// let mut all = frames(&capture)?;
    /// assert_eq!(all.at(), 24);
    /// assert_eq!(all.next(), Some(Ok(&capture[40..44])));
    /// assert_eq!(all.next(), Some(Err(Refusal::CutFrame.into())));
    /// assert_eq!(all.at(), 44);
    /// assert_eq!(all.next(), None);
    /// # Ok::<(), dabberpearl::Error>(())
    /// ```
    pub fn at(&self) -> usize {
        self.at
    }

    /// The frame whose header stands at the place.
    fn frame(&self) -> Result<&'a [u8], Error> {
        let length = answers::framed(ffi::frame(self.capture, self.at))?;
        let rest = self.capture.get(self.at + FRAME_HEADER..);
        // The proved answer leads to no byte outside; that of a later archive may.
        rest.and_then(|rest| rest.get(..length))
            .ok_or(Error::UnknownAnswer(length as u32))
    }
}

impl<'a> Iterator for Frames<'a> {
    type Item = Result<&'a [u8], Error>;

    fn next(&mut self) -> Option<Result<&'a [u8], Error>> {
        if self.stopped || self.at == self.capture.len() {
            return None;
        }
        let frame = self.frame();
        match frame {
            Ok(bytes) => self.at += FRAME_HEADER + bytes.len(),
            Err(_) => self.stopped = true,
        }
        Some(frame)
    }

    /// A rest is a frame or an error at least, and a frame takes its header's bytes at least.
    fn size_hint(&self) -> (usize, Option<usize>) {
        if self.stopped {
            return (0, Some(0));
        }
        let rest = self.capture.len().saturating_sub(self.at);
        (rest.min(1), Some(rest.div_ceil(FRAME_HEADER)))
    }
}

impl FusedIterator for Frames<'_> {}

/// Where it is in how many bytes.
impl fmt::Debug for Frames<'_> {
    fn fmt(&self, f: &mut fmt::Formatter<'_>) -> fmt::Result {
        write!(f, "Frames(at {} of {})", self.at, self.capture.len())
    }
}
