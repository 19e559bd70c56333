use core::iter::FusedIterator;

use hozgrim_sys::HozgrimFlvFrame;

use crate::excluded::excluded;
use crate::{FrameType, Refusal};

/// How many bytes an FLV file has before its first tag: header and back-pointer.
const START_LEN: usize = 13;

/// How many bytes a tag has beside its body: head and back-pointer.
const BESIDE_BODY: usize = 15;

/// A frame of an FLV file.
///
/// [`FlvReader`] gives those of a file, and [`write_flv_frame`](crate::write_flv_frame) appends one
/// to a file.
#[derive(Clone, Copy, Debug, PartialEq, Eq, Hash)]
pub struct FlvFrame<'a> {
    /// The frame type: that of tags of type 8, 9 or 18. FLV has no tag for
    /// [`FrameType::Metadata`]: it is never read, and not written.
    pub frame_type: FrameType,
    /// The time in milliseconds.
    pub timestamp: u32,
    /// The payload, which is the body of the tag. It may be empty.
    pub payload: &'a [u8],
}

impl<'a> FlvFrame<'a> {
    /// None at the end of the file.
    fn of(file: &'a [u8], answer: &HozgrimFlvFrame) -> Option<Self> {
        match answer.found {
            0 => None,
            1 => Some(Self {
                frame_type: known(answer.frame_type),
                timestamp: answer.timestamp,
                // Start and length lie within the file: `Progress`, flv/specs/Claims.
                payload: &file[answer.start..][..answer.length],
            }),
            other => excluded("found", other, "flv_next, flv/specs/Calls"),
        }
    }

    /// How long the frame is in a file, as a tag with its back-pointer: 15 bytes more than the
    /// payload.
    #[must_use]
    pub const fn tag_len(&self) -> usize {
        self.payload.len() + BESIDE_BODY
    }

    /// Writes the frame as a tag with its back-pointer to the front of `output`, and says how long
    /// that is. `output` keeps its bytes behind it.
    ///
    /// The payload is copied once, and nothing is allocated. The stream id is 0.
    ///
    /// # Errors
    ///
    /// `output` then keeps all its bytes. In this order:
    ///
    /// - [`Refusal::UnknownFrameType`] if the frame type is [`FrameType::Metadata`];
    /// - [`Refusal::BadLength`] if the payload has over 16,777,215 bytes;
    /// - [`Refusal::OutputTooShort`] if `output` is shorter than [`tag_len`](Self::tag_len).
    ///
    /// ```
    /// use hozgrim::{FlvFrame, FrameType, Refusal};
    ///
    /// let frame = FlvFrame {
    ///     frame_type: FrameType::Audio,
    ///     timestamp: 0x0102_0304,
    ///     payload: b"\xAF\x01",
    /// };
    /// let mut output = [0; 32];
    /// let length = frame.write_tag(&mut output)?;
    /// assert_eq!(length, frame.tag_len());
    /// // Type, length, time with its highest byte last, stream id; payload; back-pointer.
    /// let head = b"\x08\x00\x00\x02\x02\x03\x04\x01\x00\x00\x00";
    /// assert_eq!(output[..11], *head);
    /// assert_eq!(output[11..length], *b"\xAF\x01\x00\x00\x00\x0D");
    /// # Ok::<(), Refusal>(())
    /// ```
    pub fn write_tag(&self, output: &mut [u8]) -> Result<usize, Refusal> {
        let written = hozgrim_sys::flv_write_frame(
            self.frame_type.into(),
            self.timestamp,
            self.payload,
            output,
        );
        Refusal::check(written.error, 0)?;
        Ok(written.length)
    }
}

/// The frame type of a tag.
fn known(number: u32) -> FrameType {
    match FrameType::try_from(number) {
        Ok(known) if known != FrameType::Metadata => known,
        _ => excluded(
            "a tag of frame type",
            number,
            "frame_type_byte, flv/specs/Files",
        ),
    }
}

/// What an FLV file begins with: its header, which says that there is sound and picture, and the
/// first back-pointer.
///
/// ```
/// assert_eq!(hozgrim::flv_start(), *b"FLV\x01\x05\x00\x00\x00\x09\x00\x00\x00\x00");
/// ```
#[must_use]
pub fn flv_start() -> [u8; START_LEN] {
    let mut start = [0; START_LEN];
    // The error is 0, since there is room: `start_answer`, flv/specs/Calls.
    let written = hozgrim_sys::flv_write_start(&mut start);
    if written.length != START_LEN {
        excluded("length", written.length, "start_answer, flv/specs/Calls");
    }
    start
}

/// An iterator over the frames of an FLV file of version 1 that is in memory.
///
/// The payloads are parts of the file. A tag of another type than 8, 9 and 18, such as an encrypted
/// one, is stepped over, whatever its length. The flags of the header, the stream ids and the bytes
/// of the payloads are not looked at.
///
/// If the file stops short, as where a line failed, or if it is damaged, the iterator gives the
/// frames before that, then the [`Refusal`], and then nothing more:
///
/// - [`Refusal::Truncated`] if the file ends inside a tag or its back-pointer;
/// - [`Refusal::WrongBackPointer`] if the back-pointer of a tag, also of one that is stepped over,
///   is not the length of the tag. A frame is given only if its own back-pointer is right.
///
/// ```
/// use hozgrim::{FlvFrame, FlvReader, FrameType, Refusal};
///
/// let file = b"FLV\x01\x05\x00\x00\x00\x09\x00\x00\x00\x00\
///     \x08\x00\x00\x02\x00\x00\x28\x00\x00\x00\x00\xAF\x01\x00\x00\x00\x0D\
///     \x09\x00\x00\x01\x00\x00\x2A\x00\x00\x00\x00\x17\x00\x00\x00\x0C";
/// let mut frames = FlvReader::new(file)?;
/// let sound = FlvFrame {
///     frame_type: FrameType::Audio,
///     timestamp: 40,
///     payload: b"\xAF\x01",
/// };
/// assert_eq!(frames.next(), Some(Ok(sound)));
/// let picture = FlvFrame {
///     frame_type: FrameType::Video,
///     timestamp: 42,
///     payload: b"\x17",
/// };
/// assert_eq!(frames.next(), Some(Ok(picture)));
/// assert_eq!(frames.next(), None);
///
/// // The line failed inside the second frame.
/// let cut = FlvReader::new(&file[..file.len() - 1])?;
/// assert!(cut.eq([Ok(sound), Err(Refusal::Truncated)]));
///
/// // All frames, or the refusal.
/// let frames: Vec<FlvFrame> = FlvReader::new(file)?.collect::<Result<_, _>>()?;
/// assert_eq!(frames, [sound, picture]);
/// # Ok::<(), Refusal>(())
/// ```
#[derive(Clone, Debug)]
#[must_use = "iterators are lazy and do nothing unless consumed"]
pub struct FlvReader<'a> {
    file: &'a [u8],
    place: usize,
    refused: bool,
}

impl<'a> FlvReader<'a> {
    /// A reader of this file from its first tag on. Its header and first back-pointer are judged
    /// here.
    ///
    /// # Errors
    ///
    /// In this order:
    ///
    /// - [`Refusal::Truncated`] if the file ends inside the header, as an empty one does;
    /// - [`Refusal::NotFlv`] if the signature is not `FLV`, the version not 1, or the data offset
    ///   not 9;
    /// - [`Refusal::Truncated`] if the file ends inside the first back-pointer;
    /// - [`Refusal::WrongBackPointer`] if that is not 0.
    ///
    /// ```
    /// use hozgrim::{FlvReader, Refusal};
    ///
    /// assert_eq!(FlvReader::new(b"FLV").err(), Some(Refusal::Truncated));
    /// assert_eq!(FlvReader::new(b"<!DOCTYPE html>").err(), Some(Refusal::NotFlv));
    /// assert_eq!(FlvReader::new(&hozgrim::flv_start())?.next(), None);
    /// # Ok::<(), Refusal>(())
    /// ```
    pub fn new(file: &'a [u8]) -> Result<Self, Refusal> {
        let start = hozgrim_sys::flv_start(file);
        Refusal::check(start.error, 0)?;
        Ok(Self::resume(file, start.next))
    }

    /// A reader that goes on at the [`place`](Self::place) of an earlier one, in the same file or
    /// in one that has grown since.
    ///
    /// Nothing is judged here, and any place is taken: what stands there is read as a tag, and
    /// behind the end of the file there is [`Refusal::Truncated`].
    ///
    /// ```
    /// use hozgrim::{FlvReader, Refusal};
    ///
    /// let file = b"FLV\x01\x05\x00\x00\x00\x09\x00\x00\x00\x00\
    ///     \x08\x00\x00\x01\x00\x00\x00\x00\x00\x00\x00\xAA\x00\x00\x00\x0C\
    ///     \x08\x00\x00\x01\x00\x00\x17\x00\x00\x00\x00\xBB\x00\x00\x00\x0C";
    /// // The recording is still being written.
    /// let mut reader = FlvReader::new(&file[..40])?;
    /// assert_eq!(reader.next().unwrap()?.payload, b"\xAA");
    /// assert_eq!(reader.next(), Some(Err(Refusal::Truncated)));
    ///
    /// let mut reader = FlvReader::resume(file, reader.place());
    /// assert_eq!(reader.next().unwrap()?.payload, b"\xBB");
    /// assert_eq!(reader.next(), None);
    /// # Ok::<(), Refusal>(())
    /// ```
    pub const fn resume(file: &'a [u8], place: usize) -> Self {
        Self {
            file,
            place,
            refused: false,
        }
    }

    /// Where the next step begins to read: behind the frame that was given last, or where the
    /// first tag begins. At the end of the file it is the length of the file; a refusal leaves it.
    #[must_use]
    pub const fn place(&self) -> usize {
        self.place
    }
}

impl<'a> Iterator for FlvReader<'a> {
    type Item = Result<FlvFrame<'a>, Refusal>;

    fn next(&mut self) -> Option<Self::Item> {
        if self.refused {
            return None;
        }
        let answer = hozgrim_sys::flv_next(self.file, self.place);
        if let Err(refusal) = Refusal::check(answer.error, 0) {
            self.refused = true;
            return Some(Err(refusal));
        }
        // From the end of the file on, every answer is the end again.
        self.place = answer.next;
        FlvFrame::of(self.file, &answer).map(Ok)
    }

    /// Each item but a last refusal takes a whole tag, and a refusal needs something to refuse.
    fn size_hint(&self) -> (usize, Option<usize>) {
        let most = match self.file.len().checked_sub(self.place) {
            _ if self.refused => 0,
            Some(left) => left.div_ceil(BESIDE_BODY),
            None => 1,
        };
        (0, Some(most))
    }
}

impl FusedIterator for FlvReader<'_> {}

#[cfg(test)]
mod tests {
    use super::*;

    #[test]
    #[should_panic(expected = "found 2 is excluded")]
    fn nothing_else_is_found() {
        let answer = HozgrimFlvFrame {
            found: 2,
            ..HozgrimFlvFrame::default()
        };
        FlvFrame::of(&[], &answer);
    }

    #[test]
    #[should_panic(expected = "a tag of frame type 3 is excluded")]
    fn no_tag_is_metadata() {
        known(3);
    }

    #[test]
    #[should_panic(expected = "a tag of frame type 4 is excluded")]
    fn no_other_frame_type_becomes_one() {
        known(4);
    }
}
