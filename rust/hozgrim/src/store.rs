use alloc::boxed::Box;
use alloc::vec;
use core::error::Error;
use core::fmt;
use core::iter::FusedIterator;

use hozgrim_sys::{HozgrimLate, HozgrimLengths, StoreCall};

use crate::excluded::{case, excluded};
use crate::{CacheKind, FrameType, Refusal, Report};

/// The store of one route, for late viewers: the last video sequence header, the last audio
/// sequence header and the last keyframe, each in a slot of its own.
///
/// Every frame of the route goes through [`offer`](Self::offer), which is [`pass`](crate::pass) and
/// then keeps the result by its [`CacheKind`]. [`late`](Self::late) gives what a viewer is sent who
/// joins now, before the frames that follow.
///
/// - Frames are kept without their ModEx layers, as the pass gives them.
/// - A new video sequence header, the same as before or not, empties the slot of the keyframe,
///   which was coded for the header before.
/// - A frame that is longer than its slot is not kept, and empties the slot: what was there is out
///   of date. The frame itself is accepted, and is to be relayed like any other; [`Passed::kept`]
///   says that it is too long. A video sequence header that is too long empties the keyframe's slot
///   too.
/// - A frame of kind [`CacheKind::LiveOnly`], and one that the pass refuses, changes nothing.
/// - An audio sequence header changes its own slot alone.
/// - A keyframe is kept without a video sequence header too: some legacy codecs have none.
///
/// No timestamp is kept: the relay gives these frames one of its own, such as that of the frame
/// which the viewer is sent next. Nor is a frame type: audio sequence headers are
/// [`FrameType::Audio`], and the other two [`FrameType::Video`].
///
/// ```
/// use hozgrim::{CAPS_EX_MODEX, CacheKind, FrameType, Passed, Refusal, Store};
///
/// let header = b"\x90vp09\x00";
/// let sound = b"\xAF\x00\x12\x10";
/// let keyframe = b"\x97\x02\x00\x00\x2A\x01vp09\xAA"; // behind one layer
/// let room = [
///     (FrameType::Video, &header[..]),
///     (FrameType::Audio, sound),
///     (FrameType::Video, keyframe),
/// ];
///
/// let mut store = Store::default();
/// for (frame_type, payload) in room {
///     let mut output = vec![0; payload.len()];
///     let Passed { report, kept } =
///         store.offer(frame_type, payload, CAPS_EX_MODEX, true, &mut output)?;
///     assert_eq!(kept, Ok(()));
///     let _result = report.result(&output); // goes to every viewer
/// }
///
/// // A viewer joins late.
/// let sent: Vec<_> = store.late().collect();
/// assert_eq!(sent, [
///     (CacheKind::VideoSequenceHeader, &header[..]),
///     (CacheKind::AudioSequenceHeader, sound),
///     (CacheKind::VideoKeyframe, b"\x91vp09\xAA"),
/// ]);
///
/// // The encoder starts again, and has sent no keyframe yet.
/// let _ = store.offer(FrameType::Video, header, CAPS_EX_MODEX, true, &mut [0; 6])?;
/// assert!(store.late().map(|(kind, _)| kind).eq([
///     CacheKind::VideoSequenceHeader,
///     CacheKind::AudioSequenceHeader,
/// ]));
/// # Ok::<(), Refusal>(())
/// ```
#[derive(Clone)]
pub struct Store {
    lengths: HozgrimLengths,
    video: Box<[u8]>,
    audio: Box<[u8]>,
    keyframe: Box<[u8]>,
}

/// How long the slots of a [`Store`] are, in bytes. They hold frames without their ModEx layers. A
/// frame that is as long as its slot fits, and a slot of length 0 keeps nothing.
///
/// The default is 8 KiB for each sequence header and 1 MiB for the keyframe, for a room with video
/// of some megabits a second: a header of AVC or HEVC mostly has 30 to 300 bytes, in a container
/// for each track, and a keyframe in 1080p up to a few hundred kilobytes. A slot that is too long
/// costs little, since it is asked for as zeros, which most systems give only where something is
/// written. One that is too short costs late viewers the frame.
///
/// ```
/// use hozgrim::{SlotSizes, Store};
///
/// // A relay whose viewers wait for the next keyframe.
/// let store = Store::new(SlotSizes {
///     keyframe: 0,
///     ..SlotSizes::default()
/// });
/// assert!(store.is_empty());
/// ```
#[derive(Clone, Copy, Debug, PartialEq, Eq, Hash)]
pub struct SlotSizes {
    /// Of the slot of [`CacheKind::VideoSequenceHeader`].
    pub video: usize,
    /// Of the slot of [`CacheKind::AudioSequenceHeader`].
    pub audio: usize,
    /// Of the slot of [`CacheKind::VideoKeyframe`].
    pub keyframe: usize,
}

impl Default for SlotSizes {
    fn default() -> Self {
        Self {
            video: 8 << 10,
            audio: 8 << 10,
            keyframe: 1 << 20,
        }
    }
}

/// What [`Store::offer`] answers of a frame that is accepted.
#[derive(Clone, Copy, Debug, PartialEq, Eq, Hash)]
#[must_use = "the report says what is to be relayed, and `kept` whether late viewers will have it"]
pub struct Passed {
    /// The report of [`pass`](crate::pass), also beside a frame that is too long for its slot.
    pub report: Report,
    /// Whether there was room. A frame of kind [`CacheKind::LiveOnly`], which no slot is for, needs
    /// none.
    ///
    /// An error is for whoever chose the [`SlotSizes`], and no reason not to relay the frame.
    pub kept: Result<(), SlotTooShort>,
}

/// A frame is longer than its slot. The slot is now empty, and if the frame is a video sequence
/// header, so is that of the keyframe.
///
/// It is no [`Refusal`]: the frame is accepted, and is to be relayed.
#[derive(Clone, Copy, Debug, PartialEq, Eq, Hash)]
pub struct SlotTooShort {
    /// The kind of the frame, which is that of the slot.
    pub kind: CacheKind,
    /// The length of the frame without its ModEx layers.
    pub frame_len: usize,
    /// The length of the slot.
    pub slot_len: usize,
}

impl SlotTooShort {
    const NUMBER: i32 = -31;

    /// The number that `include/hozgrim.h` gives it.
    #[must_use]
    pub const fn number(self) -> i32 {
        Self::NUMBER
    }
}

impl fmt::Display for SlotTooShort {
    fn fmt(&self, f: &mut fmt::Formatter<'_>) -> fmt::Result {
        let Self {
            kind,
            frame_len,
            slot_len,
        } = self;
        write!(
            f,
            "the {kind} has {frame_len} bytes, and its slot {slot_len}"
        )
    }
}

impl Error for SlotTooShort {}

impl Store {
    /// An empty store with slots of these lengths.
    ///
    /// # Panics
    ///
    /// If there is not so much memory, as any allocation does.
    #[must_use]
    pub fn new(sizes: SlotSizes) -> Self {
        let buffer = |size| vec![0; size].into_boxed_slice();
        Self {
            lengths: HozgrimLengths::default(),
            video: buffer(sizes.video),
            audio: buffer(sizes.audio),
            keyframe: buffer(sizes.keyframe),
        }
    }

    /// Peels the ModEx layers off a payload, writes the result to the front of `output`, reports on
    /// the result as [`pass`](crate::pass) does, and keeps it if its [`CacheKind`] has a slot.
    ///
    /// A frame whose layers stay, since the mask lacks [`CAPS_EX_MODEX`](crate::CAPS_EX_MODEX), is
    /// not kept. Whether the route has video has no say in what is kept: it changes the delivery
    /// hint alone.
    ///
    /// # Errors
    ///
    /// [`Refusal::OutputTooShort`] and [`Refusal::Protocol`], where [`pass`](crate::pass) has them.
    /// `output` then keeps all its bytes, and the store all its frames.
    ///
    /// A frame that is longer than its slot is no refusal, and its result is in `output`: see
    /// [`Passed::kept`].
    ///
    /// ```
    /// use hozgrim::{CAPS_EX_MODEX, FrameType, Passed, Refusal, SlotSizes, Store};
    ///
    /// let mut store = Store::new(SlotSizes {
    ///     keyframe: 1,
    ///     ..SlotSizes::default()
    /// });
    /// let mut output = [0; 2];
    /// let Passed { kept, .. } =
    ///     store.offer(FrameType::Video, b"\x12", CAPS_EX_MODEX, true, &mut output)?;
    /// assert_eq!(kept, Ok(()));
    ///
    /// // It goes to the viewers who are there; who joins now waits for the next keyframe.
    /// let Passed { report, kept } =
    ///     store.offer(FrameType::Video, b"\x12\xAA", CAPS_EX_MODEX, true, &mut output)?;
    /// assert_eq!(report.result(&output), b"\x12\xAA");
    /// let error = kept.unwrap_err();
    /// assert_eq!(error.to_string(), "the video keyframe has 2 bytes, and its slot 1");
    /// assert!(store.is_empty());
    /// # Ok::<(), Refusal>(())
    /// ```
    pub fn offer(
        &mut self,
        frame_type: FrameType,
        payload: &[u8],
        caps_ex_mask: u32,
        route_has_video: bool,
        output: &mut [u8],
    ) -> Result<Passed, Refusal> {
        let call = StoreCall {
            frame_type: frame_type.into(),
            payload,
            caps_ex_mask,
            route_has_video: route_has_video.into(),
        };
        let buffers = [&mut *self.video, &mut self.audio, &mut self.keyframe];
        let stored = hozgrim_sys::store_frame(&mut self.lengths, &call, output, buffers);
        Refusal::check(stored.report.error, 0)?;
        let report = Report::of(frame_type, &stored.report);
        let kept = self.kept(stored.error, &report);
        Ok(Passed { report, kept })
    }

    /// What the store's error says about a frame that is accepted.
    fn kept(&self, error: i32, report: &Report) -> Result<(), SlotTooShort> {
        match error {
            0 => Ok(()),
            SlotTooShort::NUMBER => Err(SlotTooShort {
                kind: report.kind,
                frame_len: report.result_len,
                slot_len: self.buffer(report.kind).len(),
            }),
            _ => excluded("error", error, "store_error, frame_store/specs/Store"),
        }
    }

    /// What a viewer who joins now is sent: video sequence header, audio sequence header and
    /// keyframe, in this order, whichever are held, each with its kind.
    ///
    /// The frames are parts of the store: nothing is copied, and the next [`offer`](Self::offer)
    /// waits until they were sent or copied.
    ///
    /// ```
    /// use hozgrim::{CacheKind, FrameType, Store};
    ///
    /// let mut store = Store::default();
    /// let _ = store.offer(FrameType::Video, b"\x12", 0, true, &mut [0; 1])?;
    /// let _ = store.offer(FrameType::Audio, b"\xAF\x00\x12\x10", 0, true, &mut [0; 4])?;
    ///
    /// // As RTMP messages: type id, a timestamp of the relay's, payload.
    /// let messages = store.late().map(|(kind, frame)| match kind {
    ///     CacheKind::AudioSequenceHeader => (8, 40, frame),
    ///     _ => (9, 40, frame),
    /// });
    /// assert_eq!(messages.len(), 2);
    /// assert!(messages.eq([(8, 40, &b"\xAF\x00\x12\x10"[..]), (9, 40, b"\x12")]));
    /// # Ok::<(), hozgrim::Refusal>(())
    /// ```
    #[must_use]
    pub fn late(&self) -> impl ExactSizeIterator<Item = (CacheKind, &[u8])> + FusedIterator {
        let count = self.numbered(0).count;
        (0..count).map(move |number| self.held(&self.numbered(number)))
    }

    /// Whether no frame is held, so that [`late`](Self::late) gives none.
    #[must_use]
    pub fn is_empty(&self) -> bool {
        self.late().len() == 0
    }

    /// Empties every slot, as for a route whose publisher left: the next one starts from an empty
    /// store.
    ///
    /// The bytes of the frames stay in memory until others are written over them. Where they must
    /// not, a new store is made.
    pub fn clear(&mut self) {
        self.lengths = HozgrimLengths::default();
    }

    fn numbered(&self, number: usize) -> HozgrimLate {
        let buffers = [&*self.video, &self.audio, &self.keyframe];
        hozgrim_sys::late(self.lengths, buffers, number)
    }

    /// The frame of an answer, which is the front of its buffer: `late_frames`,
    /// frame_store/specs/Late.
    fn held(&self, answer: &HozgrimLate) -> (CacheKind, &[u8]) {
        let kind = case(answer.kind, "late_frames, frame_store/specs/Late");
        (kind, &self.buffer(kind)[..answer.length])
    }

    /// The buffer of a kind that is kept.
    fn buffer(&self, kind: CacheKind) -> &[u8] {
        match kind {
            CacheKind::VideoSequenceHeader => &self.video,
            CacheKind::AudioSequenceHeader => &self.audio,
            CacheKind::VideoKeyframe => &self.keyframe,
            CacheKind::LiveOnly => excluded(
                "a frame of kind",
                kind,
                "is_too_long and late_frames, frame_store/specs",
            ),
        }
    }
}

/// With slots of [`SlotSizes::default`].
impl Default for Store {
    fn default() -> Self {
        Self::new(SlotSizes::default())
    }
}

/// The lengths of the frames that are held, by their kinds. Frames are long, and no log has any
/// business with their bytes.
impl fmt::Debug for Store {
    fn fmt(&self, f: &mut fmt::Formatter<'_>) -> fmt::Result {
        f.write_str("Store ")?;
        let held = self.late().map(|(kind, frame)| (kind, frame.len()));
        f.debug_map().entries(held).finish()
    }
}

#[cfg(test)]
mod tests {
    use super::*;

    use hozgrim_sys::HozgrimReport;

    fn kept(error: i32) {
        let report = Report::of(FrameType::Video, &HozgrimReport::default());
        let _ = Store::default().kept(error, &report);
    }

    #[test]
    #[should_panic(expected = "error -22 is excluded")]
    fn no_refusal_stands_beside_an_accepted_frame() {
        kept(-22);
    }

    #[test]
    #[should_panic(expected = "a frame of kind live only is excluded")]
    fn no_frame_without_a_slot_is_too_long() {
        kept(SlotTooShort::NUMBER);
    }

    #[test]
    #[should_panic(expected = "cache kind 4 is excluded")]
    fn no_other_kind_is_held() {
        let answer = HozgrimLate {
            kind: 4,
            ..HozgrimLate::default()
        };
        Store::default().held(&answer);
    }
}
