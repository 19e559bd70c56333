use core::fmt;

/// By how many nanoseconds a frame is presented later than its timestamp says, or earlier if the
/// number is negative.
///
/// In a [`Report`] it is the sum of
///
/// - the milliseconds of the video header, which may be negative; 0 in any other frame, and if the
///   header has none or cannot be read;
/// - the offset of the last ModEx layer of the type [`TIMESTAMP_OFFSET_NANO`] that was peeled off,
///   0 to 999,999 nanoseconds, whatever the frame type; 0 if there is none.
///
/// [`milliseconds`] and [`offset`] give both back.
///
/// ```
/// use hozgrim::{CAPS_EX_MODEX, FrameType, Refusal, pass};
///
/// // Video: -1 millisecond in the header, 1 nanosecond in the layer.
/// let payload = b"\x97\x02\x00\x00\x01\x01avc1\xFF\xFF\xFF";
/// let mut output = [0; 13];
/// let report = pass(FrameType::Video, payload, CAPS_EX_MODEX, true, &mut output)?;
/// let time = report.composition_time;
/// assert_eq!(time.nanoseconds(), -999_999);
/// assert_eq!((time.milliseconds(), time.offset()), (-1, 1));
/// assert_eq!(time.to_string(), "-1 ms + 1 ns");
///
/// // Sound has an offset only.
/// let payload = b"\x97\x02\x00\x00\x2A\x01Opus\xBB";
/// let report = pass(FrameType::Audio, payload, CAPS_EX_MODEX, true, &mut output)?;
/// assert_eq!(report.composition_time.nanoseconds(), 42);
/// # Ok::<(), Refusal>(())
/// ```
///
/// [`Report`]: crate::Report
/// [`TIMESTAMP_OFFSET_NANO`]: crate::ModexType::TIMESTAMP_OFFSET_NANO
/// [`milliseconds`]: Self::milliseconds
/// [`offset`]: Self::offset
#[derive(Clone, Copy, Debug, PartialEq, Eq, PartialOrd, Ord, Hash)]
pub struct CompositionTime(i64);

impl CompositionTime {
    /// The one of so many nanoseconds. Every number is taken.
    #[must_use]
    pub const fn new(nanoseconds: i64) -> Self {
        Self(nanoseconds)
    }

    /// All of it in nanoseconds.
    #[must_use]
    pub const fn nanoseconds(self) -> i64 {
        self.0
    }

    /// The milliseconds, rounded down: -1 of -999,999 nanoseconds.
    #[must_use]
    pub fn milliseconds(self) -> i64 {
        hozgrim_sys::split_time(self.0).milliseconds
    }

    /// The nanoseconds beyond the milliseconds, 0 to 999,999: 1 of -999,999 nanoseconds.
    #[must_use]
    pub fn offset(self) -> u32 {
        hozgrim_sys::split_time(self.0).offset
    }
}

impl From<i64> for CompositionTime {
    fn from(nanoseconds: i64) -> Self {
        Self::new(nanoseconds)
    }
}

impl From<CompositionTime> for i64 {
    fn from(time: CompositionTime) -> Self {
        time.nanoseconds()
    }
}

/// Milliseconds and offset, as a sum.
impl fmt::Display for CompositionTime {
    fn fmt(&self, f: &mut fmt::Formatter<'_>) -> fmt::Result {
        write!(f, "{} ms + {} ns", self.milliseconds(), self.offset())
    }
}
