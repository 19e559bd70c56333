use hozgrim_sys::HozgrimReport;

use crate::header::{self, Header, HeaderError};
use crate::{CacheKind, Class, CompositionTime, DeliveryHint, FrameType};

/// What [`pass`](crate::pass), [`pass_in_place`](crate::pass_in_place) and
/// [`Store::offer`](crate::Store::offer) report. All of it is said of the result, but for the offset
/// in the composition time, which is of the layers. The result is the payload without its ModEx
/// layers, or the payload itself if none was peeled off.
#[derive(Clone, Copy, Debug, PartialEq, Eq, Hash)]
#[non_exhaustive]
pub struct Report {
    /// The length of the result.
    pub result_len: usize,
    /// The header; none in [`FrameType::Script`] and [`FrameType::Metadata`].
    pub header: Result<Option<Header>, HeaderError>,
    /// The milliseconds of a video header and the offset of a layer, in nanoseconds.
    pub composition_time: CompositionTime,
    /// How many tracks there are; 0 if the result is not an accepted container. The
    /// [`tracks`](crate::tracks) of the result are these.
    pub tracks: usize,
    /// How many configuration records were judged: one for each track of a container that starts a
    /// sequence, and one in any other frame that does.
    pub records: usize,
    /// How many of these are [valid](crate::Verdict::Valid).
    pub valid_records: usize,
    /// What a cache does with the frame.
    pub kind: CacheKind,
    /// What may be done with the frame when a receiver is slow.
    pub hint: DeliveryHint,
}

impl Report {
    /// The result in the output that was lent to [`pass`] or [`Store::offer`]: its first
    /// [`result_len`] bytes. Of [`pass_in_place`] the result is the part of the payload at the range
    /// beside the report.
    ///
    /// # Panics
    ///
    /// If `output` is shorter than that. The output of the pass is not.
    ///
    /// [`pass`]: crate::pass
    /// [`pass_in_place`]: crate::pass_in_place
    /// [`Store::offer`]: crate::Store::offer
    /// [`result_len`]: Self::result_len
    #[must_use]
    pub fn result<'a>(&self, output: &'a [u8]) -> &'a [u8] {
        &output[..self.result_len]
    }

    /// The header as far as it was read, also of one that is cut short: then the packet type, the
    /// frame type and perhaps the FourCC of a video header, and nothing of an audio header.
    #[must_use]
    pub fn read_header(&self) -> Option<Header> {
        match self.header {
            Ok(header) => header,
            Err(HeaderError::Io { read }) => read.map(Header::Video),
            Err(HeaderError::Unsupported) => None,
        }
    }

    pub(crate) fn of(frame_type: FrameType, report: &HozgrimReport) -> Self {
        let Class { kind, hint } = Class::of(report.kind, report.hint);
        Self {
            result_len: report.result_length,
            header: header::of(frame_type, report),
            composition_time: CompositionTime::new(report.composition_time_ns),
            tracks: report.tracks,
            records: report.records,
            valid_records: report.valid_records,
            kind,
            hint,
        }
    }
}
