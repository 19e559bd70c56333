use hozgrim_sys::HozgrimTrack;

use crate::excluded::{case, excluded};
use crate::number::{UnknownNumber, numbered};
use crate::{FourCc, FrameType, PacketType, Refusal, VideoFrameType};

/// A track of a container.
#[derive(Clone, Copy, Debug, PartialEq, Eq, Hash)]
pub struct Track<'a> {
    /// The id. Several tracks may have the same.
    pub id: u8,
    /// The packet type, which all tracks of a container share.
    pub packet_type: PacketType,
    /// The FourCC.
    pub fourcc: FourCc,
    /// The frame type of a video container; none in audio.
    pub video_frame_type: Option<VideoFrameType>,
    /// The verdict on the track's configuration record, which it has if its packet type is
    /// [a sequence start](PacketType::is_sequence_start).
    pub verdict: Option<Verdict>,
    /// Where the body starts in the payload of the container.
    pub start: usize,
    /// The body, a part of the payload of the container. It may be empty.
    pub payload: &'a [u8],
}

impl<'a> Track<'a> {
    #[inline]
    pub(crate) fn of(frame_type: FrameType, payload: &'a [u8], track: &HozgrimTrack) -> Self {
        let (packet_type, video_frame_type) = match frame_type {
            FrameType::Audio => (PacketType::Audio(track.packet_type.into()), None),
            FrameType::Video => (
                PacketType::Video(track.packet_type.into()),
                Some(track.video_frame_type.into()),
            ),
            FrameType::Script | FrameType::Metadata => excluded(
                "a track of frame type",
                frame_type,
                "opens_container, multitrack_media/specs/Container",
            ),
        };
        Self {
            id: track.track_id,
            packet_type,
            fourcc: FourCc::from_number(track.fourcc),
            video_frame_type,
            verdict: Verdict::of(track.verdict),
            start: track.start,
            // Start and length lie within the payload: contract `inside` of `track_info`
            // (multitrack_media/src/lib.rt) and of `column_info` (track_columns/src/lib.rt), whose
            // start and length these are.
            payload: &payload[track.start..][..track.length],
        }
    }
}

/// What was found of a configuration record.
///
/// Where there is no record, the library has the number 0, which is no verdict.
///
/// In AVC and HEVC a record holds parameter sets, and each must name the type of the list that it is
/// in. In AVC the low five bits of a set's first byte are 7 for sequence parameter sets, 8 for
/// picture parameter sets, and 13 for those of the extension. In HEVC bits 1 to 6 of it are the type
/// of the array. A frame with a record of which this is not true is no sequence header, so that it
/// does not reach those who join late.
///
/// ```
/// use hozgrim::{CacheKind, DeliveryHint, FrameType, Verdict, classify, track};
///
/// // A video container with one AVC record: a sequence parameter set and a picture parameter set.
/// let right = b"\x96\x00avc1\x00\x01\x42\x00\x1E\xFF\xE1\x00\x01\x67\x01\x00\x01\x68";
/// assert_eq!(track(FrameType::Video, right, 0)?.verdict, Some(Verdict::Valid));
/// let class = classify(FrameType::Video, right, true);
/// assert_eq!(class.kind, CacheKind::VideoSequenceHeader);
/// assert_eq!(class.hint, DeliveryHint::Critical);
///
/// // Each in the other's list.
/// let exchanged = b"\x96\x00avc1\x00\x01\x42\x00\x1E\xFF\xE1\x00\x01\x68\x01\x00\x01\x67";
/// assert_eq!(track(FrameType::Video, exchanged, 0)?.verdict, Some(Verdict::Refused));
/// let class = classify(FrameType::Video, exchanged, true);
/// assert_eq!(class.kind, CacheKind::LiveOnly);
/// assert_eq!(class.hint, DeliveryHint::Droppable);
/// # Ok::<(), hozgrim::Refusal>(())
/// ```
#[derive(Clone, Copy, Debug, PartialEq, Eq, Hash)]
#[repr(u8)]
pub enum Verdict {
    /// It has the form that its codec asks for, and every set names the type of its list.
    Valid = 1,
    /// It has not.
    Refused = 2,
}

numbered!(Verdict, UnknownNumber: |number| UnknownNumber::of("verdict", number), {
    Valid: "valid",
    Refused: "refused",
});

impl Verdict {
    /// Of the number that an entry gives.
    #[inline]
    fn of(number: u8) -> Option<Self> {
        (number != 0).then(|| case(number.into(), "verdict_number, frame/specs/Pass"))
    }
}

/// The track of this number, from 0 on, of a payload as it is.
///
/// For the tracks that [`pass`](crate::pass) counts, lend the result.
///
/// Each call goes over the heads of all tracks: who wants many of them takes [`tracks`], or walks
/// the payload into [`ColumnsMut`](crate::ColumnsMut).
///
/// # Errors
///
/// [`Refusal::NotAContainer`] if the payload is anything but an accepted container, as [`tracks`]
/// has it, whatever the number; [`Refusal::NoSuchTrack`] if it has fewer tracks.
///
/// [`tracks`]: crate::tracks
///
/// ```
/// use hozgrim::{FrameType, Refusal, track};
///
/// let payload = b"\x95\x11Opus\x01\x00\x00\x01\xAA";
/// assert_eq!(track(FrameType::Audio, payload, 0)?.payload, b"\xAA");
///
/// let none = track(FrameType::Audio, payload, 1);
/// assert_eq!(none, Err(Refusal::NoSuchTrack { count: 1 }));
/// # Ok::<(), Refusal>(())
/// ```
pub fn track(frame_type: FrameType, payload: &[u8], number: usize) -> Result<Track<'_>, Refusal> {
    let track = hozgrim_sys::track(frame_type.into(), payload, number);
    Refusal::check(track.error, track.count)?;
    Ok(Track::of(frame_type, payload, &track))
}

#[cfg(test)]
mod tests {
    use super::*;

    #[test]
    #[should_panic(expected = "verdict 3 is excluded")]
    fn no_other_verdict_becomes_one() {
        Verdict::of(3);
    }

    #[test]
    #[should_panic(expected = "a track of frame type script is excluded")]
    fn no_script_has_a_track() {
        Track::of(FrameType::Script, &[], &HozgrimTrack::default());
    }
}
