use hozgrim_sys::HozgrimLevel;

use crate::FrameType;
use crate::excluded::excluded;

/// How loud a frame in G.711 is: the largest magnitude among its samples.
///
/// A frame has samples if it is audio of FLV in [`AudioCodec::G711A`] or [`AudioCodec::G711U`]:
/// each byte of its payload behind the first is one, in stereo too. A frame without samples has
/// level 0, and so has any other frame. The payload is taken as it is; before ModEx layers are
/// peeled off and after it the level is the same.
///
/// Each law has the scale that ITU-T G.711 gives it. A-law goes up to 4,032 and mu-law to 8,031,
/// which [`AudioCodec::full_scale`] gives, so levels of the two cannot be compared as they stand.
/// What the standard says of full scale in dBm0 is left to the caller. A-law has no zero: with any
/// sample the level is 1 or more, in silence too.
///
/// Sound is sealed, and a level depends on it by design. It is no part of what
/// [`pass`](crate::pass) reports.
///
/// [`AudioCodec::G711A`]: crate::AudioCodec::G711A
/// [`AudioCodec::G711U`]: crate::AudioCodec::G711U
/// [`AudioCodec::full_scale`]: crate::AudioCodec::full_scale
///
/// ```
/// use hozgrim::{FrameType, level};
///
/// // A-law: silence, and then samples of 43, -504 and 280.
/// assert_eq!(level(FrameType::Audio, b"\x72\xD5\x55\xD5"), 1);
/// assert_eq!(level(FrameType::Audio, b"\x72\xC0\x1A\x94"), 504);
/// // mu-law, and AAC.
/// assert_eq!(level(FrameType::Audio, b"\x82\xFF\x7F\xFF"), 0);
/// assert_eq!(level(FrameType::Audio, b"\xAF\x01\x21\x10\x04"), 0);
/// ```
#[must_use]
pub fn level(frame_type: FrameType, payload: &[u8]) -> u32 {
    of(hozgrim_sys::level(frame_type.into(), payload))
}

/// Of what the entry gives. The error is 0 for each frame type that is known.
fn of(answer: HozgrimLevel) -> u32 {
    if answer.error != 0 {
        excluded("error", answer.error, "level_answer, g711/specs/Level");
    }
    answer.level
}

#[cfg(test)]
mod tests {
    use super::*;

    #[test]
    #[should_panic(expected = "error -21 is excluded")]
    fn no_error_becomes_a_level() {
        of(HozgrimLevel {
            error: -21,
            level: 0,
        });
    }
}
