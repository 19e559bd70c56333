//! The rule of a sequence start. It is private in the Rust files; here it is put together from their
//! public validators.

use crate::ertmp::multitrack_media::foreach_track;
use crate::media::codec_config::{ConfigCodec, validate_aac_config, validate_config_record};
use crate::types::FrameType;

/// Whether a sequence start with this FourCC has a valid record.
#[inline]
pub fn record_valid(frame_type: FrameType, fourcc: &[u8; 4], record: &[u8]) -> bool {
    match (frame_type, fourcc) {
        (FrameType::Audio, b"mp4a") => validate_aac_config(record),
        (FrameType::Audio, b"Opus") if record.is_empty() => true,
        _ => validate_config_record(ConfigCodec::from_fourcc(fourcc), record),
    }
}

/// Whether this holds of every record of a frame that the Rust takes for a sequence header. With a
/// record comes the FourCC whose rule judges it.
pub fn every_record(
    frame_type: FrameType,
    payload: &[u8],
    holds: impl Fn(&[u8; 4], &[u8]) -> bool,
) -> bool {
    let mut every = true;
    let container = foreach_track(frame_type, payload, |track| {
        every &= holds(&track.fourcc, track.payload);
    });
    if container {
        return every;
    }
    let enhanced = match frame_type {
        FrameType::Audio => payload[0] >> 4 == 9,
        _ => payload[0] & 0x80 != 0,
    };
    match (enhanced, frame_type) {
        (true, _) => {
            let (fourcc, record) = payload[1..].split_first_chunk().expect("it has a FourCC");
            holds(fourcc, record)
        }
        (false, FrameType::Audio) => holds(b"mp4a", &payload[2..]),
        (false, _) => holds(b"avc1", &payload[5..]),
    }
}
