//! Kind and hint, as the Rust gives them, but for frames that are no sequence header by request N7
//! (docs/REQUIREMENTS.md, section 23).

use common::sets::{class_of_refused_start, of_their_lists};
use oracle::media::delivery::DeliveryHint;
use oracle::media::init_cache::{CacheFrameKind, classify_cache_frame};
use oracle::starts::every_record;
use oracle::types::FrameType;

/// Whether the Rust takes a frame for a sequence header that is none: a set of a record names
/// another type than its list. If the Rust refuses another record, it is no header anyway.
pub fn is_left_out(frame_type: FrameType, result: &[u8]) -> bool {
    let starts = match classify_cache_frame(frame_type, result) {
        CacheFrameKind::VideoSequenceHeader | CacheFrameKind::AudioSequenceHeader => true,
        CacheFrameKind::VideoKeyframe | CacheFrameKind::LiveOnly => false,
    };
    starts && !every_record(frame_type, result, of_their_lists)
}

/// The numbers of the kind and the hint that there must be.
pub fn kind_and_hint(frame_type: FrameType, result: &[u8], route_has_video: bool) -> (u8, u8) {
    if is_left_out(frame_type, result) {
        return class_of_refused_start(frame_type as u32, route_has_video);
    }
    let kind = classify_cache_frame(frame_type, result);
    let hint = DeliveryHint::classify(frame_type, result, route_has_video);
    (kind as u8, hint.to_u8())
}

#[cfg(test)]
mod tests {
    use super::*;

    /// An AVC record with this first byte in each of its lists.
    fn avc(sequence: u8, picture: u8) -> Vec<u8> {
        let sets = [
            b"\xE1\x00\x01",
            &[sequence][..],
            b"\x01\x00\x01",
            &[picture],
        ];
        [b"\x01\x42\x00\x1E\xFF", &sets.concat()[..]].concat()
    }

    /// On a route without video, and with it.
    fn classes(frame_type: FrameType, payload: &[u8]) -> [(u8, u8); 2] {
        [false, true].map(|route_has_video| kind_and_hint(frame_type, payload, route_has_video))
    }

    #[test]
    fn starts_in_each_place() {
        let [right, wrong] = [avc(0x67, 0x68), avc(0x68, 0x67)];
        for (frame_type, front) in [
            (FrameType::Video, &b"\x17\x00\x00\x00\x00"[..]),
            (FrameType::Video, b"\x90avc1"),
            (FrameType::Video, b"\x96\x00avc1\x00"),
            (
                FrameType::Video,
                b"\x86\x20av01\x00\x00\x00\x01\xAAavc1\x01\x00\x00\x0D",
            ),
            (FrameType::Audio, b"\x90avc1"),
            (FrameType::Audio, b"\x95\x10avc1\x01\x00\x00\x0D"),
        ] {
            let [valid, refused] = [&right, &wrong].map(|record| [front, &record[..]].concat());
            let audio = frame_type == FrameType::Audio;
            let kind = if audio { 2 } else { 1 };
            assert_eq!(classes(frame_type, &valid), [(kind, 0); 2], "{front:02X?}");
            let alone = if audio { 1 } else { 2 };
            assert_eq!(classes(frame_type, &refused), [(0, alone), (0, 2)]);
            assert!(is_left_out(frame_type, &refused));
        }
    }

    #[test]
    fn another_record_refused() {
        let track = [
            &b"\x96\x20av01\x00\x00\x00\x00avc1\x01\x00\x00\x0D"[..],
            &avc(0x68, 0x67),
        ];
        let payload = track.concat();
        assert!(!is_left_out(FrameType::Video, &payload));
        assert_eq!(classes(FrameType::Video, &payload), [(0, 2); 2]);
    }

    #[test]
    fn no_start() {
        for front in [
            &b"\x57\x00\x00\x00\x00"[..],
            b"\x17\x01\x00\x00\x00",
            b"\x91avc1",
        ] {
            let payload = [front, &avc(0x68, 0x67)].concat();
            assert!(!is_left_out(FrameType::Video, &payload), "{front:02X?}");
        }
        assert!(!is_left_out(
            FrameType::Script,
            &[b"\x90avc1", &avc(0x68, 0x67)[..]].concat()
        ));
        assert!(!is_left_out(FrameType::Audio, b"\xAF\x00\x12\x10"));
        assert!(!is_left_out(FrameType::Audio, b"\x90Opus"));
    }
}
