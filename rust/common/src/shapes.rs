//! Frames of each kind, hint and type, with and without tracks, layers and header errors.

use crate::damage::random_damage;
use crate::layers::{random_offset, wrap};
use crate::requirement::AVC;
use crate::rng::Rng;

/// The four frames of docs/REQUIREMENTS.md, section 17, and some of each shape: type and payload.
const SHAPES: &[(u8, &[u8])] = &[
    (0, b""),
    (1, b"\x17\x01\x00\x00\x00"),
    (0, b"\xAF\x00\x12\x10"),
    (0, b"\x95\x11Opus\x01\x00\x00\x01\xAA"),
    // A ModEx layer before nothing, and before a start; three layers before a keyframe. Then frame
    // type 5: a layer before a command, and a cut one, which makes no command.
    (0, b"\x97\x02\x0F\x42\x3F\x01"),
    (0, b"\x97\x00\xAA\x10Opus"),
    (
        1,
        b"\x97\x00\xAA\x17\x02\x00\x00\x01\x07\x00\xBB\x21avc1\x80\x00\x00",
    ),
    (1, b"\xD7\x00\xAA\x10"),
    (1, b"\xD7\x05\xAA"),
    // Script, also behind a layer, and Metadata that would be a container in audio.
    (2, b"\x02\x00\x0AonMetaData"),
    (2, b"\x87\x02\x00\x00\x00\x00"),
    (3, b"\x95\x01Opus\x07"),
    // A refused sound format; a refused AAC record; no start; legacy `85`; audio metadata.
    (0, b"\xC0\x00"),
    (0, b"\xAF\x00"),
    (0, b"\xAF\x01\x21"),
    (0, b"\x85\x00Opus\x00"),
    (0, b"\x93Opus"),
    // Containers: three tracks; two valid records, and one of two; metadata in audio and in video;
    // a keyframe; a refused one, and one that names itself; and the command that is none.
    (
        0,
        b"\x95\x11Opus\x01\x00\x00\x01\xAA\x02\x00\x00\x02\xBB\xCC\x02\x00\x00\x00",
    ),
    (
        0,
        b"\x95\x10mp4a\x00\x00\x00\x02\x12\x10\x01\x00\x00\x02\x12\x10",
    ),
    (0, b"\x95\x20mp4a\x00\x00\x00\x01\x12Opus\x01\x00\x00\x00"),
    (0, b"\x95\x03Opus\x00"),
    (1, b"\xA6\x14avc1\x00\x00\x00\x00"),
    (1, b"\x96\x03hvc1\x00\xAA"),
    (1, b"\x96\x11avc1\x00\x00\x00\x02\xAA"),
    (1, b"\x96\x16avc1\x00\x00\x00\x01\xAA\x01\x00\x00\x00"),
    (1, b"\xD6\x00avc1\x00"),
    // Video: empty; no keyframe; the end of the sequence.
    (1, b""),
    (1, b"\x27\x01\x00\x00\x00\xAA"),
    (1, b"\x17\x02\x00\x00\x00"),
];

/// Fronts of video that an AVC record stands behind.
const BEFORE_AVC: [&[u8]; 2] = [
    b"\x17\x00\x00\x00\x00",
    b"\x96\x20av01\x00\x00\x00\x01\xAAavc1\x01\x00\x00\x0D",
];

/// Each with its frame type.
pub fn listed() -> impl Iterator<Item = (u8, Vec<u8>)> {
    let shapes = SHAPES.iter();
    let shapes = shapes.map(|(frame_type, payload)| (*frame_type, payload.to_vec()));
    let before_avc = BEFORE_AVC.map(|front| (1, [front, AVC].concat()));
    shapes.chain(before_avc)
}

/// Puts one in four behind layers, damages every other one, and gives one in eight another type.
pub fn vary(rng: &mut Rng, frame_type: &mut u8, payload: &mut Vec<u8>) {
    if rng.one_in(4) {
        let count = 1 + rng.below(3) as u8;
        let offset = random_offset(rng);
        *payload = wrap(payload, count, offset);
    }
    if !payload.is_empty() {
        random_damage(rng, payload);
    }
    if rng.one_in(8) {
        *frame_type = rng.below(4) as u8;
    }
}
