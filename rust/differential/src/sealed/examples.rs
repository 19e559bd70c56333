//! Frames whose sealed bytes are known, those of docs/REQUIREMENTS.md, section 15, among them: what
//! is read from its words is held against them.

use oracle::types::CAPS_EX_MASK_MODEX;

use super::bytes::{Seals, of_payload};
use crate::containers::Candidate;
use crate::input::Input;
use crate::pass::Frame;
use crate::pass::frames::alone;

/// A frame type, a payload, and the places of its sealed bytes on a route that is capable of ModEx.
type Example = (u32, &'static [u8], &'static [usize]);

const EXAMPLES: &[Example] = &[
    // Containers: bodies, whatever the packet type is but 0; nothing in a refused one.
    (0, b"\x95\x07\0\0\0\0\0\x55", &[7]),
    (
        0,
        b"\x95\x11Opus\x01\0\0\x02\xAA\xBB\x02\0\0\x01\xCC",
        &[10, 11, 16],
    ),
    (0, b"\x95\x11Opus\x01\0\0\x02\xAA", &[]),
    (
        1,
        b"\x96\x21av01\x01\0\0\x01\xAAhvc1\x02\0\0\x01\xBB",
        &[10, 19],
    ),
    (1, b"\x96\x31av01\x01\0\0\x01\xAA", &[]),
    // One that names itself is refused, whatever it holds; one that names the other kind is not.
    (0, b"\x95\x05\0\0\0\0\0\0", &[]),
    (0, b"\x95\x06\0\0\0\0\0\x55", &[7]),
    (0, b"\x95\x15Opus\x01\0\0\x02\xAA\xBB", &[]),
    (0, b"\x95\x15Opus\x01\0\0\x02\xAA", &[]),
    (1, b"\x86\x06\0\0\0\0\0\x55", &[]),
    (1, b"\x86\x05\0\0\0\0\0\x55", &[7]),
    (1, b"\x96\x26av01\x01\0\0\x01\xAA", &[]),
    (1, b"\x96\x25av01\x01\0\0\x01\xAA", &[10]),
    (1, b"\x86\x06\0\0\0\0", &[]),
    (1, b"\x86\x06", &[]),
    (1, b"\xD6\x06\0\0\0\0\0\x55", &[]),
    // Single frames: from the header's size on, legacy AVC from byte 5.
    (0, b"\x2F\xAA\xBB", &[1, 2]),
    (0, b"\xAF\x01\xAA", &[2]),
    (0, b"\xC0\xAA", &[]),
    (0, b"\x91Opus\xAA", &[5]),
    (0, b"\x91Opu", &[]),
    (1, b"\x12\xAA\xBB", &[1, 2]),
    (1, b"\x17\x01\0\0", &[]),
    (1, b"\x17\x01\0\0\0\xAA", &[5]),
    (1, b"\x57\x00\0\0\0\x55", &[5]),
    (1, b"\x93avc1\xAA", &[5]),
    (1, b"\x91avc1\0\0\0\xAA", &[8]),
    (1, b"\x91avc1\0\0", &[]),
    (1, b"\x91av01\xAA", &[5]),
    // Commands, but with packet type 4; packet type 7 without a layer that can be read.
    (1, b"\xD0\xAA\xBB\xCC\xDD\xEE", &[]),
    (1, b"\xD4avc1\x55", &[5]),
    (1, b"\xD7\x02\0\xAA\x07\x07", &[]),
    (0, b"\x97\x02\0\xAA\x07\x07", &[]),
    // Starts: opaque, AAC, AVC without and with an extension, HEVC; refused ones.
    (1, b"\x80mp4a\0", &[5]),
    (0, b"\x90mp4a\x12\x10\xAA", &[]),
    (0, b"\xAF\x00\x12\x10\xAA", &[]),
    (0, b"\x90Opus", &[]),
    (
        1,
        b"\x17\0\0\0\0\x01BCD\xFF\xE1\0\x01g\x01\0\x01h",
        &[6, 7, 8, 9],
    ),
    (
        1,
        b"\x17\0\0\0\0\x01BCD\xFF\xE2\0\x03gGH\0\x01G\x01\0\x02hH",
        &[6, 7, 8, 9, 14, 15, 23],
    ),
    (1, b"\x17\0\0\0\0\x01BCD\xFF\xE1\0\x01g\x01\0\x01h\0", &[]),
    (
        1,
        b"\x90avc1\x01BCD\xFF\xE1\0\x01g\x01\0\x01hXYZ\x02\0\x01m\0\x02ms!!",
        &[6, 7, 8, 9, 18, 19, 20, 28, 29, 30],
    ),
    (1, b"\x90avc1\x02BCD\xFF\xE1\0\x01g\x01\0\x01h", &[]),
    (
        0,
        b"\x90hvc1\x01abcdefghijklmnopqrstu\x02\x21\0\x01\0\x02BS\xE2\0\x01\0\x01D!",
        &[
            6, 7, 8, 9, 10, 11, 12, 13, 14, 15, 16, 17, 18, 19, 20, 21, 22, 23, 24, 25, 26, 34, 41,
        ],
    ),
    // Sets of one byte are open, and so is the first byte of longer ones, whatever its free bits
    // are. A record that is refused for a type is open, its head included: of AVC, of HEVC; for
    // the first set of a list and for a later one, in each list.
    (
        1,
        b"\x17\0\0\0\0\x01\0\0\0\0\x01\0\x02\x07\0\x01\0\x01\x08",
        &[6, 7, 8, 9, 14],
    ),
    (1, b"\x27\0\0\0\0\x01\0\0\0\0\x01\0\x01\0\x01\0\x01\0", &[]),
    (1, b"\x90avc1\x01BCD\xFF\xE1\0\x01h\x01\0\x01h", &[]),
    (1, b"\x90avc1\x01BCD\xFF\xE1\0\x02hh\x01\0\x02gg", &[]),
    (0, b"\x90avc1\x01BCD\xFF\xE1\0\x01g\x02\0\x01h\0\x02gh", &[]),
    (
        1,
        b"\x90avc1\x01BCD\xFF\xE1\0\x01g\x01\0\x01hXYZ\x01\0\x02gs!!",
        &[],
    ),
    (
        0,
        b"\x90hvc1\x01abcdefghijklmnopqrstu\x02\x21\0\x01\0\x02!S\xE2\0\x01\0\x01\"!",
        &[],
    ),
    (
        1,
        b"\x90hvc1\x01abcdefghijklmnopqrstu\x03\x21\0\x01\0\x01B\x22\0\x01\0\x01D\x27\0\x01\0\x01@",
        &[],
    ),
    // Starts in a container, of which the second one is refused.
    (
        1,
        b"\x96\x20av01\x01\0\0\x01\xAAhvc1\x02\0\0\x01\xBB",
        &[10],
    ),
    // Of which the first one is refused for a type.
    (
        1,
        b"\x96\x20avc1\x01\0\0\x0D\x01BCD\xFF\xE1\0\x01h\x01\0\x01gav01\x02\0\0\x01\xBB",
        &[31],
    ),
    // Layers, and what is sealed behind them. Types 2 and 3 seal nothing, and above 3 all is.
    (0, b"\x97\x00\xAA\x11Opus\xBB", &[2, 8]),
    (
        0,
        b"\x97\x01\xAA\xBB\x17\xFF\0\0\xCC\xF0mp4a\x12\x10",
        &[2, 3, 8],
    ),
    (0, b"\x87\x00\xAA\x01", &[1, 2, 3]),
    (1, b"\xD7\x00\xAA\x10\xBB", &[2]),
    (1, b"\x87\x00\xAA\x16\x01av01\x07\xBB", &[2, 10]),
    (1, b"\x87\x00\xAA\x16\x06av01\x07\xBB", &[2]),
    (0, b"\x97\x00\xAA\x15\x05Opus\x07\xBB", &[2]),
    (0, b"\x97\x00\xAA\x15\x06Opus\x07\xBB", &[2, 10]),
    (2, b"\x87\x00\xAA\x10\xBB", &[]),
    (3, b"\x17\x01\0\0\0\xAA", &[]),
    (4, b"\x87\x00\xAA", &[0, 1, 2]),
    // Of type 0, what is behind the offset; of several layers, each by its own type.
    (0, b"\x97\x02\0\0\x01\x01Opus\xBB", &[10]),
    (0, b"\x97\x03\0\0\0\0\x00", &[5]),
    (
        0,
        b"\x97\xFF\0\x04\0\0\x01\xAA\xBB\x01Opus\xBB",
        &[7, 8, 14],
    ),
    (1, b"\x87\x02\x01\x01\x2F\x00", &[]),
    (0, b"\x97\x02\0\0\x01\x07\x02\0\0\x01\x01", &[]),
    (
        1,
        b"\x97\x02\0\0\x01\x17\x03\0\0\x01\xAA\x07\x00\xBB\x21av01\xCC",
        &[2, 3, 4, 10, 13, 19],
    ),
    // Where the offset is refused, nothing else is sealed than if it were taken.
    (1, b"\x87\x00\x00\x00", &[]),
    (1, b"\x87\x00\x00\x10", &[2]),
    (0, b"\x97\x00\x00\x07\x00\x00\x10", &[5]),
    (0, b"\x97\x00\xAA\x01Opus\xBB", &[8]),
    (0, b"\x97\x03\x0F\x42\x40\xAA\x01Opus\xBB", &[5, 11]),
    (2, b"\x87\x03\x0F\x42\x40\xAA\x00", &[]),
];

/// The examples as frames, after each was held against its places.
pub fn checked() -> impl Iterator<Item = Frame> {
    EXAMPLES.iter().map(|&(frame_type, payload, expected)| {
        let seals = of_payload(frame_type, CAPS_EX_MASK_MODEX, payload);
        assert_eq!(places(&seals), expected, "{}", payload.to_vec().show());
        let candidate = Candidate {
            frame_type,
            payload: payload.to_vec(),
        };
        alone(candidate, CAPS_EX_MASK_MODEX, 0)
    })
}

fn places(seals: &Seals) -> Vec<usize> {
    let sealed = |at: &usize| seals[*at].is_some();
    (0..seals.len()).filter(sealed).collect()
}
