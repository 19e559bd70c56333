//! Which cases of the tag headers are stored.

use common::layers;

use super::list::random;
use super::{Case, Operation};
use crate::fourcc::FOURCCS;
use crate::headers::{self, UNKNOWN};

/// Composition times: at both ends, and around 0.
const TIMES: [[u8; 3]; 5] = [
    [0x7F, 0xFF, 0xFF],
    [0x80, 0x00, 0x00],
    [0xFF, 0xFF, 0xFF],
    [0x00, 0x00, 0x00],
    [0x00, 0x00, 0x01],
];

/// Video headers to cut off at every byte: a refused one is filled as far as it was read.
const CUT_VIDEO: &[&[u8]] = &[
    b"\x17\x01\x12\x34\x56\xAA",
    b"\x91avc1\x12\x34\x56\xAA",
    b"\xD0\x00\xAA",
    b"\xD4avc1\x55",
];

/// Video whose header is easily taken for another one.
const VIDEO: &[&[u8]] = &[
    // Legacy frame type 5 is no command; legacy AVC of fewer than 5 bytes is readable.
    b"\x50",
    b"\x57\x00",
    b"\x57\x00\x00\x00\x00\x55",
    b"\x07\x00",
    b"\x17\x00",
    b"\x17\x02",
    b"\x27\x00\x00\x00\x00\x01",
    // Metadata and packet type 3, whole and cut off.
    b"\x84",
    b"\x83\x00\x00\x00\x00",
    b"\x84\x00\x00\x00\x00",
    // Containers and unpeeled ModEx: the plain header of their first bytes.
    b"\x86\x04",
    b"\x86\x00\x00\x00\x00\x00\x00",
    b"\xD6\x00avc1\x00",
    b"\x97\x00\xAA\x01",
    b"\xD7\x00\xAA\x00",
    b"\xD7\x02\x00\xAA\x07\x07",
    // FourCCs of audio.
    b"\x80Opus",
    b"\x80mp4a\x00",
    // A time that is cut off.
    b"\x91hvc1\x80\x00",
    b"\x91vvc1\x80\x00",
];

/// Audio headers to cut off at every byte.
const CUT_AUDIO: &[&[u8]] = &[b"\x91Opus\xAA\xBB", b"\xAF\x01\xAA", b"\x2F\xAA"];

/// Audio whose header is easily taken for another one.
const AUDIO: &[&[u8]] = &[
    b"\xA0",
    b"\xA0\x00\x00",
    b"\xAF\x00\x12\x10",
    b"\xAF\xFF",
    b"\x93",
    b"\x94\xAA\xBB\xCC",
    b"\xE0",
    b"\xC0\x00\x00\x00\x00",
    b"\xD1Opus",
    b"\xFFmp4a",
    // Containers and unpeeled ModEx: the plain header of their first bytes, `.mp3` by accident.
    b"\x95\x00Opus\x00",
    b"\x95\x00mp4a\x00\x00",
    b"\x95\x01Opus\x07",
    b"\x95\x07\x00\x00\x00\x00\x00\x55",
    b"\x95.mp3",
    b"\x97Opus",
    b"\x97\x00\xAA\x01",
    b"\x97\x02\x00\xAA\x07\x07",
    // A FourCC behind a legacy byte.
    b"\x80Opus",
    b"\xA1mp4a",
];

/// Times; packet types, with and without frame type 5; each frame type, and codecs; FourCCs.
pub fn videos() -> Vec<Case> {
    let time = [0x92, 0x34, 0x56];
    let mut payloads = listed(CUT_VIDEO, VIDEO);
    for front in [&b"\x17\x01"[..], b"\x91avc1", b"\xA1hvc1", b"\xB1vvc1"] {
        payloads.extend(TIMES.map(|time| [front, &time].concat()));
    }
    for packet_type in (0..=9).chain([15]) {
        payloads.push([&[0x90 | packet_type], &b"avc1"[..], &time].concat());
        payloads.push(vec![0xD0 | packet_type, 0x01]);
    }
    for frame_type in 0..8 {
        payloads.push([&[frame_type << 4 | 0x07, 0x01], &time[..]].concat());
        payloads.push([&[0x81 | frame_type << 4], &b"avc1"[..], &time].concat());
    }
    for codec in [0, 2, 6, 8, 15] {
        payloads.push([&[0x10 | codec, 0x01], &time[..]].concat());
    }
    for fourcc in FOURCCS.into_iter().chain(UNKNOWN) {
        payloads.push([&[0x91], &fourcc[..], &time].concat());
    }
    cases(Operation::Exvideo, payloads)
}

/// Each sound format, of one byte and of more; each low nibble with AAC and with `Opus`; FourCCs.
pub fn audios() -> Vec<Case> {
    let mut payloads = listed(CUT_AUDIO, AUDIO);
    for nibble in 0..16 {
        payloads.push(vec![nibble << 4 | 0x0E]);
        payloads.push(vec![nibble << 4 | 0x01, 0x01, 0xAA]);
        payloads.push(vec![0xA0 | nibble, nibble]);
        payloads.push([&[0x90 | nibble], &b"Opus"[..]].concat());
    }
    for fourcc in FOURCCS.into_iter().chain(UNKNOWN) {
        payloads.push([&[0x91], &fourcc[..], &[0xAA]].concat());
    }
    cases(Operation::Exaudio, payloads)
}

/// The empty payload, the first ones cut off, and the others whole.
fn listed(cut: &[&[u8]], whole: &[&[u8]]) -> Vec<Vec<u8>> {
    let cut = cut
        .iter()
        .flat_map(|payload| layers::truncations(payload.to_vec()).skip(1));
    let whole = whole.iter().map(|payload| payload.to_vec());
    [vec![]].into_iter().chain(cut).chain(whole).collect()
}

/// Of the payloads, and of random ones.
fn cases(operation: Operation, payloads: Vec<Vec<u8>>) -> Vec<Case> {
    let small = |payload: &Vec<u8>| payload.len() < 20;
    let random = random(headers::random).filter(small).take(20);
    let case = |payload| Case::new(operation, payload);
    payloads.into_iter().chain(random).map(case).collect()
}
