//! Which cases of kind and hint are stored.

use common::requirement::AVC;
use oracle::types::FrameType;

use super::list::random;
use super::{Case, Operation, misnamed};
use crate::classify::frames::FLAGS;
use crate::classify::{Classify, Frame};
use crate::run::Comparison;

/// Some of the flags.
const FEW_FLAGS: [u32; 2] = [0, 256];

/// Audio that the flag decides about: one of each rule.
const BY_FLAG: &[&[u8]] = &[
    // Legacy: another codec, a reserved sound format; AAC alone, refused, and without a start.
    b"\x2F\xAA",
    b"\xC0\x00\x12\x10",
    b"\xA0",
    b"\xAF\x00\x12",
    b"\xAF\x01\x12\x10",
    // Under 5 bytes. The second starred frame; a refused AAC record; coded frames; ModEx.
    b"\x94\xAA\xBB\xCC",
    b"\x90fLaC",
    b"\x90mp4a\x12",
    b"\x91Opus\xAA",
    b"\x97Opus",
    // Legacy `85` is no container. Accepted ones, with a refused record too; refused ones.
    b"\x85\x00Opus\x00",
    b"\x95\x11Opus\x01\x00\x00\x01\xAA",
    b"\x95\x00mp4a\x00\x00",
    b"\x95.mp3",
    b"\x95\x14Opus\x07\x00\x00\x01",
];

/// More of it.
const BY_FLAG_TOO: &[&[u8]] = &[
    b"\xE0",
    b"\xD1Opus",
    b"\xFFmp4a\x12\x10",
    // AAC: empty records, refused ones, the end of the sequence.
    b"\xA0\x00",
    b"\xA0\x00\x00",
    b"\xAF\x00\x16\x80",
    b"\xAF\x02\x12\x10",
    // Nibble 9 under 5 bytes.
    b"\x90",
    b"\x90Opu",
    b"\x93",
    // Refused starts.
    b"\x90mp4a",
    b"\x90avc1\x01",
    b"\x90opus",
    // Other packet types; unpeeled ModEx.
    b"\x92Opus",
    b"\x96Opus\xAA",
    b"\x97\x00\xAA\x00Opus",
    b"\x97\x00\xAA\x05\x05Opus\x07\xBB",
    b"\x97\x00\xAA\x05\x06Opus\x07\xBB",
    b"\x97\x02\x00\xAA\x07\x07",
    b"\x97\x02\x00\xAA\x07\xF8",
    b"\x85\x03Opus\x00",
    // Accepted containers.
    b"\x95\x01Opus\x07",
    b"\x95\x06Opus\x07",
    b"\x95\x07\x00\x00\x00\x00\x00\x55",
    b"\x95\x00fLaC\x00",
    // Records of which only the first, or only the last, is valid.
    b"\x95\x10mp4a\x00\x00\x00\x02\x12\x10\x01\x00\x00\x01\x12",
    b"\x95\x10mp4a\x00\x00\x00\x01\x12\x01\x00\x00\x02\x12\x10",
    b"\x95\x20Opus\x00\x00\x00\x00fLaC\x01\x00\x00\x00",
    b"\x95\x20fLaC\x00\x00\x00\x00Opus\x01\x00\x00\x00",
    // Refused containers: short, of form 3, cut behind a valid record, naming packet type 3, naming
    // itself.
    b"\x95",
    b"\x95\x03",
    b"\x95\x30Opus\x00",
    b"\x95\x10mp4a\x07\x00\x00\x02\x12\x10\x08\x00\x00\x01",
    b"\x95\x13Opus\x07\x00\x00\x01",
    b"\x95\x05Opus\x07",
    b"\x95\x15Opus\x07\x00\x00\x01\xAA",
    b"\x95\x05",
];

/// Audio that is Critical.
const CRITICAL: &[&[u8]] = &[
    b"",
    // Starts: the first starred frame, then each other rule.
    b"\x90Opus",
    b"\x90Opus\xAA",
    b"\x90fLaC\x00",
    b"\x90mp4a\x12\x10",
    b"\xAF\x00\x12\x10",
    b"\xA0\x00\x12\x10",
    // Packet types 3 and 4, alone and in containers.
    b"\x93\x00\x00\x00\x00",
    b"\x94Opus\xAA",
    b"\x95\x03Opus\x00",
    b"\x95\x14Opus\x00\x00\x00\x00\x01\x00\x00\x01\xAA",
    b"\x95\x23Opus\x00\x00\x00\x00fLaC\x01\x00\x00\x00",
    // Containers of valid records.
    b"\x95\x00Opus\x00",
    b"\x95\x10mp4a\x00\x00\x00\x02\x12\x10\x01\x00\x00\x02\x12\x10",
    b"\x95\x20Opus\x00\x00\x00\x00mp4a\x01\x00\x00\x02\x12\x10",
];

/// Video of each way to a hint. No flag changes it.
const ANY_FLAG: &[&[u8]] = &[
    b"",
    b"\x17\x01",
    b"\x22",
    b"\x90av01\x00",
    b"\x93avc1",
    b"\x84\x00\x00\x00\x00",
    b"\xD0\x00",
    b"\xD7\x00\xAA\x00",
    b"\x96\x01avc1\x00",
    b"\x96\x04avc1\x00",
];

/// More video, without AVC records.
const VIDEO: &[&[u8]] = &[
    // Legacy: each other codec is a keyframe by its frame type alone.
    b"\x10",
    b"\x12\x00",
    b"\x1C\x00",
    b"\x32\x01",
    b"\x42\x01",
    b"\x02",
    // Legacy AVC: alone, a start without a record, a keyframe, the end of the sequence, others.
    b"\x17",
    b"\x17\x00",
    b"\x17\x00\x00\x00\x00",
    b"\x17\x01\x00\x00\x00",
    b"\x17\x02",
    b"\x17\x02\x00\x00\x00",
    b"\x17\x03",
    b"\x17\xFF",
    b"\x07\x00",
    b"\x07\x01",
    b"\x27",
    b"\x27\x01\x00\x00\x00\xAA",
    b"\x27\x02",
    // Commands, legacy and enhanced, cut off too; metadata; an unpeeled ModEx is none.
    b"\x50",
    b"\x57\x00",
    b"\x57\x01",
    b"\x57\x00\x00\x00\x00\x55",
    b"\xD0",
    b"\xD1\x00",
    b"\xD3avc1",
    b"\xD4",
    b"\xD4avc1\x55",
    b"\xD6",
    b"\xD6\x00",
    b"\xD6\x00fLaC\x00\xAA",
    b"\xD7",
    b"\xD7\x00",
    b"\xD7\x00\xAA\x04avc1",
    b"\xDFavc1",
    // Refused headers.
    b"\x80",
    b"\x80hvc",
    b"\x84",
    b"\x84avc",
    b"\x91",
    b"\x93avc",
    b"\x91avc1",
    b"\x91avc1\x00",
    b"\x91avc1\x00\x00",
    b"\x91hvc1\x00\x00",
    b"\x91vvc1\x00\x00",
    b"\xA1avc1\x00\x00",
    // Keyframes, and the same of other frame types.
    b"\x91avc1\x00\x00\x00",
    b"\x91hvc1\x00\x00\x00\xAA",
    b"\x91vvc1\x00\x00\x00",
    b"\x91av01",
    b"\x91\x00\x00\x00\x00",
    b"\x93vp09\xAA",
    b"\x81av01",
    b"\xA1avc1\x00\x00\x00",
    b"\xB3hvc1",
    b"\xC3avc1\xAA",
    // Packet types 3 and 4, and others.
    b"\x83\x00\x00\x00\x00",
    b"\x94avc1\xAA",
    b"\xA4\x00\x00\x00\x00",
    b"\x92avc1",
    b"\x95avc1\x00",
    b"\x98avc1",
    b"\x9Favc1\xAA",
    b"\x97Opus",
    b"\x97\x00\xAA\x01",
    b"\x97\x00\xAA\x05\x06avc1\x07\xBB",
    b"\x97\x00\xAA\x06\x06avc1\x07\xBB",
    b"\x97\x02\x00\xAA\x07\x07",
    // Starts: no exception of audio holds.
    b"\x80Opus",
    b"\x90Opus",
    b"\x80Opus\x00",
    b"\x80mp4a",
    b"\x80mp4a\x00",
    b"\x90av01",
    b"\x90avc1",
    b"\x90avc1\x01",
    b"\x90hvc1\x01",
    // Accepted containers: starts, keyframes and the same of another frame type, others.
    b"\x86\x00\x00\x00\x00\x00\x00",
    b"\x86\x00\x00\x00\x00\x00\x00\xAA",
    b"\x96\x00Opus\x00",
    b"\x96\x00mp4a\x00\x00",
    b"\xF6\x10av01\x00\x00\x00\x01\xAA\x01\x00\x00\x01\xBB",
    b"\x96\x11avc1\x00\x00\x00\x00",
    b"\x96\x03avc1\x00\xAA",
    b"\x96\x23avc1\x00\x00\x00\x00hvc1\x01\x00\x00\x00",
    b"\x86\x01avc1\x00",
    b"\xA6\x01avc1\x00",
    b"\xA6\x03avc1\x00",
    b"\xA6\x14avc1\x00\x00\x00\x00",
    b"\x96\x02avc1\x00",
    b"\x96\x05avc1\x00",
    b"\x96\x07avc1\x00",
    // Records of which only the first, or only the last, is valid.
    b"\x96\x10av01\x00\x00\x00\x01\xAA\x01\x00\x00\x00",
    b"\x96\x10av01\x00\x00\x00\x00\x01\x00\x00\x01\xAA",
    b"\x96\x20av01\x00\x00\x00\x01\xAAOpus\x01\x00\x00\x00",
    b"\x96\x20Opus\x00\x00\x00\x00av01\x01\x00\x00\x01\xAA",
    b"\x96\x10av01\x00\x00\x00\x01\xAA\x01\x00\x00\x00\x02\x00\x00\x01\xAA",
    // Refused containers: byte 0 alone, naming each packet type that an accepted one goes by, cut
    // behind a valid record, of form 3, naming itself.
    b"\x86",
    b"\x86\x04",
    b"\x96\x04avc1",
    b"\x96\x00av01",
    b"\x96\x01avc1",
    b"\x96\x03avc1",
    b"\x96\x11avc1\x00\x00\x00\x01",
    b"\x96\x10av01\x00\x00\x00\x01\xAA\x01\x00\x00\x01",
    b"\x96\x30av01\x00\xAA",
    b"\x86\x06\x00\x00\x00\x00\x00",
    b"\x96\x06avc1\x00",
    b"\xA6\x26av01\x00\x00\x00\x01\xAAOpus\x01\x00\x00\x00",
    b"\x96\x06",
];

/// Fronts of video that an AVC record stands behind.
const BEFORE_AVC: &[&[u8]] = &[
    // Legacy: each frame type but 5 starts; byte 1 is 0.
    b"\x07\x00\x00\x00\x00",
    b"\x17\x00\x00\x00\x00",
    b"\x27\x00\x00\x00\x00",
    b"\x57\x00\x00\x00\x00",
    b"\x77\x00\x00\x00\x00",
    b"\x17\x00\x00\x00",
    b"\x17\x01\x00\x00\x00",
    b"\x27\x01\x00\x00\x00",
    b"\x17\x02\x00\x00\x00",
    b"\x12\x00\x00\x00\x00",
    // Enhanced: each frame type but 5 starts.
    b"\x80avc1",
    b"\x90avc1",
    b"\xF0avc1",
    b"\xD0avc1",
    b"\x92avc1",
    b"\x90hvc1",
    b"\x97avc1",
    // In containers; with a refused record before it.
    b"\x96\x00avc1\x00",
    b"\x86\x10avc1\x00\x00\x00\x0D",
    b"\x96\x20avc1\x00\x00\x00\x0D",
    b"\x96\x10avc1\x00\x00\x00\x0E",
    b"\x96\x10avc1\x00\x00\x00\x01\x01\x01\x00\x00\x0D",
    b"\x96\x20Opus\x00\x00\x00\x00avc1\x01\x00\x00\x0D",
    b"\xD6\x00avc1\x00",
];

/// Taken for Script and Metadata. The second one peels to the third.
const OTHERS: &[&[u8]] = &[
    b"",
    b"\x87\x00\x00\x00",
    b"\x80",
    b"\x17\x01",
    b"\xAF\x00\x12\x10",
    b"\x95\x01Opus\x07",
];

/// Each listed one with its flags; those by which the readings of request N7 are told apart; and
/// one of each class.
pub fn frames() -> Vec<Case> {
    let mut cases = with_flags(FrameType::Audio, BY_FLAG, &FLAGS);
    cases.extend(with_flags(FrameType::Audio, BY_FLAG_TOO, &FEW_FLAGS));
    cases.extend(with_flags(FrameType::Audio, CRITICAL, &FEW_FLAGS));
    cases.extend(with_flags(FrameType::Video, ANY_FLAG, &FLAGS));
    cases.extend(with_flags(FrameType::Video, VIDEO, &[0]));
    cases.extend(before_avc());
    for frame_type in [FrameType::Script, FrameType::Metadata] {
        cases.extend(with_flags(frame_type, OTHERS, &FEW_FLAGS));
    }
    for (frame_type, payload) in misnamed::frames() {
        cases.extend(with_flags(frame_type, &[&payload], &FEW_FLAGS));
    }
    cases.extend(of_each_class());
    cases
}

fn case(frame_type: FrameType, flag: u32, payload: &[u8]) -> Case {
    Case {
        frame_type,
        number: flag,
        ..Case::new(Operation::Classify, payload.to_vec())
    }
}

fn with_flags(frame_type: FrameType, payloads: &[&[u8]], flags: &[u32]) -> Vec<Case> {
    let mut cases = vec![];
    for payload in payloads {
        cases.extend(flags.iter().map(|flag| case(frame_type, *flag, payload)));
    }
    cases
}

/// The fronts with a valid record, without its last byte, and with its lists exchanged.
fn before_avc() -> impl Iterator<Item = Case> {
    BEFORE_AVC.iter().flat_map(|front| {
        [AVC, &AVC[..AVC.len() - 1], misnamed::EXCHANGED]
            .map(|record| case(FrameType::Video, 1, &[front, record].concat()))
    })
}

/// Of each class the first random one that is short, if any is.
fn of_each_class() -> impl Iterator<Item = Case> {
    Classify::CLASSES.iter().filter_map(|class| {
        let fits = |frame: &Frame| frame.candidate.payload.len() < 60 && frame.class() == *class;
        let Frame { candidate, flag } = random(Classify::random).take(50_000).find(fits)?;
        Some(case(candidate.known_type()?, flag, &candidate.payload))
    })
}
