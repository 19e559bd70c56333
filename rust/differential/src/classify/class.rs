//! The classes of frames, as docs/REQUIREMENTS.md, sections 9 to 11 and request N7 of section 23,
//! tells them apart, with their kinds and hints.

use oracle::media::delivery::DeliveryHint::{self, Critical, Droppable, ResyncPoint};
use oracle::media::init_cache::CacheFrameKind::{
    self, AudioSequenceHeader, LiveOnly, VideoKeyframe, VideoSequenceHeader,
};
use oracle::types::FrameType;

use super::Frame;
use crate::aac;
use crate::containers::Candidate;
use crate::records::{self, avc};
use crate::starts::{self, Start};

/// The classes of frames that would start a sequence, if request N7 did not refuse a record for a
/// type. Audio stands in pairs, as in `CLASSES`.
const FOR_A_TYPE: [&str; 10] = [
    "audio start refused for a type, 'avc1'",
    "audio start refused for a type, 'avc1', beside video",
    "audio start refused for a type, 'hvc1'",
    "audio start refused for a type, 'hvc1', beside video",
    "audio container, starts refused for a type alone",
    "audio container, starts refused for a type alone, beside video",
    "video start refused for a type, 'avc1'",
    "video start refused for a type, 'hvc1'",
    "video container, starts refused for a type alone",
    "legacy AVC start refused for a type",
];

/// Audio that the flag decides about stands in pairs: on a route without video, and with it.
pub const CLASSES: &[&str] = &[
    "unknown frame type",
    "Script",
    "Metadata",
    // Audio, Critical.
    "audio, empty",
    "audio start, 'mp4a'",
    "audio start, 'avc1'",
    "audio start, 'hvc1'",
    "audio start, empty 'Opus'",
    "audio start, opaque",
    "audio, packet type 3",
    "audio, packet type 4",
    "audio container, one start",
    "audio container, several starts",
    "audio container, packet type 3",
    "audio container, packet type 4",
    "legacy AAC start",
    // Audio, ResyncPoint or Droppable.
    "audio start refused, 'mp4a'",
    "audio start refused, 'mp4a', beside video",
    "audio start refused, 'avc1'",
    "audio start refused, 'avc1', beside video",
    "audio start refused, 'hvc1'",
    "audio start refused, 'hvc1', beside video",
    "audio start refused, empty",
    "audio start refused, empty, beside video",
    FOR_A_TYPE[0],
    FOR_A_TYPE[1],
    FOR_A_TYPE[2],
    FOR_A_TYPE[3],
    "audio, packet type 7",
    "audio, packet type 7, beside video",
    "audio, other packet type",
    "audio, other packet type, beside video",
    "audio cut, packet type 3 or 4",
    "audio cut, packet type 3 or 4, beside video",
    "audio cut, other packet type",
    "audio cut, other packet type, beside video",
    "audio container, no start valid",
    "audio container, no start valid, beside video",
    "audio container, first start refused",
    "audio container, first start refused, beside video",
    "audio container, later start refused",
    "audio container, later start refused, beside video",
    FOR_A_TYPE[4],
    FOR_A_TYPE[5],
    "audio container, a start refused for a type, another anyway",
    "audio container, a start refused for a type, another anyway, beside video",
    "audio container, other packet type",
    "audio container, other packet type, beside video",
    "audio container refused, packet type 0",
    "audio container refused, packet type 0, beside video",
    "audio container refused, packet type 3 or 4",
    "audio container refused, packet type 3 or 4, beside video",
    "audio container refused, other",
    "audio container refused, other, beside video",
    "audio container that names itself",
    "audio container that names itself, beside video",
    "legacy AAC start refused",
    "legacy AAC start refused, beside video",
    "legacy AAC, byte 1 not 0",
    "legacy AAC, byte 1 not 0, beside video",
    "legacy AAC, byte 0 alone",
    "legacy AAC, byte 0 alone, beside video",
    "reserved sound format",
    "reserved sound format, beside video",
    "legacy audio, other",
    "legacy audio, other, beside video",
    // Video, Critical.
    "video start, 'avc1'",
    "video start, 'hvc1'",
    "video start, 'mp4a'",
    "video start, opaque",
    "video, packet type 4",
    "video container, one start",
    "video container, several starts",
    "video container, packet type 4",
    "legacy AVC start, frame type 1",
    "legacy AVC start, other frame type",
    "command, packet type 4",
    "command, packet type 6",
    "command, other packet type",
    "legacy command, like an AVC start",
    "legacy command, other",
    // Video, ResyncPoint.
    "keyframe, packet type 1, timed",
    "keyframe, packet type 1, untimed",
    "keyframe, packet type 3",
    "container keyframe, packet type 1",
    "container keyframe, packet type 3",
    "legacy keyframe, AVC",
    "legacy keyframe, other codec",
    // Video, Droppable.
    "video, empty",
    "video start refused, 'avc1'",
    "video start refused, 'hvc1'",
    "video start refused, empty 'Opus'",
    "video start refused, empty",
    FOR_A_TYPE[6],
    FOR_A_TYPE[7],
    "video, packet type 1, not frame type 1",
    "video, packet type 3, not frame type 1",
    "video, packet type 7",
    "video, packet type 7, frame type 5",
    "video, other packet type",
    "video cut, packet type 4",
    "video cut, other packet type",
    "time cut, frame type 1",
    "time cut, other frame type",
    "video container, no start valid",
    "video container, first start refused",
    "video container, later start refused",
    FOR_A_TYPE[8],
    "video container, a start refused for a type, another anyway",
    "video container, packet type 1, not frame type 1",
    "video container, packet type 3, not frame type 1",
    "video container, other packet type",
    "video container refused, packet type 0",
    "video container refused, packet type 1 or 3, frame type 1",
    "video container refused, packet type 4",
    "video container refused, other",
    "video container that names itself",
    "legacy AVC start refused",
    FOR_A_TYPE[9],
    "legacy AVC, end of sequence",
    "legacy AVC, other byte 1",
    "legacy AVC, byte 0 alone",
    "legacy video, not frame type 1",
];

/// A class, with the kind and the hint of its frames, if they have a known frame type.
type Class = (&'static str, Option<(CacheFrameKind, DeliveryHint)>);

/// Whether the frames of a class are those whose kind and hint request N7 changes.
pub fn is_for_a_type(class: &str) -> bool {
    FOR_A_TYPE.contains(&class)
}

/// The class of the first rule that fits.
pub fn class(frame: &Frame) -> Class {
    let candidate = &frame.candidate;
    match candidate.frame_type {
        0 => audio(candidate, frame.flag),
        1 => video(candidate),
        2 => critical("Script"),
        3 => critical("Metadata"),
        _ => ("unknown frame type", None),
    }
}

fn critical(class: &'static str) -> Class {
    (class, Some((LiveOnly, Critical)))
}

fn audio_start(class: &'static str) -> Class {
    (class, Some((AudioSequenceHeader, Critical)))
}

fn video_start(class: &'static str) -> Class {
    (class, Some((VideoSequenceHeader, Critical)))
}

fn keyframe(class: &'static str) -> Class {
    (class, Some((VideoKeyframe, ResyncPoint)))
}

fn droppable(class: &'static str) -> Class {
    (class, Some((LiveOnly, Droppable)))
}

/// Audio of this class, or of the one behind it beside video.
fn other_audio(class: &'static str, flag: u32) -> Class {
    if flag == 0 {
        return (class, Some((LiveOnly, ResyncPoint)));
    }
    let alone = CLASSES.iter().position(|known| *known == class);
    droppable(CLASSES[alone.expect("the class is listed") + 1])
}

fn audio(candidate: &Candidate, flag: u32) -> Class {
    let Some((first, rest)) = candidate.payload.split_first() else {
        return critical("audio, empty");
    };
    match (first >> 4, first & 0x0F) {
        (9, 5) => audio_container(candidate, flag),
        (9, packet_type) => enhanced_audio(packet_type, rest, flag),
        (10, _) => aac(rest, flag),
        (12 | 13 | 15, _) => other_audio("reserved sound format", flag),
        _ => other_audio("legacy audio, other", flag),
    }
}

fn aac(rest: &[u8], flag: u32) -> Class {
    match rest {
        [0, record @ ..] => match aac::class(record) {
            Ok(_) => audio_start("legacy AAC start"),
            Err(_) => other_audio("legacy AAC start refused", flag),
        },
        [_, ..] => other_audio("legacy AAC, byte 1 not 0", flag),
        [] => other_audio("legacy AAC, byte 0 alone", flag),
    }
}

fn enhanced_audio(packet_type: u8, rest: &[u8], flag: u32) -> Class {
    let Some((fourcc, behind)) = rest.split_first_chunk() else {
        return match packet_type {
            3 | 4 => other_audio("audio cut, packet type 3 or 4", flag),
            _ => other_audio("audio cut, other packet type", flag),
        };
    };
    match packet_type {
        0 => single_audio_start(fourcc, behind, flag),
        3 => critical("audio, packet type 3"),
        4 => critical("audio, packet type 4"),
        7 => other_audio("audio, packet type 7", flag),
        _ => other_audio("audio, other packet type", flag),
    }
}

fn single_audio_start(fourcc: &[u8; 4], record: &[u8], flag: u32) -> Class {
    let verdict = verdict(FrameType::Audio, fourcc, record);
    if verdict == Verdict::RefusedForAType {
        return match fourcc {
            b"avc1" => other_audio(FOR_A_TYPE[0], flag),
            _ => other_audio(FOR_A_TYPE[2], flag),
        };
    }
    match (verdict == Verdict::Valid, fourcc) {
        (true, b"mp4a") => audio_start("audio start, 'mp4a'"),
        (true, b"avc1") => audio_start("audio start, 'avc1'"),
        (true, b"hvc1") => audio_start("audio start, 'hvc1'"),
        (true, _) if record.is_empty() => audio_start("audio start, empty 'Opus'"),
        (true, _) => audio_start("audio start, opaque"),
        (false, b"mp4a") => other_audio("audio start refused, 'mp4a'", flag),
        (false, b"avc1") => other_audio("audio start refused, 'avc1'", flag),
        (false, b"hvc1") => other_audio("audio start refused, 'hvc1'", flag),
        (false, _) => other_audio("audio start refused, empty", flag),
    }
}

fn audio_container(candidate: &Candidate, flag: u32) -> Class {
    let packet_type = shared_packet_type(candidate);
    if candidate.class().is_err() {
        return match packet_type {
            Some(0) => other_audio("audio container refused, packet type 0", flag),
            Some(3 | 4) => other_audio("audio container refused, packet type 3 or 4", flag),
            _ if candidate.is_left_out() => other_audio("audio container that names itself", flag),
            _ => other_audio("audio container refused, other", flag),
        };
    }
    match packet_type {
        Some(0) => match records(FrameType::Audio, candidate) {
            Records::One => audio_start("audio container, one start"),
            Records::Several => audio_start("audio container, several starts"),
            Records::NoneValid => other_audio("audio container, no start valid", flag),
            Records::FirstRefused => other_audio("audio container, first start refused", flag),
            Records::LaterRefused => other_audio("audio container, later start refused", flag),
            Records::ForATypeAlone => other_audio(FOR_A_TYPE[4], flag),
            Records::ForATypeToo => other_audio(
                "audio container, a start refused for a type, another anyway",
                flag,
            ),
        },
        Some(3) => critical("audio container, packet type 3"),
        Some(4) => critical("audio container, packet type 4"),
        _ => other_audio("audio container, other packet type", flag),
    }
}

fn video(candidate: &Candidate) -> Class {
    let Some((first, rest)) = candidate.payload.split_first() else {
        return droppable("video, empty");
    };
    let (upper, lower) = (first >> 4, first & 0x0F);
    match (upper & 7, lower) {
        _ if upper < 8 => legacy_video(upper, lower, rest),
        (5, 4) => critical("command, packet type 4"),
        (5, 6) => critical("command, packet type 6"),
        (5, 7) => droppable("video, packet type 7, frame type 5"),
        (5, _) => critical("command, other packet type"),
        (frame_type, 6) => video_container(frame_type, candidate),
        (frame_type, packet_type) => enhanced_video(frame_type, packet_type, rest),
    }
}

fn legacy_video(frame_type: u8, codec: u8, rest: &[u8]) -> Class {
    match (frame_type, codec, rest) {
        (5, 7, [0, ..]) => critical("legacy command, like an AVC start"),
        (5, _, _) => critical("legacy command, other"),
        (_, 7, [0, behind @ ..]) => match avc::class(behind.get(3..).unwrap_or_default()) {
            Ok(_) if frame_type == 1 => video_start("legacy AVC start, frame type 1"),
            Ok(_) => video_start("legacy AVC start, other frame type"),
            class if records::is_for_a_type(class) => droppable(FOR_A_TYPE[9]),
            Err(_) => droppable("legacy AVC start refused"),
        },
        (1, 7, [1, ..]) => keyframe("legacy keyframe, AVC"),
        (1, 7, [2, ..]) => droppable("legacy AVC, end of sequence"),
        (1, 7, [_, ..]) => droppable("legacy AVC, other byte 1"),
        (1, 7, []) => droppable("legacy AVC, byte 0 alone"),
        (1, _, _) => keyframe("legacy keyframe, other codec"),
        _ => droppable("legacy video, not frame type 1"),
    }
}

fn enhanced_video(frame_type: u8, packet_type: u8, rest: &[u8]) -> Class {
    let Some((fourcc, behind)) = rest.split_first_chunk() else {
        return match packet_type {
            4 => droppable("video cut, packet type 4"),
            _ => droppable("video cut, other packet type"),
        };
    };
    let timed = [b"avc1", b"hvc1", b"vvc1"].contains(&fourcc);
    match (packet_type, frame_type) {
        (0, _) => single_video_start(fourcc, behind),
        (1, 1) if timed && behind.len() < 3 => droppable("time cut, frame type 1"),
        (1, _) if timed && behind.len() < 3 => droppable("time cut, other frame type"),
        (1, 1) if timed => keyframe("keyframe, packet type 1, timed"),
        (1, 1) => keyframe("keyframe, packet type 1, untimed"),
        (1, _) => droppable("video, packet type 1, not frame type 1"),
        (3, 1) => keyframe("keyframe, packet type 3"),
        (3, _) => droppable("video, packet type 3, not frame type 1"),
        (4, _) => critical("video, packet type 4"),
        (7, _) => droppable("video, packet type 7"),
        _ => droppable("video, other packet type"),
    }
}

fn single_video_start(fourcc: &[u8; 4], record: &[u8]) -> Class {
    let verdict = verdict(FrameType::Video, fourcc, record);
    if verdict == Verdict::RefusedForAType {
        return match fourcc {
            b"avc1" => droppable(FOR_A_TYPE[6]),
            _ => droppable(FOR_A_TYPE[7]),
        };
    }
    match (verdict == Verdict::Valid, fourcc) {
        (true, b"avc1") => video_start("video start, 'avc1'"),
        (true, b"hvc1") => video_start("video start, 'hvc1'"),
        (true, b"mp4a") => video_start("video start, 'mp4a'"),
        (true, _) => video_start("video start, opaque"),
        (false, b"avc1") => droppable("video start refused, 'avc1'"),
        (false, b"hvc1") => droppable("video start refused, 'hvc1'"),
        (false, b"Opus") => droppable("video start refused, empty 'Opus'"),
        (false, _) => droppable("video start refused, empty"),
    }
}

fn video_container(frame_type: u8, candidate: &Candidate) -> Class {
    let packet_type = shared_packet_type(candidate);
    if candidate.class().is_err() {
        return match (packet_type, frame_type) {
            (Some(0), _) => droppable("video container refused, packet type 0"),
            (Some(1 | 3), 1) => {
                droppable("video container refused, packet type 1 or 3, frame type 1")
            }
            (Some(4), _) => droppable("video container refused, packet type 4"),
            _ if candidate.is_left_out() => droppable("video container that names itself"),
            _ => droppable("video container refused, other"),
        };
    }
    match (packet_type, frame_type) {
        (Some(0), _) => match records(FrameType::Video, candidate) {
            Records::One => video_start("video container, one start"),
            Records::Several => video_start("video container, several starts"),
            Records::NoneValid => droppable("video container, no start valid"),
            Records::FirstRefused => droppable("video container, first start refused"),
            Records::LaterRefused => droppable("video container, later start refused"),
            Records::ForATypeAlone => droppable(FOR_A_TYPE[8]),
            Records::ForATypeToo => {
                droppable("video container, a start refused for a type, another anyway")
            }
        },
        (Some(1), 1) => keyframe("container keyframe, packet type 1"),
        (Some(1), _) => droppable("video container, packet type 1, not frame type 1"),
        (Some(3), 1) => keyframe("container keyframe, packet type 3"),
        (Some(3), _) => droppable("video container, packet type 3, not frame type 1"),
        (Some(4), _) => critical("video container, packet type 4"),
        _ => droppable("video container, other packet type"),
    }
}

/// The packet type in byte 1 of a container.
fn shared_packet_type(candidate: &Candidate) -> Option<u8> {
    candidate.payload.get(1).map(|second| second & 0x0F)
}

/// Which records of an accepted container of packet type 0 are valid. If only some are, and no type
/// is why, the first one is refused, or a later one.
enum Records {
    One,
    Several,
    NoneValid,
    FirstRefused,
    LaterRefused,
    /// Those that are refused, if there is one, are so for a type.
    ForATypeAlone,
    /// Besides, another one is refused.
    ForATypeToo,
}

fn records(frame_type: FrameType, candidate: &Candidate) -> Records {
    let tracks = candidate.tracks().expect("the container is accepted");
    let verdicts: Vec<Verdict> = tracks
        .iter()
        .map(|track| {
            let record = &candidate.payload[track.start..track.start + track.length];
            verdict(frame_type, &track.fourcc, record)
        })
        .collect();
    if verdicts.contains(&Verdict::RefusedForAType) {
        return match verdicts.contains(&Verdict::Refused) {
            true => Records::ForATypeToo,
            false => Records::ForATypeAlone,
        };
    }
    match &verdicts[..] {
        [Verdict::Valid] => Records::One,
        verdicts if !verdicts.contains(&Verdict::Refused) => Records::Several,
        verdicts if !verdicts.contains(&Verdict::Valid) => Records::NoneValid,
        [Verdict::Refused, ..] => Records::FirstRefused,
        _ => Records::LaterRefused,
    }
}

/// On the record of a start.
#[derive(PartialEq)]
enum Verdict {
    Valid,
    Refused,
    RefusedForAType,
}

fn verdict(frame_type: FrameType, fourcc: &[u8; 4], record: &[u8]) -> Verdict {
    let start = Start {
        frame_type,
        fourcc: *fourcc,
        record: record.to_vec(),
    };
    match start.class() {
        Ok(_) => Verdict::Valid,
        class if starts::is_for_a_type(class) => Verdict::RefusedForAType,
        Err(_) => Verdict::Refused,
    }
}
