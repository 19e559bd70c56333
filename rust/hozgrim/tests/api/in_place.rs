//! The pass without a copy: where the result stands, and what the payload keeps. The rows are those
//! of docs/REQUIREMENTS.md, section 12.

use std::ops::Range;

use common::layers::{Form, MODEX, layer, wrapped};
use hozgrim::FrameType::{self, Audio, Metadata, Script, Video};
use hozgrim::{CAPS_EX_MODEX, Refusal, Report, Track, pass, pass_in_place, track, tracks};

use crate::unpeeled;

/// A layer with an offset before a container of two tracks.
const LAYERED: &[u8] = b"\x97\x02\x00\x00\x2A\x05\x11Opus\x01\x00\x00\x01\xAA\x02\x00\x00\x00";

/// What the pass in place answers, once it has been held against the pass with an output as long as
/// the payload: the answer, the result, the tracks of the result, and the bytes that are kept.
pub fn agreed(
    frame_type: FrameType,
    payload: &[u8],
    mask: u32,
    has_video: bool,
) -> Result<Report, Refusal> {
    let mut output = vec![0xA5; payload.len()];
    let copied = pass(frame_type, payload, mask, has_video, &mut output);
    let mut placed = payload.to_vec();
    let answer = pass_in_place(frame_type, &mut placed, mask, has_video);
    let start = answer.as_ref().map_or(0, |(_, range)| range.start);
    assert_kept(payload, &placed, start);
    let answer = answer.map(|(report, range)| {
        assert_eq!(range.end, payload.len());
        let [left, result] = [&placed[range], report.result(&output)];
        assert_eq!(left, result, "{payload:02X?}");
        let found = listed(frame_type, left);
        assert_eq!(found, listed(frame_type, result), "{payload:02X?}");
        let count = found.map_or(0, |found| found.len());
        assert_eq!(report.tracks, count, "{payload:02X?}");
        report
    });
    assert_eq!(answer, copied, "{payload:02X?}");
    answer
}

fn listed(frame_type: FrameType, payload: &[u8]) -> Result<Vec<Track<'_>>, Refusal> {
    tracks(frame_type, payload).map(Iterator::collect)
}

/// A payload that was passed in place is what it was, but for the byte at the start of the result;
/// all of it is if that is the first one.
pub fn assert_kept(received: &[u8], left: &[u8], start: usize) {
    let mut expected = received.to_vec();
    if start > 0 {
        expected[start] = left[start];
        assert_eq!(left[start] & 0xF0, received[0] & 0xF0, "{received:02X?}");
        assert_ne!(left[start] & 0x0F, MODEX, "{received:02X?}");
    }
    assert_eq!(left, expected, "{received:02X?}");
}

/// Where the result stands after a pass that peels, and the payload then.
fn peeled_in_place(frame_type: FrameType, payload: &[u8]) -> (Range<usize>, Vec<u8>) {
    let agreed = agreed(frame_type, payload, CAPS_EX_MODEX, true).expect("it is not refused");
    let mut payload = payload.to_vec();
    let (report, range) =
        pass_in_place(frame_type, &mut payload, CAPS_EX_MODEX, true).expect("it is not refused");
    assert_eq!(report, agreed);
    (range, payload)
}

#[test]
fn the_rows_of_the_requirement() {
    for (frame_type, mask, payload, start, left) in [
        (
            Audio,
            4,
            &b"\x97\x02\x00\x00\x2A\x01"[..],
            5,
            &b"\x97\x02\x00\x00\x2A\x91"[..],
        ),
        (
            Video,
            4,
            b"\xD7\x00\xAA\x17\x01\xBB\xCC\x10\x55",
            7,
            b"\xD7\x00\xAA\x17\x01\xBB\xCC\xD0\x55",
        ),
        (Audio, 3, b"\x97\x00\xAA\x01", 0, b"\x97\x00\xAA\x01"),
        (
            Video,
            4,
            b"\x97\x00\xAA\x07\x02",
            0,
            b"\x97\x00\xAA\x07\x02",
        ),
    ] {
        agreed(frame_type, payload, mask, true).expect("it is not refused");
        let mut placed = payload.to_vec();
        let (_, range) = pass_in_place(frame_type, &mut placed, mask, true).expect("as above");
        assert_eq!(range, start..payload.len(), "{payload:02X?}");
        assert_eq!(placed, left, "{payload:02X?}");
    }
    let refused = agreed(Audio, b"\x97\x00\xAA\x01", 4, true);
    assert_eq!(refused, Err(Refusal::Protocol));
}

#[test]
fn every_frame_type_is_peeled_in_place() {
    for (frame_type, first) in [
        (Audio, 0x97),
        (Video, 0xA7),
        (Script, 0x87),
        (Metadata, 0xF7),
    ] {
        let payload = [&[first][..], b"\x02\x00\x00\x2A\x03\xAA\xBB"].concat();
        let (range, left) = peeled_in_place(frame_type, &payload);
        assert_eq!(range, 5..8);
        assert_eq!(left[range], [first & 0xF0 | 0x03, 0xAA, 0xBB]);
    }
}

#[test]
fn an_empty_payload_has_an_empty_result() {
    for frame_type in [Audio, Video, Script, Metadata] {
        assert_eq!(peeled_in_place(frame_type, &[]), (0..0, vec![]));
    }
}

#[test]
fn the_start_is_behind_any_layers() {
    for (form, size) in [
        (Form::Short, 1),
        (Form::Short, 255),
        (Form::Long, 1),
        (Form::Long, 65_536),
    ] {
        let layer = layer(form, &vec![0x5A; size], 0x11);
        let payload = [wrapped(layer.clone()), b"Opus".to_vec()].concat();
        let (range, left) = peeled_in_place(Audio, &payload);
        assert_eq!(range.start, layer.len());
        assert_eq!(left[range], *b"\x91Opus");
    }
    let chain = |count: usize| {
        let next = |number| 0x10 | if number < count { MODEX } else { 1 };
        let layers = (1..=count).flat_map(|number| layer(Form::Short, b"\xAA", next(number)));
        wrapped(layers.collect())
    };
    for count in 1..=32 {
        let (range, _) = peeled_in_place(Video, &chain(count));
        assert_eq!(range, 3 * count..3 * count + 1);
    }
    // More than 32 stay.
    assert_eq!(peeled_in_place(Video, &chain(33)), (0..100, chain(33)));
}

#[test]
fn the_result_is_the_memory_that_was_lent() {
    let mut payload = LAYERED.to_vec();
    let lent = payload.as_ptr_range();
    let (report, range) =
        pass_in_place(Audio, &mut payload, CAPS_EX_MODEX, true).expect("it is not refused");
    let result = &payload[range];
    assert_eq!(result.as_ptr_range().end, lent.end);
    assert_eq!(report.tracks, 2);
    let second = track(Audio, result, 1).expect("a track");
    assert_eq!(second.payload.as_ptr_range(), lent.end..lent.end);
}

#[test]
fn a_second_pass_over_the_result_changes_nothing() {
    let (range, mut left) = peeled_in_place(Audio, LAYERED);
    let first = left.clone();
    let result = &mut left[range];
    let (again, whole) = pass_in_place(Audio, result, CAPS_EX_MODEX, true).expect("no layers");
    assert_eq!(whole, 0..result.len());
    assert_eq!(again, unpeeled(Audio, result, true));
    assert_eq!(again.composition_time, 0.into());
    assert_eq!(left, first);
}

/// Why only the result is lent again: the option byte has become one of a layer without an offset.
#[test]
fn a_second_pass_over_the_whole_payload_loses_the_offset() {
    let (range, mut left) = peeled_in_place(Audio, LAYERED);
    let first = left.clone();
    let (again, same) =
        pass_in_place(Audio, &mut left, CAPS_EX_MODEX, true).expect("no layer has an offset");
    assert_eq!((same, left), (range, first));
    assert_eq!(again.composition_time, 0.into());
}

#[test]
fn sound_decides_nothing_and_is_kept() {
    let first = agreed(Audio, LAYERED, CAPS_EX_MODEX, true);
    let at = LAYERED.len() - 5;
    assert_eq!(LAYERED[at], 0xAA);
    for sound in 0..=u8::MAX {
        let mut payload = LAYERED.to_vec();
        payload[at] = sound;
        assert_eq!(agreed(Audio, &payload, CAPS_EX_MODEX, true), first);
        let (_, left) = peeled_in_place(Audio, &payload);
        assert_eq!(left[at], sound);
    }
}
