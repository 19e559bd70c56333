//! What is refused, under which number, and what a refusal leaves alone.

use std::error::Error;

use hozgrim::FrameType::{Audio, Metadata, Script, Video};
use hozgrim::{CAPS_EX_MODEX, FrameType, HeaderError, Refusal, pass, track, tracks};

use crate::in_place::agreed;

/// A layer before a container of two tracks, and the result.
const LAYERED: &[u8] = b"\x97\x00\xAA\x15\x11Opus\x01\x00\x00\x01\xAA\x02\x00\x00\x00";
const CONTAINER: &[u8] = b"\x95\x11Opus\x01\x00\x00\x01\xAA\x02\x00\x00\x00";

#[test]
fn numbers_above_3_are_no_frame_types() {
    for number in 0..=u8::MAX {
        let known = FrameType::try_from(number);
        assert_eq!(known, FrameType::try_from(u32::from(number)));
        match known {
            Ok(known) => assert_eq!(u8::from(known), number),
            Err(refusal) => assert_eq!(refusal, Refusal::UnknownFrameType),
        }
        assert_eq!(known.is_ok(), number <= 3);
    }
    for number in [256, 257, 65_536, u32::MAX] {
        let unknown = FrameType::try_from(number);
        assert_eq!(unknown, Err(Refusal::UnknownFrameType));
    }
}

#[test]
fn a_short_output_keeps_its_bytes() {
    for (payload, mask, needed) in [
        (LAYERED, CAPS_EX_MODEX, CONTAINER.len()),
        (LAYERED, 0, LAYERED.len()),
    ] {
        for room in 0..needed {
            let mut output: Vec<u8> = (0..room as u8).collect();
            let refused = pass(Audio, payload, mask, true, &mut output);
            assert_eq!(refused, Err(Refusal::OutputTooShort));
            assert!(output.into_iter().eq(0..room as u8));
        }
    }
}

#[test]
fn in_place_there_is_always_room() {
    for (payload, mask, needed) in [
        (LAYERED, CAPS_EX_MODEX, CONTAINER.len()),
        (LAYERED, 0, LAYERED.len()),
        (CONTAINER, CAPS_EX_MODEX, CONTAINER.len()),
    ] {
        let report = agreed(Audio, payload, mask, true);
        assert_eq!(report.map(|report| report.result_len), Ok(needed));
    }
}

#[test]
fn bytes_behind_the_result_are_kept() {
    for room in CONTAINER.len()..LAYERED.len() + 3 {
        let mut output: Vec<u8> = (0..room as u8).collect();
        let report = pass(Audio, LAYERED, CAPS_EX_MODEX, true, &mut output).expect("there is room");
        assert_eq!(report.result(&output), CONTAINER);
        let behind = output.iter().copied().skip(report.result_len);
        assert!(behind.eq(report.result_len as u8..room as u8));
    }
}

#[test]
fn an_empty_payload_needs_no_room() {
    for frame_type in [Audio, Video, Script, Metadata] {
        let report = pass(frame_type, &[], CAPS_EX_MODEX, true, &mut []);
        assert_eq!(report.map(|report| report.result_len), Ok(0));
    }
}

#[test]
#[should_panic(expected = "out of range")]
fn a_shorter_output_than_that_of_the_pass_has_no_result() {
    let mut output = [0; LAYERED.len()];
    let report = pass(Audio, LAYERED, 0, true, &mut output).expect("there is room");
    let _ = report.result(&output[1..]);
}

#[test]
fn track_numbers_not_below_the_count() {
    for number in [2, 3, 4_096, usize::MAX] {
        let none = track(Audio, CONTAINER, number);
        assert_eq!(none, Err(Refusal::NoSuchTrack { count: 2 }));
    }
}

#[test]
fn anything_but_an_accepted_container() {
    let cut = &CONTAINER[..CONTAINER.len() - 1];
    let longer = [CONTAINER, b"\x00"].concat();
    for (frame_type, payload) in [
        (Audio, &b""[..]),
        (Audio, LAYERED),
        (Audio, cut),
        (Audio, &longer),
        (Audio, b"\x95\x31Opus\x01\x00\x00\x00"),
        (Audio, b"\x95\x05Opus\x07"),
        (Video, b"\x86\x06\x00\x00\x00\x00\x00"),
        (Video, CONTAINER),
        (Script, CONTAINER),
        (Metadata, CONTAINER),
    ] {
        assert_eq!(
            tracks(frame_type, payload).err(),
            Some(Refusal::NotAContainer)
        );
        for number in [0, 1, usize::MAX] {
            let refused = track(frame_type, payload, number);
            assert_eq!(refused, Err(Refusal::NotAContainer), "{payload:02X?}");
        }
    }
}

#[test]
fn errors_go_where_errors_go() {
    let refused = |number: u32| -> Result<FrameType, Box<dyn Error>> { Ok(number.try_into()?) };
    let error = refused(4).expect_err("there is no such type");
    assert_eq!(
        error.to_string(),
        "no frame type has this number, or FLV has no tag for it"
    );
    let none = Refusal::NoSuchTrack { count: 2 };
    assert_eq!(
        none.to_string(),
        "no track has this number: the container has 2"
    );
    for (refusal, words) in [
        (
            Refusal::Protocol,
            "an offset over 999,999 ns, or too few bytes for one",
        ),
        (Refusal::OutOfBounds, "out of bounds"),
        (Refusal::BadLength, "a length that cannot be written"),
        (Refusal::BadValue, "a value or a payload cannot be written"),
        (Refusal::Truncated, "stops short"),
        (
            Refusal::NotFlv,
            "is not FLV of version 1 with data offset 9",
        ),
        (Refusal::WrongBackPointer, "does not match"),
        (
            Refusal::OutOfRange,
            "a number of viewers or the bytes of a tick are out of range",
        ),
        (
            Refusal::DebtLimit,
            "would owe more than 2,000,000,000 bytes",
        ),
    ] {
        assert!(refusal.to_string().ends_with(words));
    }
    let unsupported: Box<dyn Error + Send + Sync> = HeaderError::Unsupported.into();
    assert_eq!(unsupported.to_string(), "the sound format is not supported");
}
