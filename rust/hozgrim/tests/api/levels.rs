//! What the level of a frame is: request N4 of docs/REQUIREMENTS.md. Every answer is asked for
//! twice: of the entry, and of the package.

use common::g711::{Law, expansion};
use common::rng::Rng;
use hozgrim::FrameType::Audio;
use hozgrim::{AudioCodec, Header};
use hozgrim_sys::HozgrimLevel;

use crate::{numbers, peeled, unpeeled};

/// Byte 0 of A-law and of mu-law.
const LAWS: [(u8, AudioCodec); 2] = [(0x70, AudioCodec::G711A), (0x80, AudioCodec::G711U)];

/// The level of a payload of this frame type, or the error.
fn answered(frame_type: u32, payload: &[u8]) -> Result<u32, i32> {
    let answer = hozgrim_sys::level(frame_type, payload);
    assert_eq!(numbers::level(frame_type, payload), answer);
    match answer {
        HozgrimLevel { error: 0, level } => Ok(level),
        HozgrimLevel { error, level: 0 } => Err(error),
        other => panic!("{other:?}"),
    }
}

fn level(payload: &[u8]) -> u32 {
    answered(Audio.into(), payload).expect("audio is known")
}

/// The levels of all codes, each the only sample.
fn levels(first: u8) -> Vec<u32> {
    (0..=u8::MAX).map(|code| level(&[first, code])).collect()
}

#[test]
fn the_examples_of_the_request() {
    let rows: [(&[u8], u32); 19] = [
        (b"\x70\x2A", 4_032),
        (b"\x70\xAA", 4_032),
        (b"\x70\x00", 688),
        (b"\x70\x55", 1),
        (b"\x70\xD5", 1),
        (b"\x7F\x00\x02", 752),
        (b"\x70", 0),
        (b"\x80\x2A", 1_343),
        (b"\x80\x80", 8_031),
        (b"\x80\x00", 8_031),
        (b"\x80\x7F", 0),
        (b"\x80\xFF", 0),
        (b"\x80", 0),
        // Neither a container nor behind layers.
        (b"\x85\x01Opus\x07", 7_775),
        (b"\x87\x00\x00\x00", 8_031),
        // Enhanced, of AAC, and of a format that is not supported.
        (b"\x97\x00", 0),
        (b"\xAF\x01\x00", 0),
        (b"\xC0\x00", 0),
        (b"", 0),
    ];
    for (payload, expected) in rows {
        assert_eq!(level(payload), expected, "{payload:02X?}");
    }
}

#[test]
fn only_audio_has_a_level() {
    for payload in [&b""[..], b"\x70\x2A", b"\x80\x00"] {
        for known in 1..=3 {
            assert_eq!(answered(known, payload), Ok(0));
        }
        for unknown in [4, 255, 256, 65_536, 1 << 31, u32::MAX] {
            assert_eq!(answered(unknown, payload), Err(-21));
        }
    }
}

#[test]
fn a_codec_with_a_full_scale_has_a_level() {
    for first in 0..=u8::MAX {
        let payload = [first, 0x2A];
        let codec = match unpeeled(Audio, &payload, true).header {
            Ok(Some(Header::Audio(header))) => Some(header.codec),
            _ => None,
        };
        let full_scale = codec.and_then(AudioCodec::full_scale);
        assert_eq!(level(&payload) > 0, full_scale.is_some(), "{payload:02X?}");
    }
}

#[test]
fn the_low_nibble_of_byte_0_has_no_say() {
    for (law, _) in LAWS {
        for first in law..=law | 0x0F {
            assert_eq!(levels(first), levels(law));
        }
    }
}

#[test]
fn the_loudest_code_is_full_scale() {
    for ((law, codec), quietest) in LAWS.into_iter().zip([1, 0]) {
        let levels = levels(law);
        assert_eq!(levels.iter().max().copied(), codec.full_scale());
        assert_eq!(levels.iter().min(), Some(&quietest));
    }
}

#[test]
fn every_code_has_the_magnitude_of_its_value() {
    for ((first, _), law) in LAWS.into_iter().zip([Law::A, Law::Mu]) {
        let values = (0..=u8::MAX).map(|code| expansion(law, code));
        assert!(values.map(i32::unsigned_abs).eq(levels(first)));
    }
}

#[test]
fn the_level_is_that_of_the_loudest_sample() {
    let mut rng = Rng::new(1);
    for (law, _) in LAWS {
        let levels = levels(law);
        for _ in 0..10_000 {
            let mut payload = vec![law];
            let count = rng.below(200);
            // Quiet codes, and in every other frame any code in one place.
            payload.extend((0..count).map(|_| 0x50 | rng.byte()));
            if rng.one_in(2) && count > 0 {
                payload[1 + rng.below(count)] = rng.byte();
            }
            let samples = payload[1..].iter().map(|code| levels[usize::from(*code)]);
            assert_eq!(
                level(&payload),
                samples.max().unwrap_or(0),
                "{payload:02X?}"
            );
        }
    }
}

/// Sound is sealed: what is reported of two frames that differ in it is the same.
#[test]
fn a_level_is_no_part_of_the_report() {
    for (law, _) in LAWS {
        let [quiet, loud] = [[law, 0xD5], [law, 0x2A]];
        assert_ne!(level(&quiet), level(&loud));
        assert_eq!(peeled(Audio, &quiet).0, peeled(Audio, &loud).0);
    }
}
