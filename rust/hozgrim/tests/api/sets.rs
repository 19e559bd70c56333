//! Parameter sets name the type of their list: request N7 (docs/REQUIREMENTS.md, section 23).

use hozgrim::CacheKind::{self, AudioSequenceHeader, LiveOnly, VideoSequenceHeader};
use hozgrim::DeliveryHint::{self, Critical, Droppable, ResyncPoint};
use hozgrim::FrameType::{self, Audio, Video};
use hozgrim::{Verdict, classify, tracks};

use crate::unpeeled;

/// An AVC record with one set of one byte in both lists.
fn avc(sequence: u8, picture: u8) -> Vec<u8> {
    let mut record = b"\x01\x42\x00\x1E\xFF\xE1\x00\x01".to_vec();
    record.extend([sequence, 0x01, 0x00, 0x01, picture]);
    record
}

/// An HEVC record of arrays with one set of one byte each, by their types and first bytes.
fn hevc(arrays: &[[u8; 2]]) -> Vec<u8> {
    let mut record = [&[0x01][..], &[0x00; 21], &[arrays.len() as u8]].concat();
    for [array, first] in arrays {
        record.extend([*array, 0x00, 0x01, 0x00, 0x01, *first]);
    }
    record
}

/// How many records are valid, of how many; and kind and hint, without video on the route.
fn seen(frame_type: FrameType, payload: &[u8]) -> (usize, usize, CacheKind, DeliveryHint) {
    let report = unpeeled(frame_type, payload, false);
    let class = classify(frame_type, payload, false);
    assert_eq!((report.kind, report.hint), (class.kind, class.hint));
    (
        report.valid_records,
        report.records,
        report.kind,
        report.hint,
    )
}

#[test]
fn every_first_byte_in_avc() {
    for first in 0..=u8::MAX {
        for (record, nal_type) in [(avc(first, 0x68), 7), (avc(0x67, first), 8)] {
            let payload = [b"\x17\x00\x00\x00\x00", &record[..]].concat();
            let expected = match first % 32 == nal_type {
                true => (1, 1, VideoSequenceHeader, Critical),
                false => (0, 1, LiveOnly, Droppable),
            };
            assert_eq!(seen(Video, &payload), expected, "{record:02X?}");
        }
        let extension = [0xFD, 0xF8, 0xF8, 0x01, 0x00, 0x01, first];
        let payload = [&b"\x90avc1"[..], &avc(0x67, 0x68), &extension].concat();
        let expected = match first % 32 == 13 {
            true => (1, 1, AudioSequenceHeader, Critical),
            false => (0, 1, LiveOnly, ResyncPoint),
        };
        assert_eq!(seen(Audio, &payload), expected, "{first:02X}");
    }
}

#[test]
fn every_first_byte_and_array_in_hevc() {
    for array in 0..64 {
        for first in 0..=u8::MAX {
            let record = hevc(&[[0x21, 0x42], [array, first], [0xA2, 0xC5]]);
            let payload = [&b"\x80hvc1"[..], &record].concat();
            let expected = match first / 2 % 64 == array {
                true => (1, 1, VideoSequenceHeader, Critical),
                false => (0, 1, LiveOnly, Droppable),
            };
            assert_eq!(seen(Video, &payload), expected, "{array} {first:02X}");
        }
    }
}

#[test]
fn each_track_has_its_own_verdict() {
    let records = [avc(0x67, 0x68), avc(0x68, 0x67), avc(0x27, 0x28)];
    let mut payload = b"\x96\x10avc1".to_vec();
    for (id, record) in records.iter().enumerate() {
        payload.extend([id as u8, 0x00, 0x00, record.len() as u8]);
        payload.extend(record);
    }
    assert_eq!(seen(Video, &payload), (2, 3, LiveOnly, Droppable));
    let verdicts = tracks(Video, &payload).expect("a container");
    let verdicts: Vec<Option<Verdict>> = verdicts.map(|track| track.verdict).collect();
    let [valid, refused] = [Verdict::Valid, Verdict::Refused].map(Some);
    assert_eq!(verdicts, [valid, refused, valid]);
}

#[test]
fn the_rest_of_a_set_is_not_looked_at() {
    for second in 0..=u8::MAX {
        let mut record = b"\x01\x42\x00\x1E\xFF\xE1\x00\x02\x67".to_vec();
        record.extend([second, 0x01, 0x00, 0x02, 0x68, second]);
        let payload = [b"\x17\x00\x00\x00\x00", &record[..]].concat();
        let expected = (1, 1, VideoSequenceHeader, Critical);
        assert_eq!(seen(Video, &payload), expected, "{second:02X}");
    }
}
