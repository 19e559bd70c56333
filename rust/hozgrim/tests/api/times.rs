//! The composition time of a report, which offsets are refused, and how a time is split: request N6
//! of docs/REQUIREMENTS.md.

use std::iter;

use common::layers::{self, MODEX, layer, wrapped};
use common::rng::Rng;
use hozgrim::FrameType::{Audio, Metadata, Script, Video};
use hozgrim::{
    CAPS_EX_MODEX, CompositionTime, FrameType, NewLayer, Refusal, Report, pass, write_modex,
};
use hozgrim_sys::{HozgrimReport, HozgrimSplitTime};

use crate::{in_place, numbers, unpeeled};

/// The largest offset.
const LIMIT: u32 = 999_999;

/// The offset of layers that are peeled off; none if one of them is refused.
pub fn offset(layers: &[NewLayer]) -> Option<u32> {
    let offsets = layers.iter().filter(|layer| layer.modex_type.number() == 0);
    let offsets = offsets.map(|layer| match layer.data {
        [high, middle, low, ..] => Some(u32::from_be_bytes([0, *high, *middle, *low])),
        _ => None,
    });
    let offsets: Option<Vec<u32>> = offsets
        .map(|offset| offset.filter(|offset| *offset <= LIMIT))
        .collect();
    Some(offsets?.last().copied().unwrap_or(0))
}

/// The types and the data of 1 to 32 layers: half of them of type 0, mostly with an offset that is
/// not refused.
pub fn random_layers(rng: &mut Rng) -> Vec<(u8, Vec<u8>)> {
    let count = if rng.one_in(32) { 32 } else { 1 + rng.below(4) };
    let random_layer = |_| {
        let modex_type = if rng.one_in(2) {
            0
        } else {
            rng.below(16) as u8
        };
        let bytes = match rng.below(64) {
            0 => 250 + rng.below(12),
            _ => 1 + rng.below(5),
        };
        let mut data = rng.bytes(bytes);
        if modex_type == 0 && !rng.one_in(8) {
            let offset = rng.below(LIMIT as usize + 1) as u32;
            data.splice(..bytes.min(3), offset.to_be_bytes()[1..].iter().copied());
        }
        (modex_type, data)
    };
    (0..count).map(random_layer).collect()
}

pub fn new_layers(layers: &[(u8, Vec<u8>)]) -> Vec<NewLayer<'_>> {
    let new = layers.iter().map(|(modex_type, data)| NewLayer {
        modex_type: (*modex_type).into(),
        data,
    });
    new.collect()
}

/// The report of a payload, or the refusal, with an output as long as the payload. A refused pass
/// leaves it alone, and reports nothing.
fn answered(frame_type: FrameType, mask: u32, payload: &[u8]) -> Result<Report, Refusal> {
    let mut output = vec![0xA5; payload.len()];
    let report = hozgrim_sys::pass(frame_type.into(), payload, mask, 1, &mut output);
    if report.error != 0 {
        let error = report.error;
        let nothing = HozgrimReport::default();
        assert_eq!(report, HozgrimReport { error, ..nothing }, "{payload:02X?}");
        assert!(output.iter().all(|byte| *byte == 0xA5), "{payload:02X?}");
    }
    let same = numbers::pass(frame_type.into(), payload, mask, 1, &mut output);
    assert_eq!(same, report, "{payload:02X?}");
    let answer = pass(frame_type, payload, mask, true, &mut output);
    let same = in_place::agreed(frame_type, payload, mask, true);
    assert_eq!(same, answer, "{payload:02X?}");
    answer
}

fn nanoseconds(frame_type: FrameType, mask: u32, payload: &[u8]) -> Result<i64, Refusal> {
    answered(frame_type, mask, payload).map(|report| report.composition_time.nanoseconds())
}

/// Frames whose layers are peeled off, and their times.
const TIMES: &[(FrameType, &[u8], i64)] = &[
    (Audio, b"\xAF\x01\x21", 0),
    (Video, b"\x17\x01\x00\x00\x28", 40_000_000),
    (Script, b"\x17\x01\x00\x00\x28", 0),
    // An offset without a header that has milliseconds; one that is cut before them.
    (Audio, b"\x97\x02\x00\x00\x01\x00", 1),
    (Script, b"\x87\x02\x00\x00\x01\x00", 1),
    (Metadata, b"\x87\x02\x00\x00\x01\x00", 1),
    (Video, b"\x97\x02\x00\x00\x01\x01avc1\xFF\xFF", 1),
    (Video, b"\x97\x02\x00\x00\x01\x03avc1\x00\x00\x28", 1),
    // The last of several.
    (Audio, b"\x97\x02\x00\x00\x01\x07\x02\x00\x00\x00\x00", 0),
    (Audio, b"\x97\x02\x00\x00\x00\x07\x02\x00\x00\x01\x00", 1),
    (Audio, b"\x97\x02\x00\x00\x01\x07\x00\xAA\x11", 1),
    // The first three bytes, the first one the highest.
    (Video, b"\x87\x03\x00\x00\x00\x01\x00", 0),
    (Video, b"\x87\x02\x01\x00\x00\x00", 65_536),
    (Audio, b"\x97\xFF\x00\x02\x00\x00\x01\x00", 1),
    (Audio, b"\x97\x02\x0F\x42\x3F\x00", 999_999),
    // Other types have no offset and no limit.
    (Audio, b"\x97\x00\x00\x10", 0),
    (Audio, b"\x97\x02\x0F\x42\x40\x11", 0),
    (Audio, b"\x97\x02\x00\x00\x01\xF0", 0),
    // Negative times, and both ends.
    (Video, b"\x97\x02\x00\x00\x01\x01avc1\xFF\xFF\xFF", -999_999),
    (Video, b"\x07\x00\x80\x00\x00", -8_388_608_000_000),
    (
        Video,
        b"\x97\x02\x0F\x42\x3F\x01avc1\x7F\xFF\xFF",
        8_388_607_999_999,
    ),
    // Layers that stay: one is cut off, and audio with another high nibble than 9.
    (Video, b"\x97\x00\xAA\x07\x02", 0),
    (Video, b"\x97\x02\x00\x00\x01\x07\x02", 0),
    (Audio, b"\x87\x00\x00\x00", 0),
];

/// Frames with an offset that is refused.
const REFUSED: &[(FrameType, &[u8])] = &[
    (Audio, b"\x97\x00\xAA\x01"),
    (Audio, b"\x97\x01\x00\x00\x00"),
    (Audio, b"\x97\xFF\x00\x01\x00\x00\x01"),
    (Audio, b"\x97\x02\x0F\x42\x40\x00"),
    (Audio, b"\x97\x02\xFF\xFF\xFF\x00"),
    (Audio, b"\x97\x00\x00\x07\x02\x00\x00\x00\x00"),
    (Audio, b"\x97\x02\x00\x00\x00\x07\x00\x00\x00"),
    (Audio, b"\x97\x02\x0F\x42\x40\x07\x02\x00\x00\x00\x00"),
    (Video, b"\x87\x00\x00\x00"),
    (Video, b"\x97\x02\x0F\x42\x40\x01avc1\x00\x00\x00"),
    (Script, b"\x87\x00\x00\x00"),
    (Metadata, b"\x87\x02\x0F\x42\x40\x00"),
];

#[test]
fn the_examples_of_the_request() {
    for &(frame_type, payload, expected) in TIMES {
        for mask in [CAPS_EX_MODEX, u32::MAX] {
            let time = nanoseconds(frame_type, mask, payload);
            assert_eq!(time, Ok(expected), "{payload:02X?}");
        }
    }
    for &(frame_type, payload) in REFUSED {
        for mask in [CAPS_EX_MODEX, u32::MAX] {
            let refused = nanoseconds(frame_type, mask, payload);
            assert_eq!(refused, Err(Refusal::Protocol), "{payload:02X?}");
        }
    }
}

#[test]
fn without_the_bit_of_the_mask_no_layer_has_an_offset() {
    let accepted = TIMES
        .iter()
        .map(|(frame_type, payload, _)| (*frame_type, *payload));
    let layered = |(_, payload): &(_, &[u8])| payload[0] & 0x8F == 0x87;
    for (frame_type, payload) in accepted.filter(layered).chain(REFUSED.iter().copied()) {
        for mask in [0, !CAPS_EX_MODEX] {
            let time = nanoseconds(frame_type, mask, payload);
            assert_eq!(time, Ok(0), "{payload:02X?}");
        }
    }
}

#[test]
fn an_offset_is_judged_last() {
    let payload = b"\x97\x00\xAA\x01";
    let error = |number, room| {
        let mut output = vec![0xA5; room];
        let report = hozgrim_sys::pass(number, payload, CAPS_EX_MODEX, 1, &mut output);
        assert!(output.iter().all(|byte| *byte == 0xA5));
        report.error
    };
    assert_eq!([error(4, 0), error(4, 1)], [-21, -21]);
    // The result is one byte.
    assert_eq!([error(0, 0), error(0, 1), error(0, 4)], [-22, -3, -3]);
    let in_place = |number| {
        let mut placed = *payload;
        let answer = hozgrim_sys::pass_in_place(number, &mut placed, CAPS_EX_MODEX, 1);
        assert_eq!((placed, answer.start), (*payload, 0));
        answer.report.error
    };
    assert_eq!([in_place(4), in_place(0)], [-21, -3]);
}

/// So many layers of type 0, of which the one at this place has the wrong data.
fn chain(count: usize, wrong_at: usize, wrong: &[u8]) -> Vec<u8> {
    let layers = (0..count).flat_map(|at| {
        let data = if at == wrong_at { wrong } else { &[0, 0, 1] };
        let next = if at + 1 < count { MODEX } else { 1 };
        layer(layers::Form::Short, data, next)
    });
    wrapped(layers.collect())
}

#[test]
fn every_layer_that_is_peeled_off_is_judged() {
    for wrong in [&b"\x00"[..], b"\x00\x00", b"\x0F\x42\x40"] {
        for count in [1, 2, 3, 32] {
            for at in 0..count {
                let refused = nanoseconds(Audio, CAPS_EX_MODEX, &chain(count, at, wrong));
                assert_eq!(refused, Err(Refusal::Protocol), "{wrong:02X?}: {at}");
            }
            let right = nanoseconds(Audio, CAPS_EX_MODEX, &chain(count, count, wrong));
            assert_eq!(right, Ok(1));
        }
        // More than 32 stay.
        for at in 0..=33 {
            let time = nanoseconds(Audio, CAPS_EX_MODEX, &chain(33, at, wrong));
            assert_eq!(time, Ok(0), "{wrong:02X?}: {at}");
        }
    }
}

/// A result without layers, and the milliseconds of its header.
fn random_result(rng: &mut Rng) -> (FrameType, Vec<u8>, i64) {
    let time = rng.bytes(3);
    let milliseconds = i32::from_be_bytes([time[0], time[1], time[2], 0]) >> 8;
    let behind = |front: &[u8]| [front, &time].concat();
    match rng.below(8) {
        0 => (Audio, behind(b"\x91Opus"), 0),
        1 => (Script, behind(b"\x91"), 0),
        2 => (Metadata, behind(b"\x91"), 0),
        3 => (Video, behind(b"\x93avc1"), 0),
        4 => (Video, behind(b"\x91vp09"), 0),
        5 => (Video, behind(b"\x91avc1")[..7].to_vec(), 0),
        _ => {
            let front = *rng.pick(&[b"\x91avc1", b"\xA1hvc1", b"\x91vvc1"]);
            (Video, behind(front), milliseconds.into())
        }
    }
}

/// The time is the sum, milliseconds and offset are those that it was made of, and all else is what
/// the result has by itself.
#[test]
fn milliseconds_and_offset_come_back() {
    let mut rng = Rng::new(1);
    let (mut refused, mut negative) = (0, 0);
    for _ in 0..50_000 {
        let layers = random_layers(&mut rng);
        let layers = new_layers(&layers);
        let (frame_type, result, milliseconds) = random_result(&mut rng);
        let payload = write_modex(frame_type, &layers, &result).expect("it can be written");
        let answer = answered(frame_type, CAPS_EX_MODEX, &payload);
        let Some(offset) = offset(&layers) else {
            assert_eq!(answer, Err(Refusal::Protocol), "{payload:02X?}");
            refused += 1;
            continue;
        };
        let report = answer.expect("no offset is refused");
        let time = report.composition_time;
        let nanoseconds = milliseconds * 1_000_000 + i64::from(offset);
        assert_eq!(time.nanoseconds(), nanoseconds, "{payload:02X?}");
        let parts = (time.milliseconds(), time.offset());
        assert_eq!(parts, (milliseconds, offset), "{payload:02X?}");
        let mut alone = unpeeled(frame_type, &result, true);
        assert_eq!(
            alone.composition_time.nanoseconds(),
            milliseconds * 1_000_000
        );
        alone.composition_time = time;
        assert_eq!(report, alone, "{payload:02X?}");
        negative += usize::from(nanoseconds < 0 && offset > 0);
    }
    assert!(refused > 5_000 && negative > 1_000, "{refused}, {negative}");
}

#[test]
fn every_time_is_split_by_rounding_down() {
    let edges = [
        (0, 0, 0),
        (1, 0, 1),
        (-1, -1, 999_999),
        (999_999, 0, 999_999),
        (-999_999, -1, 1),
        (1_000_000, 1, 0),
        (-1_000_000, -1, 0),
        (-1_000_001, -2, 999_999),
        (-8_388_608_000_000, -8_388_608, 0),
        (8_388_607_999_999, 8_388_607, 999_999),
        (i64::MAX, 9_223_372_036_854, 775_807),
        (i64::MIN, -9_223_372_036_855, 224_192),
    ];
    for (ns, milliseconds, offset) in edges {
        let expected = HozgrimSplitTime {
            milliseconds,
            offset,
        };
        assert_eq!(hozgrim_sys::split_time(ns), expected, "{ns}");
        assert_eq!(numbers::split_time(ns), expected, "{ns}");
    }
    let mut rng = Rng::new(1);
    let random = iter::repeat_with(|| rng.number().cast_signed() >> rng.below(64));
    for ns in random.take(100_000) {
        let split = numbers::split_time(ns);
        assert_eq!(hozgrim_sys::split_time(ns), split, "{ns}");
        let sum = i128::from(split.milliseconds) * 1_000_000 + i128::from(split.offset);
        assert!(sum == ns.into() && split.offset <= LIMIT, "{ns}: {split:?}");
    }
}

#[test]
fn times_as_numbers_and_words() {
    let times = [-1_000_001, -999_999, -1, 0, 42, 40_000_000].map(CompositionTime::from);
    assert!(times.is_sorted());
    assert_eq!(
        times.map(i64::from),
        [-1_000_001, -999_999, -1, 0, 42, 40_000_000]
    );
    let words = times.map(|time| time.to_string());
    let expected = [
        "-2 ms + 999999 ns",
        "-1 ms + 1 ns",
        "-1 ms + 999999 ns",
        "0 ms + 0 ns",
        "0 ms + 42 ns",
        "40 ms + 0 ns",
    ];
    assert_eq!(words, expected);
    assert_eq!(format!("{:?}", times[0]), "CompositionTime(-1000001)");
}
