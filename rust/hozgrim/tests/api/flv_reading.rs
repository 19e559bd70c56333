//! What is read of FLV files, and what is refused: request N3 of docs/REQUIREMENTS.md, by its
//! examples. Every answer is asked for twice: of the entry, and of the package.

use std::iter;

use common::rng::Rng;
use hozgrim::FrameType::{self, Audio, Script, Video};
use hozgrim::Refusal::{self, NotFlv, Truncated, WrongBackPointer};
use hozgrim::{FlvFrame, FlvReader};
use hozgrim_sys::HozgrimFlvFrame;

use crate::numbers;

pub const START: &[u8] = b"FLV\x01\x05\x00\x00\x00\x09\x00\x00\x00\x00";

/// The most that a head can say.
const LONGEST: usize = 16_777_215;

/// A tag with a right back-pointer.
pub fn tag(type_byte: u8, timestamp: u32, body: &[u8]) -> Vec<u8> {
    let [highest, time @ ..] = timestamp.to_be_bytes();
    let [_, length @ ..] = (body.len() as u32).to_be_bytes();
    let back_pointer = (body.len() as u32 + 11).to_be_bytes();
    let stream_id = &[0; 3];
    [
        &[type_byte][..],
        &length,
        &time,
        &[highest],
        stream_id,
        body,
        &back_pointer,
    ]
    .concat()
}

/// An empty audio frame at time 0.
fn empty() -> Vec<u8> {
    tag(8, 0, b"")
}

/// A start and what stands behind it.
fn file(parts: &[&[u8]]) -> Vec<u8> {
    [START, &parts.concat()].concat()
}

pub fn frame(frame_type: FrameType, timestamp: u32, payload: &[u8]) -> FlvFrame<'_> {
    FlvFrame {
        frame_type,
        timestamp,
        payload,
    }
}

/// The start of a file: why it is refused.
fn started(file: &[u8]) -> Option<Refusal> {
    let start = numbers::flv_start(file);
    assert_eq!(start, hozgrim_sys::flv_start(file), "{file:02X?}");
    let refused = FlvReader::new(file).err();
    assert_eq!(start.next, if refused.is_none() { 13 } else { 0 });
    refused
}

/// What a step from a place says.
fn step(file: &[u8], at: usize) -> HozgrimFlvFrame {
    let answer = numbers::flv_next(file, at);
    assert_eq!(answer, hozgrim_sys::flv_next(file, at), "{at}");
    answer
}

/// The frames of a file, and why it is refused behind them. Whoever goes on behind the end gets
/// nothing more.
fn read(file: &[u8]) -> (Vec<FlvFrame<'_>>, Option<Refusal>) {
    let mut frames = vec![];
    if let Some(refusal) = started(file) {
        return (frames, Some(refusal));
    }
    let mut reader = FlvReader::new(file).expect("the start is right");
    let refusal = loop {
        let answer = step(file, reader.place());
        let (least, most) = reader.size_hint();
        match reader.next() {
            Some(item) => {
                assert!(least == 0 && most > Some(0));
                match item {
                    Ok(frame) => {
                        assert_eq!(reader.place(), answer.next);
                        let left = reader.size_hint().1;
                        assert!(left < most, "{left:?}, {most:?}");
                        frames.push(frame);
                    }
                    Err(refusal) => break Some(refusal),
                }
            }
            None => break None,
        }
    };
    if refusal.is_none() {
        assert_eq!(reader.place(), file.len());
    }
    for _ in 0..3 {
        assert_eq!(reader.size_hint(), (0, Some(0)));
        assert_eq!(reader.next(), None);
    }
    (frames, refusal)
}

/// No frame, and this refusal.
#[track_caller]
fn refused(file: &[u8], refusal: Refusal) {
    assert_eq!(read(file), (vec![], Some(refusal)), "{file:02X?}");
}

#[test]
fn a_start_is_judged_place_by_place() {
    for length in 0..9 {
        assert_eq!(started(&vec![0; length]), Some(Truncated));
    }
    for length in 9..20 {
        assert_eq!(started(&vec![0; length]), Some(NotFlv));
    }
    for length in 0..13 {
        assert_eq!(started(&START[..length]), Some(Truncated));
    }
    let header = &START[..9];
    for (behind, refusal) in [
        (&b"\x00\x00\x01"[..], Truncated),
        (b"\x01\x00\x00", Truncated),
        (b"\x00\x00\x00\x01", WrongBackPointer),
        (b"\x00\x00\x00\x01\x00", WrongBackPointer),
        (b"\x00\x00\x00\x09", WrongBackPointer),
    ] {
        refused(&[header, behind].concat(), refusal);
    }
    assert_eq!(started(START), None);
}

#[test]
fn every_bit_of_a_start_but_the_flags_counts() {
    for at in 0..13 {
        for bit in 0..8 {
            let mut changed = START.to_vec();
            changed[at] ^= 1 << bit;
            let refusal = match at {
                4 => None,
                0..9 => Some(NotFlv),
                _ => Some(WrongBackPointer),
            };
            assert_eq!(started(&changed), refusal, "{changed:02X?}");
            let cut = match at {
                4 => Some(Truncated),
                0..9 => Some(NotFlv),
                _ => Some(Truncated),
            };
            assert_eq!(started(&changed[..12]), cut, "{changed:02X?}");
        }
    }
    for flags in 0..=u8::MAX {
        let mut changed = START.to_vec();
        changed[4] = flags;
        assert_eq!(read(&changed), (vec![], None));
    }
}

#[test]
fn a_start_alone_has_no_frames() {
    assert_eq!(read(START), (vec![], None));
    let end = HozgrimFlvFrame {
        next: 13,
        ..HozgrimFlvFrame::default()
    };
    assert_eq!(step(START, 13), end);
}

#[test]
fn frames_of_each_type() {
    let bytes = file(&[
        &tag(18, 0, b"\x02"),
        &tag(9, 40, b"\x17\x01\x00"),
        &tag(8, 23, b""),
    ]);
    let expected = vec![
        frame(Script, 0, b"\x02"),
        frame(Video, 40, b"\x17\x01\x00"),
        frame(Audio, 23, b""),
    ];
    assert_eq!(read(&bytes), (expected, None));
    let second = HozgrimFlvFrame {
        error: 0,
        found: 1,
        frame_type: 1,
        timestamp: 40,
        start: 13 + 16 + 11,
        length: 3,
        next: 13 + 16 + 18,
    };
    assert_eq!(step(&bytes, 13 + 16), second);
}

#[test]
fn whole_type_bytes_are_read() {
    for type_byte in 0..=u8::MAX {
        let bytes = file(&[&tag(type_byte, 7, b"\xAA"), &empty()]);
        let first = match type_byte {
            8 => Some(Audio),
            9 => Some(Video),
            18 => Some(Script),
            _ => None,
        };
        let first = first.map(|frame_type| frame(frame_type, 7, b"\xAA"));
        let expected = first.into_iter().chain([frame(Audio, 0, b"")]);
        assert_eq!(read(&bytes), (expected.collect(), None), "{type_byte}");
        let alone = &bytes[..bytes.len() - 15];
        assert_eq!(read(alone), (first.into_iter().collect(), None));
    }
}

#[test]
fn times_have_32_bits() {
    for (time, expected) in [
        (b"\x00\x00\x01\x80", 2_147_483_649),
        (b"\x01\x02\x03\x04", 0x0401_0203),
        (b"\x00\x00\x00\x01", 16_777_216),
        (b"\xFF\xFF\xFF\x00", 16_777_215),
        (b"\xFF\xFF\xFF\xFF", u32::MAX),
    ] {
        let mut bytes = file(&[&empty()]);
        bytes[13 + 4..13 + 8].copy_from_slice(time);
        assert_eq!(read(&bytes), (vec![frame(Audio, expected, b"")], None));
    }
}

#[test]
fn stream_ids_are_not_read() {
    for stream_id in [[0xFF; 3], [0, 0, 1], [1, 0, 0]] {
        for type_byte in [8, 0x28] {
            let mut bytes = file(&[&tag(type_byte, 0, b"\xAA")]);
            bytes[13 + 8..13 + 11].copy_from_slice(&stream_id);
            let (frames, refusal) = read(&bytes);
            assert_eq!(frames.len(), usize::from(type_byte == 8));
            assert_eq!(refusal, None);
        }
    }
}

#[test]
fn every_bit_of_a_back_pointer_counts() {
    for type_byte in [8, 9, 18, 0, 0x29] {
        for body in [&b""[..], b"\x00\x00\x00\x0B", &[0x5A; 300]] {
            let bytes = file(&[&empty(), &tag(type_byte, 0, body), &empty()]);
            let back_pointer = bytes.len() - 19;
            for at in back_pointer..back_pointer + 4 {
                for bit in 0..8 {
                    let mut changed = bytes.clone();
                    changed[at] ^= 1 << bit;
                    let first = vec![frame(Audio, 0, b"")];
                    assert_eq!(read(&changed), (first, Some(WrongBackPointer)));
                }
            }
        }
    }
    let mut longer = file(&[&empty()]);
    longer[13 + 14] = 0x0C;
    refused(&longer, WrongBackPointer);
    let body_alone = file(&[b"\x08\x00\x00\x01\x00\x00\x00\x00\x00\x00\x00\xAA\x00\x00\x00\x01"]);
    refused(&body_alone, WrongBackPointer);
}

#[test]
fn a_back_pointer_that_is_cut_is_not_judged() {
    for type_byte in [8, 0] {
        let mut bytes = file(&[&tag(type_byte, 0, b"\xAA")]);
        let end = bytes.len();
        bytes[end - 4..].fill(0xFF);
        refused(&bytes, WrongBackPointer);
        for cut in 1..=4 {
            refused(&bytes[..end - cut], Truncated);
        }
    }
    refused(&file(&[&[0; 15]]), WrongBackPointer);
    refused(&file(&[&[0; 14]]), Truncated);
}

#[test]
fn bytes_behind_the_last_tag_are_a_cut_head() {
    for more in 1..11 {
        for byte in [0x00, 0x08, 0xFF] {
            let bytes = file(&[&empty(), &vec![byte; more]]);
            let (frames, refusal) = read(&bytes);
            assert_eq!((frames.len(), refusal), (1, Some(Truncated)));
        }
    }
}

#[test]
fn other_tags_have_any_length() {
    let other = tag(0, 0, &vec![0x08; LONGEST]);
    let bytes = file(&[&other, &empty(), &other, &empty(), &other]);
    let (frames, refusal) = read(&bytes);
    assert_eq!((frames.len(), refusal), (2, None));
    let (frames, refusal) = read(&bytes[..bytes.len() - 1]);
    assert_eq!((frames.len(), refusal), (2, Some(Truncated)));
}

#[test]
fn frames_have_any_length() {
    for (type_byte, length) in [
        (8, 32_768),
        (8, 32_769),
        (9, 65_536),
        (18, 32_769),
        (9, LONGEST),
    ] {
        let bytes = file(&[&tag(type_byte, 0, &vec![0x5A; length])]);
        let (frames, refusal) = read(&bytes);
        assert_eq!((frames.len(), refusal), (1, None));
        assert_eq!(frames[0].payload, vec![0x5A; length]);
        refused(&bytes[..bytes.len() - 1], Truncated);
    }
    refused(&file(&[b"\x08\x00\x80\x01\0\0\0\0\0\0\0"]), Truncated);
}

#[test]
fn a_fault_in_a_tag_that_is_stepped_over_is_the_answer() {
    let mut wrong = tag(0, 0, b"\xAA");
    wrong[15] ^= 1;
    refused(&file(&[&wrong, &empty()]), WrongBackPointer);
    let bytes = file(&[&tag(0, 0, b""), &wrong, &empty()]);
    refused(&bytes, WrongBackPointer);
    let unread = FlvReader::new(&bytes).expect("the start is right").nth(1);
    assert_eq!(unread, None);
}

#[test]
fn many_tags_are_stepped_over() {
    let others: Vec<u8> = iter::repeat_n(tag(0x32, 0, b""), 10_000)
        .flatten()
        .collect();
    let bytes = file(&[&others, &empty()]);
    let found = step(&bytes, 13);
    assert_eq!((found.found, found.next), (1, bytes.len()));
    let end = step(&bytes[..bytes.len() - 15], 13);
    assert_eq!((end.found, end.next), (0, bytes.len() - 15));
}

#[test]
fn places_behind_the_end() {
    for bytes in [&b""[..], START, &file(&[&empty()])] {
        let end = HozgrimFlvFrame {
            next: bytes.len(),
            ..HozgrimFlvFrame::default()
        };
        assert_eq!(step(bytes, bytes.len()), end);
        let near = (1..40).map(|more| bytes.len() + more);
        let far = (0..40).map(|less| usize::MAX - less);
        let middle = [1 << 31, 1 << 32, 1 << 63, (1 << 63) - 1];
        for at in near.chain(far).chain(middle) {
            let cut = HozgrimFlvFrame {
                error: -25,
                ..HozgrimFlvFrame::default()
            };
            assert_eq!(step(bytes, at), cut, "{at}");
            let mut reader = FlvReader::resume(bytes, at);
            assert_eq!(reader.size_hint(), (0, Some(1)));
            assert_eq!(reader.next(), Some(Err(Truncated)));
            assert_eq!(reader.next(), None);
        }
    }
}

#[test]
fn what_stands_at_a_place_is_read_as_a_tag() {
    let mut rng = Rng::new(1);
    for _ in 0..200 {
        let (bytes, _) = random_file(&mut rng);
        for at in 0..=bytes.len() {
            let ahead = step(&bytes[at..], 0);
            let found = ahead.found as usize;
            let clean = usize::from(ahead.error == 0);
            let moved = HozgrimFlvFrame {
                start: ahead.start + found * at,
                next: ahead.next + clean * at,
                ..ahead
            };
            assert_eq!(step(&bytes, at), moved, "{at} {bytes:02X?}");
        }
    }
}

/// A frame with a payload of its own.
pub type Owned = (FrameType, u32, Vec<u8>);

pub fn lent((frame_type, timestamp, payload): &Owned) -> FlvFrame<'_> {
    frame(*frame_type, *timestamp, payload)
}

/// A readable file, and its tags: where each ends, and the frame that it is.
pub type Whole = (Vec<u8>, Vec<(usize, Option<Owned>)>);

/// Frames and other tags, with any flags, times and stream ids.
pub fn random_file(rng: &mut Rng) -> Whole {
    let mut bytes = START.to_vec();
    bytes[4] = rng.byte();
    let mut tags = vec![];
    for _ in 0..rng.below(6) {
        let (type_byte, frame_type) = *rng.pick(&[
            (8, Some(Audio)),
            (9, Some(Video)),
            (18, Some(Script)),
            (0, None),
            (15, None),
            (0x28, None),
            (0x32, None),
            (0xFF, None),
        ]);
        let timestamp = rng.number() as u32;
        let length = if rng.one_in(16) { 300 } else { rng.below(4) };
        let body = rng.bytes(length);
        let mut tag = tag(type_byte, timestamp, &body);
        tag[8..11].copy_from_slice(&rng.bytes(3));
        bytes.extend(tag);
        let frame = frame_type.map(|frame_type| (frame_type, timestamp, body));
        tags.push((bytes.len(), frame));
    }
    (bytes, tags)
}

#[test]
fn a_file_that_is_cut_anywhere() {
    let mut rng = Rng::new(2);
    for _ in 0..100 {
        let (bytes, tags) = random_file(&mut rng);
        for cut in 13..=bytes.len() {
            let kept = tags.iter().take_while(|(end, _)| *end <= cut);
            let frames = kept.clone().filter_map(|(_, frame)| frame.as_ref());
            let frames = frames.map(lent);
            let end = kept.last().map_or(13, |(end, _)| *end);
            let refusal = (end != cut).then_some(Truncated);
            assert_eq!(read(&bytes[..cut]), (frames.collect(), refusal));
        }
    }
}

#[test]
fn a_cut_file_is_gone_on_with_when_it_has_grown() {
    let mut rng = Rng::new(3);
    for _ in 0..100 {
        let (bytes, _) = random_file(&mut rng);
        let (expected, _) = read(&bytes);
        for cut in 13..=bytes.len() {
            let mut reader = FlvReader::new(&bytes[..cut]).expect("the start is right");
            let before = reader.by_ref().map_while(Result::ok);
            let before: Vec<FlvFrame> = before.collect();
            let rest = FlvReader::resume(&bytes, reader.place());
            let rest = rest.map(|item| item.expect("the rest is right"));
            assert!(before.into_iter().chain(rest).eq(expected.iter().copied()));
        }
    }
}

#[test]
fn no_byte_of_a_body_counts() {
    let mut rng = Rng::new(4);
    for _ in 0..200 {
        let (bytes, tags) = random_file(&mut rng);
        let mut changed = bytes.clone();
        let mut begin = 13;
        for (end, _) in &tags {
            let length = end - begin - 15;
            changed[begin + 11..begin + 11 + length].copy_from_slice(&rng.bytes(length));
            begin = *end;
        }
        for cut in 13..=bytes.len() {
            let places = tags.iter().map(|(end, _)| *end).chain([13]);
            for at in places.filter(|at| *at <= cut) {
                assert_eq!(step(&bytes[..cut], at), step(&changed[..cut], at));
            }
        }
    }
}

#[test]
fn a_copy_of_a_reader_goes_its_own_way() {
    let bytes = file(&[&tag(8, 1, b""), &tag(9, 2, b"")]);
    let mut reader = FlvReader::new(&bytes).expect("the start is right");
    let copy = reader.clone();
    assert_eq!(reader.next(), Some(Ok(frame(Audio, 1, b""))));
    assert_eq!(reader.last(), Some(Ok(frame(Video, 2, b""))));
    assert_eq!(copy.count(), 2);
}
