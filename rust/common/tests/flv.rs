//! What is asked of a reader and of a writer of FLV files, on the files that the request's readings
//! tell apart.

use common::flv::{self, FrameArguments, START, Tag, bodies, frames, tag, tags, whole};
use common::recordings::{OTHER_TYPES, Recording, four_tags};
use common::writing::{Arguments, error};

/// An empty audio tag.
const EMPTY: &[u8] = b"\x08\0\0\0\0\0\0\0\0\0\0\0\0\0\x0B";

/// How many frames a file has, and the error that they end with, or 0.
fn read(parts: &[&[u8]]) -> (usize, i32) {
    let file = parts.concat();
    let found: Vec<_> = whole(&file).collect();
    let error = found.iter().find_map(|frame| frame.err());
    let count = found.iter().flatten().count();
    (count, error.map_or(0, |(number, _)| number))
}

/// The error of the start alone.
fn start_error(file: &[u8]) -> i32 {
    flv::start(file).map_or_else(|(number, _)| number, |next| (next != 13).into())
}

#[test]
fn places_are_judged_in_their_order() {
    assert_eq!(start_error(b"\x00"), -25);
    assert_eq!(start_error(&[0; 8]), -25);
    assert_eq!(start_error(&[0; 9]), -29);
    let header = b"FLV\x01\x05\0\0\0\x09";
    let behind = |bytes: &[u8]| start_error(&[header, bytes].concat());
    assert_eq!(behind(b""), -25);
    assert_eq!(behind(b"\0\0\x01"), -25);
    assert_eq!(behind(b"\0\0\0\x01"), -30);
    assert_eq!(behind(b"\0\0\0\x01\0"), -30);
    assert_eq!(behind(b"\0\0\0\0"), 0);
}

#[test]
fn ends() {
    assert_eq!(read(&[]), (0, -25));
    assert_eq!(read(&[START]), (0, 0));
    assert_eq!(read(&[START, EMPTY]), (1, 0));
    assert_eq!(read(&[START, EMPTY, b"\0"]), (1, -25));
    assert_eq!(read(&[START, EMPTY, &[0; 10]]), (1, -25));
    assert_eq!(read(&[START, b"\x08\0\0\x01\0\0\0\0\0\0\0\xAF"]), (0, -25));
}

#[test]
fn other_tags_have_their_back_pointers_judged() {
    let other = tag(0, 0, b"");
    assert_eq!(read(&[START, &other]), (0, 0));
    assert_eq!(read(&[START, &other[..14]]), (0, -25));
    assert_eq!(read(&[START, &[0; 15]]), (0, -30));
    assert_eq!(read(&[START, &[0; 14]]), (0, -25));
    assert_eq!(read(&[START, &[0; 15], EMPTY]), (0, -30));
    assert_eq!(read(&[START, &other, EMPTY, EMPTY]), (2, 0));
}

#[test]
fn types_are_whole_bytes() {
    let typed = |byte| read(&[START, &tag(byte, 0, b"")]);
    for (number, byte) in [8, 9, 18].into_iter().enumerate() {
        assert_eq!(typed(byte), (1, 0));
        let found = Tag::at(&tag(byte, 0, b""), 0).expect("it is whole");
        assert_eq!(found.head.frame_type(), Some(number as u32));
    }
    for byte in OTHER_TYPES {
        assert_eq!(typed(byte), (0, 0), "{byte:02X}");
    }
}

#[test]
fn other_tags_of_any_length() {
    let longest = tag(0x29, 0, &vec![0; 16_777_215]);
    assert_eq!(read(&[START, &longest, EMPTY]), (1, 0));
    assert_eq!(read(&[START, &longest[..longest.len() - 1]]), (0, -25));
}

#[test]
fn every_byte_of_a_back_pointer_counts() {
    for at in 11..15 {
        let mut wrong = EMPTY.to_vec();
        wrong[at] ^= 1;
        assert_eq!(read(&[START, &wrong]), (0, -30));
        assert_eq!(read(&[START, EMPTY, &wrong, EMPTY]), (1, -30));
    }
    assert_eq!(read(&[START, &EMPTY[..14], b"\x0C"]), (0, -30));
}

#[test]
fn times_have_32_bits() {
    let file = tag(8, 0x8000_0001, b"");
    assert_eq!(&file[4..8], b"\0\0\x01\x80");
    let found = Tag::at(&file, 0).expect("it is whole");
    assert_eq!(found.head.timestamp, 2_147_483_649);
}

#[test]
fn what_is_not_read() {
    let recording = four_tags();
    let found = |file: &[u8]| whole(file).collect::<Vec<_>>();
    let expected = found(&recording.bytes);
    assert_eq!(expected.len(), 2);
    let ids = recording.heads.iter().flat_map(|head| head + 8..head + 11);
    for at in ids.chain([4]) {
        assert_eq!(found(&recording.with_change(at, 0xFF)), expected);
    }
    for body in bodies(&recording.bytes, 13) {
        for at in body {
            assert_eq!(found(&recording.with_change(at, 0xFF)), expected);
        }
    }
}

#[test]
fn the_header() {
    for at in (0..9).filter(|at| *at != 4) {
        for bit in 0..8 {
            let mut file = START.to_vec();
            file[at] ^= 1 << bit;
            assert_eq!(start_error(&file), -29, "{at}");
        }
    }
    assert_eq!(start_error(b"FLV\x01\x05\x01\0\0\x09"), -29);
    assert_eq!(start_error(b"FLV\x01\x05\0\0\0\x0A\0\0\0\0\0"), -29);
}

#[test]
fn places_past_the_end() {
    let file = [START, EMPTY].concat();
    assert_eq!(frames(&file, 28).count(), 0);
    for at in [29, 30, usize::MAX - 1, usize::MAX] {
        let found: Vec<_> = frames(&file, at).collect();
        assert_eq!(found, [Err((-25, "it ends in a tag's head"))]);
    }
    // `46`, an empty body: the places below 13 are read like any other.
    let found: Vec<_> = tags(b"F\0\0\0LV\x01\x05\0\0\0\0\0\0\x0B", 0).collect();
    assert!(found.iter().all(Result::is_ok) && found.len() == 1);
}

#[test]
fn places_of_a_frame() {
    let recording = four_tags();
    let found: Vec<Tag> = whole(&recording.bytes).flatten().collect();
    let of = |tag: &Tag| {
        (
            tag.head.frame_type(),
            tag.head.timestamp,
            tag.body(),
            tag.next,
        )
    };
    assert_eq!(of(&found[0]), (Some(1), 0x8000_0001, 24..29, 33));
    assert_eq!(of(&found[1]), (Some(0), 0x0102_0304, 76..77, 81));
}

#[test]
fn files_cut_at_every_byte() {
    let recording = four_tags();
    let file = &recording.bytes;
    let ends: Vec<usize> = [13]
        .into_iter()
        .chain(tags(file, 13).flatten().map(|tag| tag.next))
        .collect();
    for end in 0..=file.len() {
        let (count, error) = read(&[&file[..end]]);
        let before = whole(file).flatten().filter(|tag| tag.next <= end).count();
        assert_eq!(count, before);
        assert_eq!(error, if ends.contains(&end) { 0 } else { -25 }, "{end}");
    }
}

#[test]
fn what_is_written() {
    let answer = |frame_type, length, room| {
        let call = FrameArguments {
            frame_type,
            timestamp: 0x8000_0001,
            body: vec![0xAF; length],
        };
        match error(&call.reasons(room)) {
            0 => Ok(call.written()),
            error => Err(error),
        }
    };
    let script = b"\x12\0\0\x02\0\0\x01\x80\0\0\0\xAF\xAF\0\0\0\x0D";
    assert_eq!(answer(2, 2, 17).as_deref(), Ok(&script[..]));
    assert_eq!(answer(2, 2, 16), Err(-22));
    assert_eq!(answer(3, 16_777_216, 0), Err(-21));
    assert_eq!(answer(u32::MAX, 0, 100), Err(-21));
    assert_eq!(answer(0, 16_777_216, 0), Err(-27));
    let longest = answer(0, 16_777_215, 1 << 25).expect("it is written");
    assert_eq!(&longest[longest.len() - 4..], b"\x01\0\0\x0A");
}

#[test]
fn what_was_written_reads_back() {
    let given = [
        (8, 0, &b"\xAF\x01"[..]),
        (18, u32::MAX, b""),
        (9, 1 << 24, b"\x17"),
    ];
    let file = Recording::of(given).bytes;
    let found: Vec<Tag> = whole(&file).map(|tag| tag.expect("it is whole")).collect();
    let found = found
        .iter()
        .map(|tag| (tag.head.type_byte, tag.head.timestamp, &file[tag.body()]));
    assert_eq!(found.collect::<Vec<_>>(), given);
}
