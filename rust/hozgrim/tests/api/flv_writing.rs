//! What is written of FLV files, what is refused, and what is left alone: request N3 of
//! docs/REQUIREMENTS.md.

use common::rng::Rng;
use hozgrim::FrameType::{Audio, Metadata, Script, Video};
use hozgrim::{FlvFrame, FlvReader, Refusal, flv_start, write_flv_frame};
use hozgrim_sys::{HozgrimWritten, flv_write_frame, flv_write_start};

use crate::flv_reading::{Owned, START, frame, lent, tag};
use crate::numbers;
use crate::writers::keeps_what_is_behind;

/// The longest body that is written.
const LONGEST: usize = 16_777_215;

fn audio(timestamp: u32, payload: &[u8]) -> FlvFrame<'_> {
    frame(Audio, timestamp, payload)
}

/// What an entry answers.
fn answered(answer: HozgrimWritten) -> Result<usize, i32> {
    match answer {
        HozgrimWritten { error: 0, length } => Ok(length),
        HozgrimWritten { error, length: 0 } => Err(error),
        other => panic!("{other:?}"),
    }
}

#[test]
fn a_start_is_written() {
    assert_eq!(flv_start(), START);
    let too_short = Refusal::OutputTooShort;
    keeps_what_is_behind(13, |output| {
        let answer = answered(flv_write_start(output));
        if let Ok(length) = answer {
            assert_eq!(&output[..length], START);
        }
        answer.map_err(|error| {
            assert_eq!(error, too_short.number());
            too_short
        })
    });
}

#[test]
fn frames_are_written_as_tags() {
    let types = [(Audio, 8), (Video, 9), (Script, 18)];
    for (frame_type, type_byte) in types {
        for timestamp in [0, 40, 16_777_216, 0x0102_0304, 1 << 31, u32::MAX] {
            for payload in [&b""[..], b"\xAA", &[0x5A; 300], &[0xA5; 70_000]] {
                let frame = frame(frame_type, timestamp, payload);
                let mut file = vec![];
                write_flv_frame(frame, &mut file).expect("it is written");
                assert!(file == tag(type_byte, timestamp, payload), "{frame:?}");
                assert_eq!(file.len(), frame.tag_len());
            }
        }
    }
}

#[test]
fn an_output_of_the_exact_length_is_long_enough() {
    for payload in [&b""[..], b"\xAA\xBB\xCC"] {
        let frame = audio(7, payload);
        assert_eq!(frame.tag_len(), payload.len() + 15);
        keeps_what_is_behind(frame.tag_len(), |output| {
            let answer = frame.write_tag(output);
            if let Ok(length) = answer {
                assert_eq!(output[..length], tag(8, 7, payload));
            }
            answer
        });
    }
}

/// Writable frames, and a file of them.
fn random_frames(rng: &mut Rng) -> (Vec<Owned>, Vec<u8>) {
    let mut file = flv_start().to_vec();
    let frames: Vec<_> = (0..rng.below(8))
        .map(|_| {
            let frame_type = *rng.pick(&[Audio, Video, Script]);
            let length = if rng.one_in(8) { 300 } else { rng.below(5) };
            (frame_type, rng.number() as u32, rng.bytes(length))
        })
        .collect();
    for frame in &frames {
        write_flv_frame(lent(frame), &mut file).expect("it is written");
    }
    (frames, file)
}

#[test]
fn what_is_written_is_read_back() {
    let mut rng = Rng::new(1);
    for _ in 0..20_000 {
        let (frames, file) = random_frames(&mut rng);
        let read = FlvReader::new(&file).expect("the start is right");
        assert!(read.clone().eq(frames.iter().map(|frame| Ok(lent(frame)))));
        let mut again = flv_start().to_vec();
        for frame in read {
            write_flv_frame(frame.expect("it was read"), &mut again).expect("it is written");
        }
        assert_eq!(again, file);
    }
}

#[test]
fn the_longest_body_is_written_and_read_back() {
    let payload = vec![0x5A; LONGEST];
    let mut file = flv_start().to_vec();
    write_flv_frame(audio(0, &payload), &mut file).expect("it is written");
    assert_eq!(file.len(), 13 + LONGEST + 15);
    let mut frames = FlvReader::new(&file).expect("the start is right");
    assert!(frames.next() == Some(Ok(audio(0, &payload))));
    assert!(frames.next().is_none());
}

#[test]
fn the_order_of_refusals() {
    let long = vec![0x5A; LONGEST + 1];
    let mut room = vec![0xA5; LONGEST + 16];
    let rows: [(u32, &[u8], usize, i32); 9] = [
        (3, &long, room.len(), -21),
        (3, b"", 15, -21),
        (3, b"", 0, -21),
        (4, b"", 15, -21),
        (256, b"", 15, -21),
        (u32::MAX, &long, 0, -21),
        (0, &long, room.len(), -27),
        (2, &long, 0, -27),
        (1, &long[..LONGEST], LONGEST + 14, -22),
    ];
    for (frame_type, body, lent, error) in rows {
        let output = &mut room[..lent];
        let answer = flv_write_frame(frame_type, 0, body, output);
        assert_eq!(answered(answer), Err(error));
        assert_eq!(
            numbers::flv_write_frame(frame_type, 0, body, output),
            answer
        );
        assert!(output.iter().all(|byte| *byte == 0xA5));
    }
}

#[test]
fn a_refused_frame_appends_nothing() {
    let long = vec![0x5A; LONGEST + 1];
    for (refused, refusal) in [
        (frame(Metadata, 0, b"\xAA"), Refusal::UnknownFrameType),
        (frame(Metadata, 0, &long), Refusal::UnknownFrameType),
        (audio(0, &long), Refusal::BadLength),
    ] {
        let mut file = b"what was there".to_vec();
        assert_eq!(write_flv_frame(refused, &mut file), Err(refusal));
        assert_eq!(file, b"what was there");
        write_flv_frame(audio(0, b""), &mut file).expect("it is written");
        assert_eq!(file, [b"what was there", &tag(8, 0, b"")[..]].concat());
    }
}

#[test]
fn a_vector_with_room_is_not_moved() {
    let frame = audio(0, b"\xAA\xBB");
    let mut file = Vec::with_capacity(13 + 2 * frame.tag_len());
    file.extend_from_slice(&flv_start());
    let (place, capacity) = (file.as_ptr(), file.capacity());
    for _ in 0..2 {
        write_flv_frame(frame, &mut file).expect("it is written");
    }
    assert_eq!((file.as_ptr(), file.capacity()), (place, capacity));
    assert_eq!(file.len(), 13 + 2 * frame.tag_len());
}
