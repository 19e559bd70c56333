//! The stored rows of levels. The Rust has none; the answers come from the reading of request N4
//! (docs/REQUIREMENTS.md, section 23) that the port is held against.

use std::collections::HashSet;
use std::io;

use common::g711::{Law, expansion, samples};
use common::writing::{AUDIO, METADATA, SCRIPT, VIDEO};
use hozgrim_sys::HozgrimLevel;

use super::row;
use super::sample::count;
use crate::containers::Candidate;
use crate::level::{FORMATS, Level, REFUSED_TYPES, asked, class, examples};
use crate::run::Comparison;

/// The byte that the program knows the operation by.
const LEVEL: u8 = b'E';

/// The segments of each law, with the decision value that they end at.
const SEGMENTS: [(Law, u32, &str); 15] = [
    (Law::A, 64, "A-law, segment 1"),
    (Law::A, 128, "A-law, segment 2"),
    (Law::A, 256, "A-law, segment 3"),
    (Law::A, 512, "A-law, segment 4"),
    (Law::A, 1_024, "A-law, segment 5"),
    (Law::A, 2_048, "A-law, segment 6"),
    (Law::A, 4_096, "A-law, segment 7"),
    (Law::Mu, 31, "mu-law, segment 1"),
    (Law::Mu, 95, "mu-law, segment 2"),
    (Law::Mu, 223, "mu-law, segment 3"),
    (Law::Mu, 479, "mu-law, segment 4"),
    (Law::Mu, 991, "mu-law, segment 5"),
    (Law::Mu, 2_015, "mu-law, segment 6"),
    (Law::Mu, 4_063, "mu-law, segment 7"),
    (Law::Mu, 8_159, "mu-law, segment 8"),
];

/// The rows, with the lines that are printed for them. Prints the classes of the frames, and of the
/// levels by their segments. No row stands twice.
pub fn rows() -> io::Result<Vec<(Vec<u8>, String)>> {
    let mut frames = stored();
    let mut known = HashSet::new();
    frames.retain(|frame| known.insert(row_of(frame)));
    count("levels", Level::CLASSES, frames.iter().map(class))?;
    let segments = SEGMENTS.map(|(.., name)| name);
    let levels = frames.iter().filter_map(segment_of);
    count("levels, by segment", &segments, levels)?;
    let rows = frames.iter().map(|frame| (row_of(frame), line(frame)));
    Ok(rows.collect())
}

/// The number is the frame type.
fn row_of(frame: &Candidate) -> Vec<u8> {
    row(LEVEL, 0, frame.frame_type, 0, &frame.payload)
}

fn line(frame: &Candidate) -> String {
    let HozgrimLevel { error, level } = asked(frame);
    format!("level {error} {level}")
}

/// Where the level of a frame with samples lies.
fn segment_of(frame: &Candidate) -> Option<&'static str> {
    let (law, codes) = samples(frame.frame_type, &frame.payload)?;
    let level = asked(frame).level;
    let holds = |(of, end, _): &&(Law, u32, _)| *of == law && level < *end;
    let segment = SEGMENTS.iter().find(holds);
    segment
        .filter(|_| !codes.is_empty())
        .map(|(.., name)| *name)
}

fn stored() -> Vec<Candidate> {
    let mut stored: Vec<Candidate> = examples().collect();
    let mut push = |frame_type, payload: &[u8]| {
        stored.push(Candidate {
            frame_type,
            payload: payload.to_vec(),
        });
    };
    for frame_type in REFUSED_TYPES {
        push(frame_type, b"\x80\x80");
    }
    for frame_type in [VIDEO, SCRIPT, METADATA] {
        push(frame_type, b"\x70\x2A");
        push(frame_type, b"\x80\x00");
    }
    for frame_type in [VIDEO, METADATA + 1] {
        push(frame_type, b"");
    }
    for format in FORMATS {
        for bit in 4..8 {
            push(AUDIO, &[format ^ 1 << bit, 0x2A, 0x80]);
        }
    }
    for first in [0x7F, 0x80, 0x87] {
        push(AUDIO, &[first]);
    }
    for (number, (law, end, _)) in SEGMENTS.iter().enumerate() {
        push(AUDIO, &peak(number, *law, *end));
    }
    push(AUDIO, b"\x70\x2A\x55\xAA");
    push(AUDIO, b"\x80\xFF\x00\x80");
    push(AUDIO, b"\x80\xFF\x7F");
    push(AUDIO, &[&[0x72], &[0xD5; 66][..], &[0x2A]].concat());
    push(AUDIO, &[&[0x82], &[0x7F; 66][..], &[0x80]].concat());
    stored
}

/// Three samples, the loudest of which is the last below a decision value. It is the first, the
/// last and the one between in turn, and of either sign; the others are a step below it and of the
/// other sign.
fn peak(number: usize, law: Law, end: u32) -> Vec<u8> {
    let magnitude = |code: &u8| expansion(law, *code).unsigned_abs();
    let loudest = |end, negative| {
        let below = |code: &u8| magnitude(code) < end && (expansion(law, *code) < 0) == negative;
        let codes = (0..=u8::MAX).filter(below);
        codes.max_by_key(magnitude).expect("there are some")
    };
    let negative = number % 2 == 1;
    let peak = loudest(end, negative);
    let other = loudest(magnitude(&peak), !negative);
    let mut payload = vec![FORMATS[law as usize] | number as u8, other, other, other];
    payload[[1, 3, 2][number % 3]] = peak;
    payload
}
