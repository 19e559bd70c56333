//! FLV files to try a reader on: whole ones, and such that are cut, damaged or followed by bytes.

use crate::damage::random_damage;
use crate::flv::{BACK_POINTER, HEAD, HEADER, START, TYPE_BYTES, tag};
use crate::rng::Rng;

/// Type bytes of other tags: those of frames with the filter bit or another high bit, their
/// neighbours, and the ends.
pub const OTHER_TYPES: [u8; 14] = [
    0x28, 0x29, 0x32, 0x48, 0x88, 0x89, 0x92, 0x00, 0x07, 0x0A, 0x0F, 0x11, 0x13, 0xFF,
];

/// Times that tell their bytes from one another.
pub const TIMES: [u32; 8] = [
    0,
    1,
    0x00FF_FFFF,
    0x0100_0000,
    0x8000_0001,
    0x1122_3344,
    0x7FFF_FFFF,
    u32::MAX,
];

/// A file, and where its places begin.
#[derive(Clone)]
pub struct Recording {
    pub bytes: Vec<u8>,
    /// The back-pointers, the first one included.
    pub back_pointers: Vec<usize>,
    /// The heads of the tags.
    pub heads: Vec<usize>,
}

impl Default for Recording {
    fn default() -> Self {
        Self {
            bytes: START.to_vec(),
            back_pointers: vec![HEADER],
            heads: vec![],
        }
    }
}

impl Recording {
    pub fn push(&mut self, type_byte: u8, timestamp: u32, body: &[u8]) {
        self.heads.push(self.bytes.len());
        self.bytes.extend(tag(type_byte, timestamp, body));
        self.back_pointers.push(self.bytes.len() - BACK_POINTER);
    }

    /// Of these tags, each a type byte, a time and a body.
    pub fn of<'a>(tags: impl IntoIterator<Item = (u8, u32, &'a [u8])>) -> Self {
        let mut recording = Self::default();
        for (type_byte, timestamp, body) in tags {
            recording.push(type_byte, timestamp, body);
        }
        recording
    }

    /// The file with one bit of one byte changed.
    pub fn with_change(&self, at: usize, bit: u8) -> Vec<u8> {
        let mut file = self.bytes.clone();
        file[at] ^= bit;
        file
    }
}

/// Four tags: frames of two types around two others, the first of which has the filter bit.
pub fn four_tags() -> Recording {
    Recording::of([
        (9, 0x8000_0001, &b"\x17\x01\x00\x00\x00"[..]),
        (0x28, 7, b"\xAF\x01"),
        (0, 8, b""),
        (8, 0x0102_0304, b"\xAF"),
    ])
}

/// Every number that a byte can be, as the type byte of the first of two tags.
pub fn every_type() -> impl Iterator<Item = Vec<u8>> {
    (0..=u8::MAX).map(|first| {
        let recording = Recording::of([(first, 5, &b"\xAF\x01\x21"[..]), (18, 6, b"\x02")]);
        recording.bytes
    })
}

/// A file with one bit of each place changed: every bit of the header, of back-pointers and of
/// heads.
pub fn each_bit_changed(recording: &Recording) -> impl Iterator<Item = Vec<u8>> {
    let back_pointers = recording.back_pointers.iter().map(|at| (*at, BACK_POINTER));
    let heads = recording.heads.iter().map(|at| (*at, HEAD));
    let places = [(0, HEADER)].into_iter().chain(back_pointers).chain(heads);
    let bytes = places.flat_map(|(at, length)| at..at + length);
    bytes.flat_map(move |at| (0..8).map(move |bit| recording.with_change(at, 1 << bit)))
}

/// One of `TIMES`, or any.
pub fn random_time(rng: &mut Rng) -> u32 {
    match rng.below(3) {
        0 => *rng.pick(&TIMES),
        _ => rng.number() as u32,
    }
}

/// Mostly short ones.
pub fn random_body(rng: &mut Rng) -> Vec<u8> {
    let length = match rng.below(2_000) {
        0 => 65_500 + rng.below(100),
        1..20 => 230 + rng.below(50),
        _ => rng.below(6),
    };
    rng.bytes(length)
}

/// Mostly of a few short tags. About a third are whole.
pub fn random_recording(rng: &mut Rng) -> Vec<u8> {
    if rng.one_in(50) {
        let length = rng.below(40);
        return rng.bytes(length);
    }
    let mut recording = Recording::default();
    if rng.one_in(2) {
        recording.bytes[4] = rng.byte();
    }
    let tags = match rng.below(40) {
        0 => 40 + rng.below(200),
        _ => rng.below(6),
    };
    for _ in 0..tags {
        push_random(rng, &mut recording);
    }
    let file = &mut recording.bytes;
    match rng.below(10) {
        0 => {
            let length = rng.below(file.len() + 1);
            file.truncate(length);
        }
        1 => {
            // Within the last tag or the start.
            let least = recording.heads.last().copied().unwrap_or(0);
            file.truncate(least + rng.below(file.len() - least));
        }
        2 => change(rng, file, &recording.back_pointers, BACK_POINTER),
        3 => change(rng, file, &recording.heads, HEAD),
        4 => change(rng, file, &[0], HEADER),
        5 => {
            let more = 1 + rng.below(20);
            file.extend(rng.bytes(more));
        }
        6 => random_damage(rng, file),
        _ => {}
    }
    recording.bytes
}

fn push_random(rng: &mut Rng, recording: &mut Recording) {
    let type_byte = match rng.below(8) {
        0 => rng.byte(),
        1 | 2 => *rng.pick(&OTHER_TYPES),
        _ => *rng.pick(&TYPE_BYTES),
    };
    let timestamp = random_time(rng);
    let body = random_body(rng);
    recording.push(type_byte, timestamp, &body);
    if rng.one_in(2) {
        let head = recording.heads[recording.heads.len() - 1];
        let stream_id = rng.bytes(3);
        recording.bytes[head + HEAD - 3..head + HEAD].copy_from_slice(&stream_id);
    }
}

/// Changes a byte of one of these places, each so long.
fn change(rng: &mut Rng, file: &mut [u8], places: &[usize], length: usize) {
    if !places.is_empty() {
        let at = rng.pick(places) + rng.below(length);
        file[at] ^= 1 << rng.below(8);
    }
}
