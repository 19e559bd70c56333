//! Payloads that begin with a tag header: the inputs of the header comparisons.

use common::layers;
use common::rng::Rng;
use common::strings;

use crate::fourcc::{FOURCCS, Fourcc};
use crate::run::Comparison;

/// FourCCs that are in no table.
pub const UNKNOWN: [[u8; 4]; 6] = [
    [0x00; 4], [0xFF; 4], *b"AVC1", *b"hev1", *b"opus", *b"mp3\0",
];

/// What stands behind a FourCC: a time, and one byte more.
const BEHIND: [[u8; 4]; 4] = [
    [0x00, 0x00, 0x01, 0xAA],
    [0x7F, 0xFF, 0xFF, 0x00],
    [0x80, 0x00, 0x00, 0xAA],
    [0xFF; 4],
];

/// Bytes 0 that a header tells apart.
const FIRST: [u8; 20] = [
    0x07, 0x12, 0x17, 0x27, 0x57, 0x81, 0x84, 0x90, 0x91, 0x95, 0x97, 0xA1, 0xAF, 0xB1, 0xC0, 0xD0,
    0xD1, 0xD4, 0xD7, 0xE0,
];

/// Every payload of 0 to 2 bytes, and every byte 0 before FourCCs.
pub fn listed() -> impl Iterator<Item = Vec<u8>> {
    strings::up_to_two_bytes().chain(before_fourccs())
}

/// Every byte 0 before FourCCs.
pub fn before_fourccs() -> impl Iterator<Item = Vec<u8>> {
    let whole = |first| cut_off(first).chain(damaged(first));
    (0..=u8::MAX).flat_map(whole)
}

/// This byte 0, each FourCC and 4 bytes behind it, whole and cut off at every byte.
fn cut_off(first: u8) -> impl Iterator<Item = Vec<u8>> {
    let fourccs = FOURCCS.into_iter().chain(UNKNOWN);
    let whole = move |fourcc| BEHIND.map(|behind| payload(first, fourcc, behind));
    let cut = |whole| layers::truncations(whole).skip(1);
    fourccs.flat_map(whole).flat_map(cut)
}

/// This byte 0, and each FourCC with each of its bits changed.
fn damaged(first: u8) -> impl Iterator<Item = Vec<u8>> {
    FOURCCS.into_iter().flat_map(move |fourcc| {
        (0..u32::BITS).map(move |bit| {
            let changed = u32::from_be_bytes(fourcc) ^ 1 << bit;
            payload(first, changed.to_be_bytes(), BEHIND[2])
        })
    })
}

fn payload(first: u8, fourcc: [u8; 4], behind: [u8; 4]) -> Vec<u8> {
    [&[first], &fourcc[..], &behind].concat()
}

/// A byte 0 and a random FourCC with what is behind it. Once in eight more bytes follow.
pub fn random(rng: &mut Rng) -> Vec<u8> {
    let first = if rng.one_in(2) {
        *rng.pick(&FIRST)
    } else {
        rng.byte()
    };
    let mut payload = vec![first];
    payload.extend(Fourcc::random(rng));
    if rng.one_in(8) {
        let more = rng.below(300);
        payload.extend(rng.bytes(more));
    }
    payload
}
