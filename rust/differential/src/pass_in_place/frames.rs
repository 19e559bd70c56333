//! Frames whose payloads are lent: the inputs of the comparison.

use common::damage::random_damage;
use common::layers::Form::{Long, Short};
use common::layers::{self, BYTES, Layer, behind, mend_offsets};
use common::rng::Rng;
use common::strings;
use oracle::types::CAPS_EX_MASK_MODEX;

use super::InPlace;
use crate::classify::frames::FLAGS;
use crate::containers::Candidate;
use crate::modex::{KNOWN, Modex};
use crate::pass::Frame;
use crate::pass::frames::{self, alone, offset_of};
use crate::run::Comparison;

/// The most plain offsets that a chain begins with: two more than layers are peeled off.
const MOST: usize = 34;

/// What stands behind layers: video with a time, records, containers, nothing.
const INNER: &[&[u8]] = &[
    b"\x91avc1\xFF\xFF\xFF\xAA",
    b"\x90mp4a\x12\x10",
    b"\x95\x11Opus\x01\x00\x00\x01\xAA",
    b"\x96\x20av01\x00\x00\x00\x01\xAAOpus\x01\x00\x00\x00",
    b"\x91",
];

/// Frame type, mask and payload: the examples of docs/REQUIREMENTS.md, section 12.
const EXAMPLES: &[(u32, u32, &[u8])] = &[
    (0, 4, b"\x97\x02\x00\x00\x2A\x01"),
    (1, 4, b"\xD7\x00\xAA\x17\x01\xBB\xCC\x10\x55"),
    (0, 3, b"\x97\x00\xAA\x01"),
    (1, 4, b"\x97\x00\xAA\x07\x02"),
    (0, 4, b"\x97\x00\xAA\x01"),
];

/// The examples, and the frames of the pass that copies; short payloads; chains of layers of every
/// kind, chains that begin with plain offsets among them, whole, cut off at every byte, and with
/// another byte.
pub fn listed() -> impl Iterator<Item = InPlace> {
    let short = layers::up_to_three_bytes();
    let chains = mixed().chain(behind_plain()).flat_map(|layers| {
        let payload = |inner: &&[u8]| behind(&layers, inner);
        INNER.iter().map(payload).collect::<Vec<_>>()
    });
    let payloads = short.chain(chains).chain(cut()).chain(with_another_byte());
    examples()
        .chain(once(frames::of_each_shape()))
        .chain(payloads.flat_map(of_each_type))
}

pub fn examples() -> impl Iterator<Item = InPlace> {
    let examples = EXAMPLES.iter();
    examples.map(|&(frame_type, mask, payload)| in_place(frame_type, mask, payload))
}

fn in_place(frame_type: u32, mask: u32, payload: &[u8]) -> InPlace {
    let candidate = Candidate {
        frame_type,
        payload: payload.to_vec(),
    };
    InPlace::new(alone(candidate, mask, 0))
}

/// Of frames in a row that differ in their outputs alone, the first.
fn once(frames: impl Iterator<Item = Frame>) -> impl Iterator<Item = InPlace> {
    let mut last = None;
    let frames = frames.map(InPlace::new);
    frames.filter(move |frame| last.replace(frame.clone()).as_ref() != Some(frame))
}

fn of_each_type(payload: Vec<u8>) -> [InPlace; 4] {
    KNOWN.map(|frame_type| in_place(frame_type, CAPS_EX_MASK_MODEX, &payload))
}

/// Offsets of three bytes, which are plain before another layer, and such that are not: by the first
/// byte, which alone does not refuse `0F`, by the form, by the size, by the type.
fn kinds() -> [Layer; 12] {
    [
        offset_of(Short, 1, 3),
        // Bytes that a plain offset could begin and end with.
        offset_of(Short, 0x02_0207, 3),
        offset_of(Short, 0x0E_FFFF, 3),
        offset_of(Short, 0x0F_0000, 3),
        offset_of(Short, 999_999, 3),
        offset_of(Short, 1_000_000, 3),
        offset_of(Short, 0x10_0000, 3),
        offset_of(Long, 0x02_0207, 3),
        offset_of(Short, 0x02_0207, 4),
        offset_of(Short, 0x02_0207, 2),
        (Short, 1, vec![0x02, 0x02, 0x07]),
        (Short, 15, vec![0xFF]),
    ]
}

/// Every chain of one to four kinds.
fn mixed() -> impl Iterator<Item = Vec<Layer>> {
    strings::up_to(4, kinds().into()).skip(1)
}

/// Up to the most plain offsets, before every chain of none to two kinds.
fn behind_plain() -> impl Iterator<Item = Vec<Layer>> {
    (1..=MOST).flat_map(|count| {
        let chains = strings::up_to(2, kinds().into());
        chains.map(move |chain| [plain(count), chain].concat())
    })
}

/// So many offsets that are plain before another layer.
fn plain(count: usize) -> Vec<Layer> {
    let numbers = 1..=count as u32;
    numbers.map(|number| offset_of(Short, number, 3)).collect()
}

/// Plain offsets before each kind, cut off at every byte.
fn cut() -> impl Iterator<Item = Vec<u8>> {
    let chains =
        (0..=MOST).flat_map(|count| kinds().map(|kind| [plain(count), vec![kind]].concat()));
    chains.flat_map(|layers| layers::truncations(behind(&layers, INNER[0])))
}

/// Frames behind few plain offsets, and behind about as many as are peeled off, with each byte
/// replaced.
fn with_another_byte() -> impl Iterator<Item = Vec<u8>> {
    let chains = [1, 2, 3, 31, 32, 33].map(|count| behind(&plain(count), INNER[0]));
    chains.into_iter().flat_map(|payload| {
        let places = 0..payload.len();
        let other = move |at| {
            BYTES.map(|byte| {
                let mut other = payload.clone();
                other[at] = byte;
                other
            })
        };
        places.flat_map(other)
    })
}

/// Those of the pass that copies, and of peeling; and chains of every kind of layers.
pub fn random(rng: &mut Rng) -> InPlace {
    let frame = match rng.below(4) {
        0 => peeled(rng),
        1 => {
            let mut frame = peeled(rng);
            frame.lent.payload = random_chain(rng);
            frame
        }
        _ => frames::random(rng),
    };
    InPlace::new(frame)
}

/// Of half the offsets are taken.
fn peeled(rng: &mut Rng) -> Frame {
    let mut lent = Modex::random(rng);
    if rng.one_in(2) {
        mend_offsets(&mut lent.payload);
    }
    let flag = *rng.pick(&FLAGS);
    Frame { lent, flag }
}

/// Layers of every kind, half of them plain offsets, before a frame; half of the payloads with
/// offsets that are taken, and half damaged.
fn random_chain(rng: &mut Rng) -> Vec<u8> {
    let count = match rng.below(4) {
        0 => 30 + rng.below(5),
        1 => 1 + rng.below(30),
        _ => 1 + rng.below(4),
    };
    let layers: Vec<Layer> = (0..count).map(|_| random_kind(rng)).collect();
    let inner = *rng.pick(INNER);
    let mut payload = behind(&layers, inner);
    if rng.one_in(2) {
        mend_offsets(&mut payload);
    }
    random_damage(rng, &mut payload);
    payload
}

fn random_kind(rng: &mut Rng) -> Layer {
    if rng.one_in(2) {
        return offset_of(Short, rng.below(0x0F_0000) as u32, 3);
    }
    rng.pick(&kinds()).clone()
}
