//! Which cases are stored: listed ones, and random ones that are the same in every run.

use std::iter;

use common::layers::Form::{Long, Short};
use common::layers::{self, layer};
use common::rng::Rng;
use oracle::FRAME_TYPES;
use oracle::media::modex::{
    ERTMP_PACKET_TYPE_MODEX as MODEX, normalize_modex_payload_with_frame_type,
};
use oracle::types::{CAPS_EX_MASK_MODEX, FrameType};

use super::{Case, Operation, classify, containers, descriptors, headers, records};
use crate::fourcc::{FOURCCS, Fourcc};
use crate::modex::{Frame, Modex, long_chains};
use crate::run::Comparison;

/// Where the random cases of each operation begin.
const SEED: u64 = 1;

/// What stands behind the layers.
const BEHIND: [u8; 2] = [0x17, 0x01];

/// The cases of one operation after the other, in the order of the files.
pub fn of_each_operation() -> [Vec<Case>; 11] {
    [
        frame_types(),
        fourccs(),
        peels(),
        modex_prefixes(),
        headers::videos(),
        headers::audios(),
        records::records(),
        records::starts(),
        descriptors::descriptors(),
        containers::containers(),
        classify::frames(),
    ]
}

/// Random inputs, without end.
pub fn random<T>(make: impl Fn(&mut Rng) -> T) -> impl Iterator<Item = T> {
    let mut rng = Rng::new(SEED);
    iter::repeat_with(move || make(&mut rng))
}

/// The first two random inputs of each class that are not long.
pub fn of_each_class<C: Comparison>(
    class_and_length: impl Fn(&C::Input) -> (&'static str, usize),
) -> Vec<C::Input> {
    let mut inputs = vec![];
    for name in C::CLASSES {
        let fits = |input: &C::Input| {
            let (class, length) = class_and_length(input);
            class == *name && length < 100
        };
        inputs.extend(random(C::random).filter(fits).take(2));
    }
    inputs
}

fn frame_types() -> Vec<Case> {
    let case = |number| Case {
        number,
        ..Case::new(Operation::FrameType, vec![])
    };
    [0, 1, 2, 3, 4, 255, u32::MAX].map(case).into()
}

/// FourCCs, known and unknown, without their last byte, whole, and with one byte more.
fn fourccs() -> Vec<Case> {
    let others = ["", "O", "opus", "OPUS", "Opu\0", "mp3\0", "\0\0\0\0"];
    let mut strings = others.map(|text| text.as_bytes().to_vec()).to_vec();
    for fourcc in FOURCCS {
        let longer = [&fourcc[..], b"X"].concat();
        strings.extend([longer[..3].to_vec(), fourcc.to_vec(), longer]);
    }
    strings.extend(random(Fourcc::random).take(20));
    let case = |string| Case::new(Operation::Fourcc, string);
    strings.into_iter().map(case).collect()
}

/// One layer with each mask, byte 0 and option byte; chains, sizes, lengths of the output, payloads
/// that are cut off.
pub fn peels() -> Vec<Case> {
    let mut cases = vec![];
    for mask in [CAPS_EX_MASK_MODEX, 0, 3, 8, u32::MAX, !CAPS_EX_MASK_MODEX] {
        cases.extend(FRAME_TYPES.map(|frame_type| peel(frame_type, mask, &[0x97, 0, 0xAA, 1])));
    }
    for first in [0x07, 0x17, 0x87, 0x91, 0x97, 0xA7, 0xD7, 0xF7] {
        cases.extend(FRAME_TYPES.map(|frame_type| capable(frame_type, &[first, 0, 0xAA, 1, 0xBB])));
    }
    for option in options() {
        cases.push(capable(FrameType::Audio, &[0x97, 0, 0xAA, option, 0xBB]));
    }
    for payload in chains().into_iter().chain(sizes()) {
        cases.extend([FrameType::Audio, FrameType::Video].map(|known| capable(known, &payload)));
    }
    for payload in outputs() {
        cases.extend(around(capable(FrameType::Video, &payload)));
    }
    cases.extend(layers::truncations(mixed()).map(|payload| capable(FrameType::Audio, &payload)));
    let small = |frame: &Frame| frame.known_type().is_some() && frame.payload.len() < 200;
    cases.extend(random(Modex::random).filter(small).take(40).map(of_frame));
    cases
}

/// With an output that is two bytes longer than the result.
fn peel(frame_type: FrameType, mask: u32, payload: &[u8]) -> Case {
    let result = normalize_modex_payload_with_frame_type(payload, mask, frame_type);
    Case {
        frame_type,
        number: mask,
        room: result.len() + 2,
        ..Case::new(Operation::Peel, payload.to_vec())
    }
}

fn capable(frame_type: FrameType, payload: &[u8]) -> Case {
    peel(frame_type, CAPS_EX_MASK_MODEX, payload)
}

/// With outputs that have no byte, one too few, as many as the result, and two more.
fn around(longer: Case) -> impl Iterator<Item = Case> {
    let exact = longer.room - 2;
    let mut rooms = vec![0, exact.saturating_sub(1), exact, longer.room];
    rooms.dedup();
    rooms.into_iter().map(move |room| Case {
        room,
        payload: longer.payload.clone(),
        ..longer
    })
}

fn of_frame(frame: Frame) -> Case {
    Case {
        frame_type: frame.known_type().expect("the head has known ones only"),
        number: frame.mask,
        room: frame.room,
        ..Case::new(Operation::Peel, frame.payload)
    }
}

/// Each number as a layer's type and as the next packet type.
fn options() -> impl Iterator<Item = u8> {
    (0..16).map(|nibble| nibble << 4 | nibble)
}

/// Up to as many layers as are peeled off, and one more, with and without bytes behind them; and
/// the most layers, of which the last one names another.
fn chains() -> Vec<Vec<u8>> {
    let alike = |count, last| layers::chain(&vec![(Short, 1); count], last);
    let counts = [1, 2, 31, 32, 33];
    let followed = counts.map(|count| [&alike(count, 1)[..], &BEHIND].concat());
    let bare = counts.map(|count| alike(count, 1));
    let endless = [&alike(32, MODEX)[..], &BEHIND].concat();
    [&followed[..], &bare, &[endless]].concat()
}

/// Layers of sizes around the limits of each form, whole and without their last byte; and one that
/// is far too short for its size.
fn sizes() -> Vec<Vec<u8>> {
    let mut payloads = vec![vec![0x97, 0xFF, 0xFF, 0xFF, 0xAA, 0x01]];
    for size in [(Short, 255), (Long, 1), (Long, 256), (Long, 257)] {
        let chain = layers::chain(&[size], 1);
        payloads.push(chain[..chain.len() - 1].to_vec());
        payloads.push([&chain[..], &BEHIND].concat());
    }
    payloads
}

/// Peeled and unpeeled payloads to try lengths of the output on.
fn outputs() -> [Vec<u8>; 5] {
    let [most, more] = long_chains();
    let layer = [&layers::wrapped(layer(Short, &[0xAA], 1))[..], &BEHIND].concat();
    [vec![], BEHIND.to_vec(), layer, most, more]
}

/// A chain of both forms.
fn mixed() -> Vec<u8> {
    let chain = layers::chain(&[(Short, 1), (Long, 2), (Short, 3)], 1);
    [&chain[..], &BEHIND].concat()
}

/// Layers of 1 to 4 data bytes and of sizes at the limits, with each option byte, and cut off.
fn modex_prefixes() -> Vec<Case> {
    let data = [0x80, 0x01, 0xFE, 0x7F];
    let mut payloads = vec![vec![0xFF, 0xFF, 0xFF, 0xAA, 0x01]];
    for form in [Short, Long] {
        for option in [0x01, 0x10] {
            payloads.extend((1..=4).map(|size| layer(form, &data[..size], option)));
        }
        payloads.extend(layers::truncations(layer(form, &data[..3], 0x07)));
    }
    for option in options() {
        payloads.push([&layer(Short, &data[..3], option)[..], &BEHIND].concat());
    }
    for offset in [[0x00; 3], [0xFF; 3], [0x00, 0x00, 0x01]] {
        payloads.push(layer(Short, &offset, 0x01));
    }
    for (form, size) in [(Short, 255), (Long, 256), (Long, 257)] {
        payloads.push(layer(form, &vec![0x5A; size], 0x01));
    }
    let small = |payload: &Vec<u8>| payload.len() < 200;
    payloads.extend(random(layers::random_layer_payload).filter(small).take(20));
    let case = |payload| Case::new(Operation::ModexPrefix, payload);
    payloads.into_iter().map(case).collect()
}
