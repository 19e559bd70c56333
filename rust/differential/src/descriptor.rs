//! `multitrack_parse`: an AMF0 number, which is the track type, and an AMF0 string, the track's
//! name.

use common::layers;
use common::rng::Rng;
use oracle::ertmp::multitrack::multitrack_parse;
use oracle::types::{Multitrack, MultitrackType};

use crate::leaf::{self, LeafMultitrack};
use crate::numbers::NUMBERS;
use crate::run::{Class, Comparison, Difference, fitting, same};

pub struct Descriptor;

impl Comparison for Descriptor {
    const NAME: &'static str = "descriptor";

    const CLASSES: &'static [&'static str] = &[
        "too short for the number",
        "wrong number marker",
        "too short for the string",
        "wrong string marker",
        "name cut",
        "name empty",
        "name short",
        "name of 63",
        "name over 63",
    ];

    type Input = Vec<u8>;

    fn listed() -> impl Iterator<Item = Vec<u8>> {
        marked().chain(named()).chain(long_named())
    }

    /// Half of them are damaged, and one in eight is made of bytes only.
    fn random(rng: &mut Rng) -> Vec<u8> {
        let number = *rng.pick(&NUMBERS);
        let length = match rng.below(1_000) {
            0 => 65_535 - rng.below(2),
            1..250 => 61 + rng.below(5),
            250..350 => rng.below(300),
            _ => rng.below(70),
        };
        let mut payload = descriptor(number, &rng.bytes(length));
        match rng.below(8) {
            0 => {
                let length = rng.below(91);
                payload = rng.bytes(length);
            }
            1 => payload[11] = payload[11].wrapping_add(1),
            2 => payload[11] = payload[11].wrapping_sub(1),
            3 => payload.truncate(rng.below(91)),
            4 => {
                let at = *rng.pick(&[0, 9, 10, 11]);
                payload[at] = rng.byte();
            }
            5 => {
                let more = rng.below(8);
                payload.extend(rng.bytes(more));
            }
            _ => {}
        }
        payload
    }

    fn compare(payload: &Vec<u8>) -> Result<&'static str, Difference> {
        let answer = same_descriptor(payload)?;
        Ok(fitting(class(payload), answer.error == 0))
    }
}

/// The answer of both sides.
pub fn same_descriptor(payload: &[u8]) -> Result<LeafMultitrack, Difference> {
    same(of_rust(payload), leaf::multitrack_parse(payload))
}

/// What the Rust answers. It is given a Multitrack that is not the default in any field.
pub fn of_rust(payload: &[u8]) -> LeafMultitrack {
    let mut multitrack = Multitrack {
        track_type: MultitrackType::Video,
        track_name: [0xE1; 64],
    };
    let error = match multitrack_parse(&mut multitrack, payload) {
        Ok(()) => 0,
        Err(error) => error as i32,
    };
    LeafMultitrack {
        error,
        track_type: multitrack.track_type as u8,
        track_name: multitrack.track_name,
    }
}

/// A descriptor with this pattern of a number.
pub fn descriptor(number: u64, name: &[u8]) -> Vec<u8> {
    let [.., high, low] = name.len().to_be_bytes();
    let number = number.to_be_bytes();
    [&[0x00], &number[..], &[0x02, high, low], name].concat()
}

/// Every length up to 90, with every marker of the number and of the string.
fn marked() -> impl Iterator<Item = Vec<u8>> {
    let whole = descriptor(1.0f64.to_bits(), &[b'n'; 78]);
    let markers = [0, 9]
        .into_iter()
        .flat_map(|at| (0..=u8::MAX).map(move |byte| (at, byte)));
    markers.flat_map(move |(at, byte)| {
        let mut changed = whole.clone();
        changed[at] = byte;
        layers::truncations(changed)
    })
}

/// Every number, with names of 0 to 65 bytes and of a few more, around the end of the payload.
fn named() -> impl Iterator<Item = Vec<u8>> {
    let lengths = (0..=65).chain([127, 128, 255, 256, 257, 511, 512]);
    lengths.flat_map(|length| {
        let name: Vec<u8> = (1..=length).map(|byte| byte as u8).collect();
        let whole = NUMBERS.map(|number| descriptor(number, &name));
        whole.into_iter().flat_map(around)
    })
}

/// A name of the most bytes there may be.
fn long_named() -> impl Iterator<Item = Vec<u8>> {
    around(descriptor(0, &[b'n'; 65_535])).into_iter()
}

/// Without the last byte, whole, and with one byte more.
pub fn around(payload: Vec<u8>) -> [Vec<u8>; 3] {
    let cut = payload[..payload.len() - 1].to_vec();
    let longer = [&payload[..], &[0xAA]].concat();
    [cut, payload, longer]
}

pub fn class(payload: &[u8]) -> Class {
    if payload.len() < 9 {
        return Err("too short for the number");
    }
    if payload[0] != 0x00 {
        return Err("wrong number marker");
    }
    let [marker, high, low, rest @ ..] = &payload[9..] else {
        return Err("too short for the string");
    };
    if *marker != 0x02 {
        return Err("wrong string marker");
    }
    match u16::from_be_bytes([*high, *low]).into() {
        length if length > rest.len() => Err("name cut"),
        0 => Ok("name empty"),
        1..63 => Ok("name short"),
        63 => Ok("name of 63"),
        _ => Ok("name over 63"),
    }
}
