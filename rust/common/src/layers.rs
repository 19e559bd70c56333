//! Payloads with ModEx layers: the inputs of the ModEx comparisons.

use std::iter;

use crate::rng::Rng;

/// The packet type of ModEx.
pub const MODEX: u8 = 7;

/// Byte 0 of a payload that both audio and video peel.
const WRAPPED: u8 = 0x97;

/// Bytes that mean something at some place of a payload, and their neighbours.
pub const BYTES: [u8; 28] = [
    0x00, 0x01, 0x02, 0x03, 0x04, 0x06, 0x07, 0x08, 0x0F, 0x10, 0x17, 0x70, 0x77, 0x7F, 0x80, 0x87,
    0x8F, 0x90, 0x91, 0x95, 0x97, 0x9F, 0xA7, 0xD7, 0xF0, 0xF7, 0xFE, 0xFF,
];

/// How a layer gives its size.
#[derive(Clone, Copy)]
pub enum Form {
    /// One byte, for 1 to 255 data bytes.
    Short,
    /// `FF` and two bytes, for 1 to 65,536 data bytes.
    Long,
}

/// The size, the data, the option byte.
pub fn layer(form: Form, data: &[u8], option: u8) -> Vec<u8> {
    let [.., high, low] = (data.len() - 1).to_be_bytes();
    let size: &[u8] = match form {
        Form::Short => &[low],
        Form::Long => &[0xFF, high, low],
    };
    [size, data, &[option]].concat()
}

/// Byte 0, then layers of these forms and sizes, of type 0, 1 and so on. The last one names the
/// packet type `last`.
pub fn chain(layers: &[(Form, usize)], last: u8) -> Vec<u8> {
    let mut payload = vec![WRAPPED];
    for (index, &(form, size)) in layers.iter().enumerate() {
        let data: Vec<u8> = (index..index + size).map(|byte| byte as u8).collect();
        let next = if index + 1 < layers.len() {
            MODEX
        } else {
            last
        };
        payload.extend(layer(form, &data, (index as u8) << 4 | next));
    }
    payload
}

/// The layer behind byte 0 of a payload.
pub fn wrapped(layer: Vec<u8>) -> Vec<u8> {
    [&[WRAPPED], &layer[..]].concat()
}

/// How a layer gives its size, its type, and its data.
pub type Layer = (Form, u8, Vec<u8>);

/// The frame behind these layers.
pub fn behind(layers: &[Layer], frame: &[u8]) -> Vec<u8> {
    let Some((first, rest)) = frame.split_first() else {
        return vec![];
    };
    let mut payload = vec![first & 0xF0 | MODEX];
    for (left, (form, modex_type, data)) in (0..layers.len()).rev().zip(layers) {
        let next = if left > 0 { MODEX } else { first & 0x0F };
        payload.extend(layer(*form, data, modex_type << 4 | next));
    }
    payload.extend(rest);
    payload
}

/// The frame behind one to 15 layers, of type 1, 2 and so on. With an offset, the last one is of
/// type 0, and has one byte behind the offset.
pub fn wrap(frame: &[u8], count: u8, offset: Option<u32>) -> Vec<u8> {
    let plain = |number| (Form::Short, number, vec![number, 0xAA]);
    let mut layers: Vec<Layer> = (1..=count).map(plain).collect();
    if let (Some(last), Some(offset)) = (layers.last_mut(), offset) {
        let [_, data @ ..] = offset.to_be_bytes();
        *last = (Form::Short, 0, [&data[..], &[0xAA]].concat());
    }
    behind(&layers, frame)
}

/// None, or mostly one that the whole pass takes.
pub fn random_offset(rng: &mut Rng) -> Option<u32> {
    match rng.below(8) {
        0..3 => None,
        3 => Some(*rng.pick(&[0, 1, 999_999, 1_000_000])),
        4 => Some(rng.number() as u32 % (1 << 24)),
        _ => Some(rng.below(1_000_000) as u32),
    }
}

/// Makes a chain one whose offsets the whole pass takes: too short a layer of type 0 becomes one of
/// type 1, and an offset that may be too large becomes a smaller one. Nothing else changes, the
/// length and the result included.
pub fn mend_offsets(payload: &mut [u8]) {
    let mut place = match payload {
        [first, ..] if *first & 0x8F == 0x87 => Some(1),
        _ => None,
    };
    while let Some((data, option)) = place.and_then(|at| parts_of_layer(payload, at)) {
        if payload[option] >> 4 == 0 {
            if option - data < 3 {
                payload[option] |= 0x10;
            } else {
                payload[data] &= 0x07;
            }
        }
        place = (payload[option] & 0x0F == MODEX).then_some(option + 1);
    }
}

/// Where the data of the layer at this place begin, and where its option byte stands.
fn parts_of_layer(payload: &[u8], at: usize) -> Option<(usize, usize)> {
    let (data, last) = match payload.get(at..)? {
        [0xFF, high, low, ..] => (at + 3, u16::from_be_bytes([*high, *low]).into()),
        [size, ..] => (at + 1, usize::from(*size)),
        [] => return None,
    };
    let option = data + last + 1;
    (option < payload.len()).then_some((data, option))
}

/// Every string of 0 to 3 of `BYTES`.
pub fn up_to_three_bytes() -> impl Iterator<Item = Vec<u8>> {
    let longer = |shorter: &Vec<Vec<u8>>| -> Option<Vec<Vec<u8>>> {
        let with = |byte: u8| {
            shorter
                .iter()
                .map(move |bytes| [&bytes[..], &[byte]].concat())
        };
        Some(BYTES.into_iter().flat_map(with).collect())
    };
    iter::successors(Some(vec![vec![]]), longer)
        .take(4)
        .flatten()
}

/// The first 0, 1, 2 and so on of the bytes.
pub fn truncations(bytes: Vec<u8>) -> impl Iterator<Item = Vec<u8>> {
    (0..=bytes.len()).map(move |length| bytes[..length].to_vec())
}

/// Layers of sizes around each limit and of several types, whole and cut off at every byte.
pub fn cut_layers() -> impl Iterator<Item = Vec<u8>> {
    let short = [1, 2, 3, 4, 254, 255].map(|size| (Form::Short, size));
    let long = [1, 2, 3, 4, 254, 255, 256, 257].map(|size| (Form::Long, size));
    let options = [0x00, 0x01, 0x07, 0x0F, 0x10, 0x17, 0xF0, 0xFF];
    let layers = short
        .into_iter()
        .chain(long)
        .flat_map(move |(form, size)| options.map(|option| layer(form, &vec![0x5A; size], option)));
    layers.flat_map(truncations)
}

/// Layers of the most data bytes and one less, with a byte behind, whole, and cut off at the end.
pub fn large_layers() -> impl Iterator<Item = Vec<u8>> {
    [65_535, 65_536].into_iter().flat_map(|size| {
        let whole = layer(Form::Long, &vec![0x5A; size], 0x01);
        let cut = whole[..whole.len() - 1].to_vec();
        let longer = [&whole[..], &[0xAA]].concat();
        [longer, whole, cut]
    })
}

/// A chain of layers and some bytes behind it, half of them damaged; once in eight only bytes.
pub fn random_payload(rng: &mut Rng) -> Vec<u8> {
    let first = match rng.below(8) {
        0 => *rng.pick(&BYTES),
        1 => rng.byte() | 0x87,
        _ => WRAPPED,
    };
    let mut payload = vec![first];
    let layers = match rng.below(16) {
        0 | 1 => 0,
        2 | 3 => 30 + rng.below(5),
        4 => rng.below(30),
        _ => 1 + rng.below(3),
    };
    let long = rng.one_in(2);
    for left in (0..layers).rev() {
        let next = if left > 0 { MODEX } else { rng.byte() & 0x0F };
        payload.extend(random_layer(rng, long, next));
    }
    random_end(rng, &mut payload);
    payload
}

/// A layer and some bytes behind it, half of them damaged.
pub fn random_layer_payload(rng: &mut Rng) -> Vec<u8> {
    let long = rng.one_in(2);
    let next = rng.byte() & 0x0F;
    let mut payload = random_layer(rng, long, next);
    random_end(rng, &mut payload);
    payload
}

/// Mostly of 1 to 4 data bytes, half of them of type 0. With `long`, half have the long form.
fn random_layer(rng: &mut Rng, long: bool, next: u8) -> Vec<u8> {
    let size = match rng.below(20_000) {
        0 => 65_535 + rng.below(2),
        1..200 => 240 + rng.below(30),
        _ => 1 + rng.below(4),
    };
    let form = if size > 255 || long && rng.one_in(2) {
        Form::Long
    } else {
        Form::Short
    };
    let modex_type = if rng.one_in(2) { 0 } else { rng.byte() & 0xF0 };
    layer(form, &rng.bytes(size), modex_type | next)
}

/// Adds up to seven bytes, then damages every other payload.
fn random_end(rng: &mut Rng, payload: &mut Vec<u8>) {
    let more = rng.below(8);
    payload.extend(rng.bytes(more));
    if payload.is_empty() || rng.one_in(2) {
        return;
    }
    let at = rng.below(payload.len());
    match rng.below(4) {
        0 => payload.truncate(at),
        1 => payload[at] = *rng.pick(&BYTES),
        2 => payload.insert(at, rng.byte()),
        _ => drop(payload.remove(at)),
    }
}

#[cfg(test)]
mod tests {
    use super::*;

    #[test]
    fn wrapped_frames() {
        assert_eq!(wrap(b"\x91\xBB", 1, None), b"\x97\x01\x01\xAA\x11\xBB");
        assert_eq!(
            wrap(b"\x91\xBB", 2, Some(0x0F_423F)),
            b"\x97\x01\x01\xAA\x17\x03\x0F\x42\x3F\xAA\x01\xBB"
        );
        assert_eq!(wrap(b"", 1, Some(1)), b"");
    }

    #[test]
    fn mended_chains() {
        let chains: [(&[u8], &[u8]); 7] = [
            (b"\x97\x00\xAA\x01", b"\x97\x00\xAA\x11"),
            (
                b"\x97\xFF\x00\x01\xAA\xBB\x01",
                b"\x97\xFF\x00\x01\xAA\xBB\x11",
            ),
            (b"\x87\x02\xFF\x00\x01\x00", b"\x87\x02\x07\x00\x01\x00"),
            (
                b"\x97\x00\xAA\x17\x00\xAA\x07\x03\x10\x00\x00\xAA\x01",
                b"\x97\x00\xAA\x17\x00\xAA\x17\x03\x00\x00\x00\xAA\x01",
            ),
            // What is cut off, no chain, nothing.
            (b"\x97\x00\xAA\x07\x02\xFF", b"\x97\x00\xAA\x17\x02\xFF"),
            (b"\x17\x00\xAA\x01", b"\x17\x00\xAA\x01"),
            (b"", b""),
        ];
        for (chain, mended) in chains {
            let mut payload = chain.to_vec();
            mend_offsets(&mut payload);
            assert_eq!(payload, mended, "{chain:02X?}");
        }
    }
}
