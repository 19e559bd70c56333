//! AVC records: a head of 5 bytes, a count and its sets, a count and its picture sets; then
//! nothing, or an extension of three bytes, a count and its sets.

use common::damage::random_damage;
use common::rng::Rng;
use common::sets::{AVC_LISTS, first_misnamed};

use super::{Fault, Kind, behind_sets, random_sets, sets, sets_of_first_bytes};
use crate::run::Class;

const HEAD: [u8; 5] = [0x01, 0x42, 0x00, 0x1E, 0xFF];

/// What stands before the count of an extension.
const EXTENSION: [u8; 3] = [0xFD, 0xF8, 0xF8];

/// The classes of what request N7 refuses and the Rust does not, by the first set that names
/// another type than its list: the list's first one, or a later one.
pub const FOR_A_TYPE: [&str; 6] = [
    "AVC refused: type of a sequence set",
    "AVC refused: type of a later sequence set",
    "AVC refused: type of a picture set",
    "AVC refused: type of a later picture set",
    "AVC refused: type of a set of the extension",
    "AVC refused: type of a later set of the extension",
];

/// The first bytes of the sets of three lists.
type FirstBytes = [&'static [u8]; 3];

/// Those of records that are refused for a type alone.
const MISNAMED: &[FirstBytes] = &[
    // Picture sets for sequence sets, the other way, and both.
    [b"\x68", b"\x68", b""],
    [b"\x67", b"\x67", b""],
    [b"\x68", b"\x67", b""],
    // The extension's type for another list's, and the other way.
    [b"\x6D", b"\x68", b""],
    [b"\x67", b"\x6D", b""],
    [b"\x67", b"\x68", b"\x67"],
    [b"\x67", b"\x68", b"\x68"],
    // The first set of a list alone.
    [b"\x68\x67", b"\x68", b""],
    [b"\x67", b"\x67\x68", b""],
    [b"\x67", b"\x68", b"\x67\x6D"],
    // The last one alone.
    [b"\x67\x68", b"\x68", b""],
    [b"\x67", b"\xE8\x00", b""],
    [b"\x67", b"\x68", b"\x6D\x67"],
    [b"\x67\x27\x08", b"\x68\x28\xE8", b"\x6D\x2D\xED"],
    // One bit of the type changed, the highest and the lowest.
    [b"\x77", b"\x68", b""],
    [b"\x66", b"\x68", b""],
    [b"\x67", b"\x78", b""],
    [b"\x67", b"\x69", b""],
    [b"\x67", b"\x68", b"\x7D"],
    [b"\x67", b"\x68", b"\x6C"],
    // Where HEVC has the type; nothing.
    [b"\x0E", b"\x10", b""],
    [b"\x67", b"\x68", b"\x1A"],
    [b"\x00", b"\x00", b""],
    [b"\x67", b"\x68", b"\x00"],
];

/// Valid ones with one to three sets of each sort, without and with an extension, and with bytes
/// behind it.
pub fn small() -> impl Iterator<Item = Vec<u8>> {
    let lengths: [&[usize]; 4] = [&[1], &[3], &[1, 2], &[2, 1, 1]];
    let extensions = [
        vec![],
        extension(&[]),
        extension(&[1]),
        extension(&[2, 1]),
        [&extension(&[1])[..], &[0x00, 0xAA]].concat(),
    ];
    lengths.into_iter().flat_map(move |first| {
        let extensions = extensions.clone();
        lengths.into_iter().flat_map(move |second| {
            let record = |extension: Vec<u8>| record(first, second, &extension);
            extensions.clone().map(record)
        })
    })
}

/// Valid ones with sets of lengths around each limit, and with as many sets as there may be.
pub fn large() -> impl Iterator<Item = Vec<u8>> {
    let lengths = [255, 256, 257, 65_535];
    let long = lengths.map(|length| record(&[length], &[length], &extension(&[length])));
    let many = record(&[1; 31], &[1; 255], &extension(&[1; 255]));
    long.into_iter().chain([many])
}

/// Records that are refused for a type alone.
pub fn misnamed() -> impl Iterator<Item = Vec<u8>> {
    MISNAMED.iter().map(|&firsts| of_first_bytes(firsts))
}

/// Every first byte of the only set, and of the first and the second of two, in each list.
pub fn every_first_byte() -> impl Iterator<Item = Vec<u8>> {
    let right = AVC_LISTS.map(|nal_type| Kind::Avc.first_byte(nal_type, 0x60));
    let places = (0..3).flat_map(|list| [(list, 1, 0), (list, 2, 0), (list, 2, 1)]);
    places.flat_map(move |(list, count, at)| {
        (0..=u8::MAX).map(move |first| {
            let mut firsts = right.map(|right| vec![right]);
            firsts[list] = vec![right[list]; count];
            firsts[list][at] = first;
            of_first_bytes(firsts.each_ref().map(Vec::as_slice))
        })
    })
}

/// A record of three lists, each with sets that have these first bytes; without any, there is no
/// extension.
pub fn of_first_bytes([first, second, third]: [&[u8]; 3]) -> Vec<u8> {
    let lists = [first, second].map(|firsts| (firsts.len(), sets_of_first_bytes(firsts)));
    let behind = match third {
        [] => vec![],
        firsts => extended(firsts.len(), &sets_of_first_bytes(firsts)),
    };
    joined(lists, &behind)
}

/// A record with sets of these lengths, and with what stands behind them.
fn record(first: &[usize], second: &[usize], behind: &[u8]) -> Vec<u8> {
    let list = |nal_type, lengths: &[usize]| (lengths.len(), sets(Kind::Avc, nal_type, lengths));
    joined(
        [list(AVC_LISTS[0], first), list(AVC_LISTS[1], second)],
        behind,
    )
}

/// Of two lists, each a number and as many sets, and of what stands behind them.
fn joined([first, second]: [(usize, Vec<u8>); 2], behind: &[u8]) -> Vec<u8> {
    let counts = [0xE0 | first.0 as u8, second.0 as u8];
    let mut record = [&HEAD[..], &counts[..1], &first.1].concat();
    record.extend([&counts[1..], &second.1, behind].concat());
    record
}

/// An extension with sets of these lengths.
fn extension(lengths: &[usize]) -> Vec<u8> {
    extended(lengths.len(), &sets(Kind::Avc, AVC_LISTS[2], lengths))
}

fn extended(count: usize, sets: &[u8]) -> Vec<u8> {
    [&EXTENSION[..], &[count as u8], sets].concat()
}

/// Half of them with an extension, half of them damaged. In one in thirty, lists have one another's
/// types.
pub fn random(rng: &mut Rng) -> Vec<u8> {
    let types = match rng.below(30) {
        0 => [(); 3].map(|()| *rng.pick(&AVC_LISTS)),
        _ => AVC_LISTS,
    };
    let mut record = vec![1];
    record.extend(rng.bytes(4));
    let count = random_count(rng, 31);
    record.push(rng.byte() & 0xE0 | count as u8);
    record.extend(random_sets(rng, Kind::Avc, types[0], count));
    let count = random_count(rng, 255);
    record.push(count as u8);
    record.extend(random_sets(rng, Kind::Avc, types[1], count));
    if rng.one_in(2) {
        record.extend(rng.bytes(3));
        let count = random_count(rng, 255) - 1;
        record.push(count as u8);
        record.extend(random_sets(rng, Kind::Avc, types[2], count));
        let more = rng.below(3);
        record.extend(rng.bytes(more));
    }
    random_damage(rng, &mut record);
    record
}

/// 1 to 3, but once in a thousand the most.
fn random_count(rng: &mut Rng, most: usize) -> usize {
    if rng.one_in(1_000) {
        most
    } else {
        1 + rng.below(3)
    }
}

/// The class of the first thing that is wrong. Types come last, so that whatever the Rust refuses
/// has the class of its reason.
pub fn class(record: &[u8]) -> Class {
    let accepted = class_of_rust(record)?;
    let Some(set) = first_misnamed(b"avc1", record) else {
        return Ok(accepted);
    };
    let list = AVC_LISTS.iter().position(|list| *list == set.list);
    let list = list.expect("there are three lists");
    Err(FOR_A_TYPE[2 * list + usize::from(set.before > 0)])
}

fn class_of_rust(record: &[u8]) -> Class {
    let refused = |fault| match fault {
        Fault::Empty => "AVC refused: empty set",
        Fault::Cut => "AVC refused: cut set",
    };
    if record.len() < 7 {
        return Err("AVC refused: short");
    }
    if record[0] != 1 {
        return Err("AVC refused: version");
    }
    let count = record[5] & 0x1F;
    if count == 0 {
        return Err("AVC refused: no set");
    }
    let rest = behind_sets(count.into(), &record[6..]).map_err(refused)?;
    let [count @ 1..=u8::MAX, rest @ ..] = rest else {
        return Err("AVC refused: no picture set");
    };
    match behind_sets((*count).into(), rest).map_err(refused)? {
        [] => Ok("AVC without extension"),
        [_, _, _, count, rest @ ..] => match behind_sets((*count).into(), rest) {
            Ok(_) => Ok("AVC with extension"),
            Err(Fault::Empty) => Err("AVC refused: empty set in the extension"),
            Err(Fault::Cut) => Err("AVC refused: extension cut"),
        },
        _ => Err("AVC refused: extension cut"),
    }
}
