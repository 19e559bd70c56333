//! HEVC records: a head of 22 bytes, a count, and arrays of a type, a count and its sets.

use std::iter;

use common::damage::random_damage;
use common::rng::Rng;
use common::sets::first_misnamed;

use super::{Fault, Kind, behind_sets, random_sets, sets, sets_of_first_bytes};
use crate::run::Class;

const VPS: u8 = 32;
const SPS: u8 = 33;
const PPS: u8 = 34;

/// The type of a row of sets that no rule names.
const OTHER: u8 = 39;

/// A type, and the lengths of its sets.
type Array = (u8, &'static [usize]);

/// The classes of what request N7 refuses and the Rust does not, by the first set that names
/// another type than its array: the array's first one, or a later one.
pub const FOR_A_TYPE: [&str; 4] = [
    "HEVC refused: type of a set in an array of 32 to 34",
    "HEVC refused: type of a later set in an array of 32 to 34",
    "HEVC refused: type of a set in another array",
    "HEVC refused: type of a later set in another array",
];

/// Arrays, each as its byte and the first bytes of its sets.
type FirstBytes = &'static [(u8, &'static [u8])];

/// Those of records that are refused for a type alone.
const MISNAMED: &[FirstBytes] = &[
    // The low six bits; where AVC has the type.
    &[(0x21, b"\x21"), (0x22, b"\x22")],
    &[(0x21, b"\x67"), (0x22, b"\x68")],
    // One another's type, and that of other arrays.
    &[(0x21, b"\x44"), (0x22, b"\x42")],
    &[(0x21, b"\x42"), (0x22, b"\x42")],
    &[(0x20, b"\x42"), (0x21, b"\x42"), (0x22, b"\x44")],
    &[(0x20, b"\x40"), (0x21, b"\x40"), (0x22, b"\x44")],
    // Arrays that no rule names, in front and behind.
    &[(0x21, b"\x42"), (0x22, b"\x44"), (0x27, b"\x40")],
    &[(0x27, b"\x4F\x27"), (0x21, b"\x42"), (0x22, b"\x44")],
    &[(0x00, b"\x02"), (0x21, b"\x42"), (0x22, b"\x44")],
    &[(0xBF, b"\x7E\xFF\x3F"), (0x21, b"\x42"), (0x22, b"\x44")],
    // The first set of an array alone, and the last one.
    &[(0x21, b"\x44\x42"), (0x22, b"\x44")],
    &[(0x21, b"\x42\xC4"), (0x22, b"\x44")],
    &[(0x21, b"\x42"), (0x22, b"\x44\x45\x42")],
    // A second array of the same type.
    &[(0x21, b"\x42"), (0x22, b"\x44"), (0xA1, b"\x40")],
    // Bits 1 to 5 alone, bits 2 to 6 alone; nothing.
    &[(0x21, b"\x02"), (0x22, b"\x04")],
    &[(0x21, b"\x40"), (0x22, b"\x46")],
    &[(0x21, b"\x00"), (0x22, b"\x00")],
];

/// Every row of up to three arrays of these. Some have no SPS or no PPS.
pub fn small() -> impl Iterator<Item = Vec<u8>> {
    let arrays: [Array; 5] = [
        (0x80 | VPS, &[1]),
        (0xC0 | SPS, &[2]),
        (SPS, &[]),
        (PPS, &[1, 2]),
        (OTHER, &[1]),
    ];
    let longer = move |shorter: &Vec<Vec<Array>>| -> Option<Vec<Vec<Array>>> {
        let with = |array| shorter.iter().map(move |row| [&row[..], &[array]].concat());
        Some(arrays.into_iter().flat_map(with).collect())
    };
    let rows = iter::successors(Some(vec![vec![]]), longer).take(4);
    rows.flatten().map(|row| record(&row))
}

/// Ones with sets of lengths around each limit, with many sets in an array, with as many arrays as
/// there may be, and with counts that are far too high.
pub fn large() -> impl Iterator<Item = Vec<u8>> {
    const LENGTHS: [&[usize]; 4] = [&[255], &[256], &[257], &[65_535]];
    const COUNTS: [&[usize]; 4] = [&[1; 255], &[1; 256], &[1; 257], &[1; 65_535]];
    let rows = LENGTHS.into_iter().chain(COUNTS);
    let long = rows.map(|lengths| record(&[(SPS, lengths), (PPS, lengths)]));
    let mut many: Vec<Array> = vec![(VPS, &[1]); 255];
    (many[253].0, many[254].0) = (SPS, PPS);
    let claims = [head(255), [SPS, 0xFF, 0xFF].repeat(255)].concat();
    long.chain([record(&many), claims])
}

fn head(arrays: usize) -> Vec<u8> {
    let mut head = vec![0x01];
    head.extend([0x00; 21]);
    head.push(arrays as u8);
    head
}

fn record(arrays: &[Array]) -> Vec<u8> {
    let mut record = head(arrays.len());
    for (array, lengths) in arrays {
        let [.., high, low] = lengths.len().to_be_bytes();
        record.extend([*array, high, low]);
        record.extend(sets(Kind::Hevc, array & 0x3F, lengths));
    }
    record
}

/// Records that are refused for a type alone.
pub fn misnamed() -> impl Iterator<Item = Vec<u8>> {
    MISNAMED.iter().map(|arrays| of_first_bytes(arrays))
}

/// Every first byte of the only set, and of the second of two, in an array of every type.
pub fn every_first_byte() -> impl Iterator<Item = Vec<u8>> {
    (0..64).flat_map(|array| {
        (0..=u8::MAX).flat_map(move |first| {
            let right = |nal_type| [Kind::Hevc.first_byte(nal_type, 0)];
            let (sps, pps, own) = (right(SPS), right(PPS), right(array));
            [vec![first], [&own[..], &[first]].concat()]
                .map(|firsts| of_first_bytes(&[(SPS, &sps), (0x80 | array, &firsts), (PPS, &pps)]))
        })
    })
}

/// A record of arrays, each a byte and the first bytes of its sets.
pub fn of_first_bytes(arrays: &[(u8, &[u8])]) -> Vec<u8> {
    let mut record = head(arrays.len());
    for (array, firsts) in arrays {
        record.extend([*array, 0x00, firsts.len() as u8]);
        record.extend(sets_of_first_bytes(firsts));
    }
    record
}

/// Up to four arrays, most of them of SPS or PPS; every other record begins with both. Half of them
/// are damaged. One in thirty arrays has sets of another type.
pub fn random(rng: &mut Rng) -> Vec<u8> {
    let mut record = vec![1];
    record.extend(rng.bytes(21));
    let needed: &[u8] = if rng.one_in(2) { &[SPS, PPS] } else { &[] };
    let arrays = needed.len() + rng.below(5 - needed.len());
    record.push(arrays as u8);
    for at in 0..arrays {
        let types = [VPS, SPS, PPS, SPS, PPS, OTHER, rng.byte() & 0x3F];
        let (array, least) = match needed.get(at) {
            Some(needed) => (*needed, 1),
            None => (*rng.pick(&types), 0),
        };
        let named = match rng.below(30) {
            0 => *rng.pick(&types),
            _ => array,
        };
        let count = match rng.below(2_000) {
            0 => 255 + rng.below(3),
            _ => least + rng.below(3 - least),
        };
        record.push(rng.byte() & 0xC0 | array);
        record.extend((count as u16).to_be_bytes());
        record.extend(random_sets(rng, Kind::Hevc, named, count));
    }
    let more = rng.below(3);
    record.extend(rng.bytes(more));
    random_damage(rng, &mut record);
    record
}

/// The class of the first thing that is wrong. Types come last, so that whatever the Rust refuses
/// has the class of its reason.
pub fn class(record: &[u8]) -> Class {
    let accepted = class_of_rust(record)?;
    let Some(set) = first_misnamed(b"hvc1", record) else {
        return Ok(accepted);
    };
    let other = !(VPS..=PPS).contains(&set.list);
    Err(FOR_A_TYPE[2 * usize::from(other) + usize::from(set.before > 0)])
}

fn class_of_rust(record: &[u8]) -> Class {
    let refused = |fault| match fault {
        Fault::Empty => "HEVC refused: empty set",
        Fault::Cut => "HEVC refused: cut",
    };
    if record.len() < 23 {
        return Err("HEVC refused: short");
    }
    if record[0] != 1 {
        return Err("HEVC refused: version");
    }
    let mut found = vec![];
    let mut rest = &record[23..];
    for _ in 0..record[22] {
        let [array, high, low, behind @ ..] = rest else {
            return Err("HEVC refused: cut");
        };
        let count = u16::from_be_bytes([*high, *low]).into();
        rest = behind_sets(count, behind).map_err(refused)?;
        if count > 0 {
            found.push(array & 0x3F);
        }
    }
    match (found.contains(&SPS), found.contains(&PPS)) {
        (true, true) => Ok("HEVC"),
        (false, _) => Err("HEVC refused: no SPS"),
        (true, false) => Err("HEVC refused: no PPS"),
    }
}
