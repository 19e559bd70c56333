//! Records and frames by which the readings of request N7 are told apart: sets that name the type
//! of their list, and sets that do not. Each is held against what the request says of it.

use common::requirement::AVC;
use oracle::FRAME_TYPES;
use oracle::types::FrameType;
use sheet_check::starts::kind_and_hint;

use crate::containers::tiled::{AUDIO, FORMS, Track, VIDEO, container};
use crate::records::{avc, avc_valid, hevc, hevc_valid};
use crate::starts::TYPES;

/// AVC records, by the first bytes of the sets in their three lists, and the verdicts on them.
const AVCS: &[([&[u8]; 3], bool)] = &[
    // Each list has its own type; the lists exchanged.
    ([b"\x67", b"\x68", b"\x6D"], true),
    ([b"\x67", b"\x67", b""], false),
    ([b"\x68", b"\x68", b""], false),
    ([b"\x68", b"\x67", b""], false),
    ([b"\x6D", b"\x68", b""], false),
    ([b"\x67", b"\x6D", b""], false),
    ([b"\x67", b"\x68", b"\x67"], false),
    ([b"\x67", b"\x68", b"\x68"], false),
    // The low five bits alone.
    ([b"\xE7", b"\x08", b""], true),
    ([b"\x67", b"\x88", b""], true),
    ([b"\x07", b"\xE8", b"\x0D"], true),
    ([b"\x27", b"\x28", b"\xED"], true),
    ([b"\x77", b"\x68", b""], false),
    ([b"\x6F", b"\x68", b""], false),
    ([b"\x67", b"\x78", b""], false),
    ([b"\x67", b"\x60", b""], false),
    ([b"\x67", b"\x68", b"\x7D"], false),
    ([b"\x67", b"\x68", b"\x65"], false),
    ([b"\x0E", b"\x10", b""], false),
    ([b"\x00", b"\x00", b""], false),
    // Every set.
    ([b"\x67\x07", b"\x68\x08", b"\x6D\x0D"], true),
    ([b"\x67\x68", b"\x68", b""], false),
    ([b"\x68\x67", b"\x68", b""], false),
    ([b"\x67", b"\xE8\x00", b""], false),
    ([b"\x67", b"\x67\x68", b""], false),
    ([b"\x67", b"\x68", b"\x6D\x67"], false),
    ([b"\x67", b"\x68", b"\x67\x6D"], false),
    ([b"\x67\x67\x68", b"\x68\x68\x67", b"\x6D\x6D\x68"], false),
    ([b"\x67", b"\x68", b"\x00"], false),
];

/// The byte of an array, and the first bytes of its sets.
type Array = (u8, &'static [u8]);

/// HEVC records, by their arrays, and the verdicts on them.
const HEVCS: &[(&[Array], bool)] = &[
    // Bits 1 to 6: not the low six, nor five of them. The free bits.
    (&[(0x21, b"\x42"), (0x22, b"\x44")], true),
    (&[(0x21, b"\xC3"), (0x22, b"\xC5")], true),
    (&[(0x21, b"\x43"), (0x22, b"\xC4")], true),
    (&[(0x21, b"\x21"), (0x22, b"\x22")], false),
    (&[(0x21, b"\x02"), (0x22, b"\x44")], false),
    (&[(0x21, b"\x42"), (0x22, b"\x04")], false),
    (&[(0x21, b"\x67"), (0x22, b"\x68")], false),
    // Each array has its own type, whatever its upper bits are.
    (&[(0xA0, b"\x40"), (0xE1, b"\x42"), (0xA2, b"\x44")], true),
    (&[(0x20, b"\x42"), (0x21, b"\x42"), (0x22, b"\x44")], false),
    (&[(0x21, b"\x44"), (0x22, b"\x42")], false),
    (&[(0x21, b"\x42"), (0x22, b"\x42")], false),
    // Arrays that no rule names.
    (&[(0x21, b"\x42"), (0x22, b"\x44"), (0x27, b"\x4E")], true),
    (&[(0x21, b"\x42"), (0x22, b"\x44"), (0x27, b"\x40")], false),
    (&[(0x00, b"\x02"), (0x21, b"\x42"), (0x22, b"\x44")], false),
    (&[(0x00, b"\x81"), (0x21, b"\x42"), (0x22, b"\x44")], true),
    (&[(0x3F, b"\x7E"), (0x21, b"\x42"), (0x22, b"\x44")], true),
    (&[(0x3F, b"\x3F"), (0x21, b"\x42"), (0x22, b"\x44")], false),
    // Without sets an array names nothing, and has none of its type.
    (&[(0x27, b""), (0x21, b"\x42"), (0x22, b"\x44")], true),
    (&[(0x21, b""), (0x22, b"\x44")], false),
    // Every set, and every array of a type.
    (&[(0x21, b"\x42\x43"), (0x22, b"\x44\xC5")], true),
    (&[(0x21, b"\x42\x44"), (0x22, b"\x44")], false),
    (&[(0x21, b"\x44\x42"), (0x22, b"\x44")], false),
    (&[(0x21, b"\x42"), (0x22, b"\x44\x44\x42")], false),
    (&[(0x21, b"\x42"), (0x22, b"\x44"), (0xA1, b"\x40")], false),
];

/// The AVC record of the cases with its lists exchanged.
pub const EXCHANGED: &[u8] = b"\x01\x42\x00\x1E\xFF\xE1\x00\x01\x68\x01\x00\x01\x67";

/// Frame type and payload of starts, with their kind, and their hint on a route without video.
const FRAMES: &[(usize, &[u8], (u8, u8))] = &[
    (
        0,
        b"\x90avc1\x01\0\0\0\0\x01\0\x01\x67\x01\0\x01\x67",
        (0, 1),
    ),
    (
        1,
        b"\x17\0\0\0\0\x01\0\0\0\0\x01\0\x01\xE7\x01\0\x01\x68",
        (1, 0),
    ),
    (
        1,
        b"\x17\0\0\0\0\x01\0\0\0\0\x01\0\x01\x67\x01\0\x01\x88",
        (1, 0),
    ),
    (
        1,
        b"\x17\0\0\0\0\x01\0\0\0\0\x01\0\x01\x67\x02\0\x01\xE8\0\x01\0",
        (0, 2),
    ),
    (
        0,
        b"\x90avc1\x01\0\0\0\0\x01\0\x01\x67\x01\0\x01\x68\0\0\0\x01\0\x01\0",
        (0, 1),
    ),
    (
        0,
        b"\x90avc1\x01\0\0\0\0\x01\0\x01\x67\x01\0\x01\x68\0\0\0\x01\0\x01\x6D",
        (2, 0),
    ),
    (
        1,
        b"\x17\0\0\0\0\x01\0\0\0\0\x01\0\x01\x68\x01\0\x01\x68",
        (0, 2),
    ),
    (
        1,
        b"\x17\0\0\0\0\x01\0\0\0\0\x01\0\x02\x07\0\x01\0\x01\x08",
        (1, 0),
    ),
    (
        1,
        b"\x27\0\0\0\0\x01\0\0\0\0\x01\0\x01\0\x01\0\x01\0",
        (0, 2),
    ),
    (
        1,
        b"\x80hvc1\x01\0\0\0\0\0\0\0\0\0\0\0\0\0\0\0\0\0\0\0\0\0\x02\
        \x21\0\x01\0\x01\x42\x22\0\x01\0\x01\x44",
        (1, 0),
    ),
    (
        1,
        b"\x80hvc1\x01\0\0\0\0\0\0\0\0\0\0\0\0\0\0\0\0\0\0\0\0\0\x02\
        \x21\0\x01\0\x01\x21\x22\0\x01\0\x01\x22",
        (0, 2),
    ),
];

/// The records of AVC and of HEVC, each with its FourCC and its verdict.
pub fn records() -> Vec<([u8; 4], Vec<u8>, bool)> {
    let mut records = vec![(*b"avc1", AVC.to_vec(), true)];
    records.push((*b"avc1", EXCHANGED.to_vec(), false));
    for (firsts, valid) in AVCS {
        records.push((*b"avc1", avc::of_first_bytes(*firsts), *valid));
    }
    for (arrays, valid) in HEVCS {
        records.push((*b"hvc1", hevc::of_first_bytes(arrays), *valid));
    }
    for (fourcc, record, valid) in &records {
        let verdict = match fourcc {
            b"avc1" => avc_valid(record),
            _ => hevc_valid(record),
        };
        assert_eq!(verdict, *valid, "{record:02X?}");
    }
    records
}

/// The listed frames; the records as starts, in audio and in video; and in containers, alone, and
/// beside valid and refused ones.
pub fn frames() -> Vec<(FrameType, Vec<u8>)> {
    let listed = FRAMES.iter().map(|(frame_type, payload, class)| {
        let known = FRAME_TYPES[*frame_type];
        assert_eq!(kind_and_hint(known, payload, false), *class);
        (known, payload.to_vec())
    });
    let starts = records().into_iter().flat_map(|(fourcc, record, _)| {
        let payload = [b"\x90", &fourcc[..], &record].concat();
        TYPES.map(|known| (known, payload.clone()))
    });
    let containers = rows().into_iter().flat_map(|tracks| {
        let of_forms = TYPES.into_iter().zip([AUDIO, VIDEO]);
        of_forms.flat_map(move |(known, first)| {
            FORMS.map(|form| (known, container(first, form, 0, &tracks)))
        })
    });
    listed.chain(starts).chain(containers).collect()
}

/// Tracks of which some have a record that is refused for a type.
fn rows() -> Vec<Vec<Track>> {
    let low_bits = hevc::of_first_bytes(&[(0x21, b"\x21"), (0x22, b"\x22")]);
    let right = hevc::of_first_bytes(&[(0x21, b"\x42"), (0x22, b"\x44")]);
    let rows: [&[(&[u8; 4], &[u8])]; 9] = [
        &[(b"avc1", EXCHANGED)],
        &[(b"hvc1", &low_bits)],
        &[(b"avc1", AVC), (b"avc1", EXCHANGED)],
        &[(b"avc1", EXCHANGED), (b"avc1", AVC)],
        &[(b"avc1", EXCHANGED), (b"avc1", EXCHANGED)],
        &[(b"hvc1", &right), (b"hvc1", &low_bits)],
        &[(b"av01", b"\xAA"), (b"avc1", EXCHANGED), (b"hvc1", &right)],
        // Another record is refused anyway.
        &[(b"avc1", EXCHANGED), (b"avc1", b"\x01")],
        &[(b"avc1", b"\x01"), (b"avc1", EXCHANGED), (b"avc1", AVC)],
    ];
    let track = |(id, (fourcc, body)): (usize, &(&[u8; 4], &[u8]))| Track {
        id: id as u8,
        fourcc: **fourcc,
        body: body.to_vec(),
    };
    rows.map(|row| row.iter().enumerate().map(track).collect())
        .into()
}
