//! Which cases of codec configuration records and of sequence starts are stored.

use common::layers;
use common::requirement::AVC;

use super::list::of_each_class;
use super::{Case, Operation, misnamed};
use crate::aac::{self, Aac};
use crate::records::{Record, Records, hevc};
use crate::run::name_of;
use crate::starts::{Start, Starts, TYPES};

/// Records that are easily misjudged.
const RECORDS: &[&[u8]] = &[
    // Those of docs/REQUIREMENTS.md, section 19; the first AVC record stands among the cut ones.
    b"\x12\x10",
    b"\x12",
    b"\x16\x80",
    b"\x01\x42\x00\x1E\xFF\xE1\x00\x01\x67\x01\x00\x01\x68\x00",
    // AVC: upper bits of the count; no set; no picture set; extensions, and a byte behind.
    b"\x01\x42\x00\x1E\xFF\x01\x00\x01\x67\x01\x00\x01\x68",
    b"\x01\x42\x00\x1E\xFF\xE0\x01\x00\x01\x68",
    b"\x01\x42\x00\x1E\xFF\xE1\x00\x01\x67\x00",
    b"\x01\x42\x00\x1E\xFF\xE1\x00\x01\x67\x01\x00\x01\x68\xFD\xF8\xF8",
    b"\x01\x42\x00\x1E\xFF\xE1\x00\x01\x67\x01\x00\x01\x68\xFD\xF8\xF8\x00",
    b"\x01\x42\x00\x1E\xFF\xE1\x00\x01\x67\x01\x00\x01\x68\xFD\xF8\xF8\x00\xAA",
    b"\x01\x42\x00\x1E\xFF\xE1\x00\x01\x67\x01\x00\x01\x68\xFD\xF8\xF8\x01\x00\x01\x6D",
    b"\x01\x42\x00\x1E\xFF\xE1\x00\x01\x67\x01\x00\x01\x68\xFD\xF8\xF8\x01\x00\x00",
    // AAC: explicit frequency, escape object type, both; each one byte short too.
    b"\x17\x80\x00\x00\x08",
    b"\x17\x80\x00\x00",
    b"\xF8\x08\x40",
    b"\xF8\x08",
    b"\xF8\x1E\x00\x00\x00\x20",
    b"\xF8\x1E\x00\x00\x00",
    // AAC: object type 0, indexes 12 to 14, channel configuration 0.
    b"\x07\xFF\xFF",
    b"\x16\x10",
    b"\x17\x10",
    b"\x12\x00",
];

/// Records around the starts' rules: empty, and of each codec; one of AVC whose lists are exchanged.
fn started() -> [Vec<u8>; 6] {
    let valid = hevc::small().find(|record| hevc::class(record).is_ok());
    [
        vec![],
        vec![0x12],
        vec![0x12, 0x10],
        AVC.to_vec(),
        misnamed::EXCHANGED.to_vec(),
        valid.expect("there are such records"),
    ]
}

/// Records of docs/REQUIREMENTS.md and others, an AVC record that is cut off, those by which the
/// readings of request N7 are told apart, and two of each class.
pub fn records() -> Vec<Case> {
    let mut records: Vec<Vec<u8>> = RECORDS.iter().map(|record| record.to_vec()).collect();
    records.extend(layers::truncations(AVC.to_vec()));
    let misnamed = misnamed::records().into_iter();
    records.extend(misnamed.map(|(_, record, _)| record));
    let class = |record: &Record| (name_of(record.class()), record.bytes.len());
    let of_each = of_each_class::<Records>(class);
    records.extend(of_each.into_iter().map(|record| record.bytes));
    records.extend(of_each_class::<Aac>(|record| {
        (name_of(aac::class(record)), record.len())
    }));
    let case = |record| Case::new(Operation::Record, record);
    records.into_iter().map(case).collect()
}

/// FourCCs, known and unknown, with each record; those by which the readings of request N7 are told
/// apart; and two of each class.
pub fn starts() -> Vec<Case> {
    let mut starts = vec![];
    for fourcc in [
        b"avc1", b"hvc1", b"mp4a", b"Opus", b"fLaC", b"av01", b"opus",
    ] {
        for record in started() {
            starts.extend(TYPES.map(|frame_type| Start {
                frame_type,
                fourcc: *fourcc,
                record: record.clone(),
            }));
        }
    }
    for (fourcc, record, _) in misnamed::records() {
        starts.extend(TYPES.map(|frame_type| Start {
            frame_type,
            fourcc,
            record: record.clone(),
        }));
    }
    starts.extend(of_each_class::<Starts>(|start| {
        (name_of(start.class()), start.record.len())
    }));
    let case = |start: Start| Case {
        frame_type: start.frame_type,
        ..Case::new(
            Operation::Start,
            [&start.fourcc[..], &start.record].concat(),
        )
    };
    starts.into_iter().map(case).collect()
}
