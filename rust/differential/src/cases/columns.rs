//! The stored walks into columns and readings from them, each with its answer. The Rust has no
//! columns: the answers come from the reading of request N9 that the port is held against.

use std::io;

use common::requirement::{NO_SUCH_TRACK, NOT_A_CONTAINER, OUTPUT_TOO_SHORT, UNKNOWN_FRAME_TYPE};
use hozgrim_sys::{HozgrimColumns, HozgrimTrack};

use super::sample::count;
use super::{row, wide};
use crate::columns::reading::walked;
use crate::columns::{Entries, Read, Walk, examples};

/// The bytes that the program knows the operations by.
const WALK_COLUMNS: u8 = b'X';
const COLUMN_REQUEST: u8 = b'Z';

/// The most entries of a column in a row.
const MOST: usize = 8;

/// The classes of what walks answer.
const WALKED: &[&str] = &[
    "refused: -21",
    "refused: -24",
    "refused: -22",
    "columns filled",
    "columns filled, with entries behind",
];

/// The classes of what is read.
const READ: &[&str] = &[
    "refused: -21",
    "refused: -23",
    "track without a record",
    "track with a valid record",
    "track with a refused record",
];

/// Prints the classes of the answers.
pub fn walk_rows() -> io::Result<Vec<Vec<u8>>> {
    let walks: Vec<_> = examples::walks().into_iter().map(Walked::new).collect();
    let classes = walks.iter().map(Walked::class);
    count("walk into columns", WALKED, classes)?;
    Ok(walks.iter().map(Walked::row).collect())
}

/// Likewise.
pub fn read_rows() -> io::Result<Vec<Vec<u8>>> {
    let reads = examples::reads();
    let classes = reads.iter().map(|read| class_of_track(&read.asked()));
    count("reading from columns", READ, classes)?;
    Ok(reads.iter().map(row_of_read).collect())
}

/// A walk with its answer, and the columns afterwards.
struct Walked {
    walk: Walk,
    answer: HozgrimColumns,
    columns: Entries,
}

impl Walked {
    fn new(walk: Walk) -> Self {
        let Walk { candidate, rooms } = &walk;
        let (answer, written) = walked(&candidate.tracks(), candidate.payload.len(), *rooms);
        let columns = Entries::filled(*rooms).with(0, &written);
        Self {
            walk,
            answer,
            columns,
        }
    }

    fn class(&self) -> &'static str {
        let HozgrimColumns { error, count } = self.answer;
        match error {
            UNKNOWN_FRAME_TYPE => "refused: -21",
            NOT_A_CONTAINER => "refused: -24",
            OUTPUT_TOO_SHORT => "refused: -22",
            _ if self.walk.rooms == [count; 4] => "columns filled",
            _ => "columns filled, with entries behind",
        }
    }

    /// Behind the payload stand the lengths of the columns; then the answer, and the columns.
    fn row(&self) -> Vec<u8> {
        let Walk { candidate, rooms } = &self.walk;
        let mut bytes = head(WALK_COLUMNS, candidate.frame_type, &candidate.payload);
        bytes.extend(lengths_of(*rooms));
        bytes.extend(wide(self.answer.error.unsigned_abs() as usize));
        bytes.extend(wide(self.answer.count));
        bytes.extend(entries(&self.columns));
        bytes
    }
}

fn class_of_track(answer: &HozgrimTrack) -> &'static str {
    match (answer.error, answer.verdict) {
        (UNKNOWN_FRAME_TYPE, _) => "refused: -21",
        (NO_SUCH_TRACK, _) => "refused: -23",
        (_, 0) => "track without a record",
        (_, 1) => "track with a valid record",
        _ => "track with a refused record",
    }
}

/// Behind the payload stand the count, the number, the lengths of the columns and the columns; then
/// the answer.
fn row_of_read(read: &Read) -> Vec<u8> {
    let mut bytes = head(COLUMN_REQUEST, read.frame_type, &read.payload);
    bytes.extend(wide(read.count));
    bytes.extend(wide(read.number));
    bytes.extend(lengths_of(read.columns.rooms()));
    bytes.extend(entries(&read.columns));
    bytes.extend(numbers(&read.asked()).map(wide).concat());
    bytes
}

fn head(operation: u8, frame_type: u32, payload: &[u8]) -> Vec<u8> {
    let number = u8::try_from(frame_type).expect("a row has a byte for it");
    row(operation, number, 0, 0, payload)
}

fn lengths_of(rooms: [usize; 4]) -> Vec<u8> {
    assert!(rooms.iter().all(|room| *room <= MOST), "{rooms:?}");
    rooms.map(wide).concat()
}

/// The columns, one behind the other. An id has one byte, a FourCC four, a start and a length eight.
fn entries(columns: &Entries) -> Vec<u8> {
    let places = columns.starts.iter().chain(&columns.lengths);
    let fourccs = columns.fourccs.iter().flat_map(|entry| entry.to_be_bytes());
    let places = places.flat_map(|entry| wide(*entry));
    let ids = columns.ids.iter().copied();
    ids.chain(fourccs).chain(places).collect()
}

/// The answer's numbers in the order of the row; the error without its sign.
fn numbers(answer: &HozgrimTrack) -> [usize; 9] {
    [
        answer.error.unsigned_abs() as usize,
        answer.count,
        answer.track_id.into(),
        answer.packet_type.into(),
        answer.fourcc as usize,
        answer.video_frame_type.into(),
        answer.start,
        answer.length,
        answer.verdict.into(),
    ]
}
