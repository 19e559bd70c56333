//! The stored cases of the program `cases`: what it reads, and what it must print for it. They are
//! made by `rust/run-differential cases crates/cases` in the root of the repository; the folder, if
//! it is not absolute, counts from the caller's. `crates/cases/README.md` says what a row holds.
//!
//! The Rust files give every answer but those that docs/REQUIREMENTS.md fixes. They have no case
//! for a frame type above 3, an output that is too short, and a track that is not there (section
//! 18); they accept a container that names itself, which has no tracks (section 23, request N2);
//! the time of a frame with its offset, and the refusal of an offset, are request N6's; and a record
//! with a set that names another type than its list is refused by request N7, and so are kind and
//! hint of what would be a sequence header with it. They copy what they peel: where it stands without
//! a copy, and what the payload then holds, is made from it (section 12). What the sheet prints for a
//! frame of its input is read from section 17, by `sheet_check`. The Rust has no FLV files: they and
//! their sheet are read from request N3. It has no level: that is read from request N4; nor times
//! that are split: N6. Nor has it a store: what one holds is read from the history by request N8;
//! nor columns: they are made of its tracks, and read, by request N9.
//!
//! The stored cases of the program `uplink_cases` are made here too (`uplinks`).

mod answers;
mod classify;
mod columns;
mod containers;
mod descriptors;
mod flv_files;
mod headers;
mod levels;
mod list;
mod misnamed;
mod passes;
mod passes_in_place;
mod records;
mod requests;
mod sample;
mod sheet_frames;
mod split_times;
mod stores;
pub mod uplinks;

use std::io;
use std::path::Path;

use common::{files, say};
use oracle::types::FrameType;

/// What an output holds before it is lent.
const FILLING: u8 = 0xA5;

/// What is asked for, with an answer that is printed. The number is the byte that the program knows
/// it by.
#[derive(Clone, Copy, Debug)]
#[repr(u8)]
enum Operation {
    FrameType = b'T',
    Fourcc = b'F',
    Peel = b'P',
    ModexPrefix = b'M',
    Exvideo = b'V',
    Exaudio = b'A',
    Record = b'R',
    Start = b'S',
    Descriptor = b'D',
    Container = b'C',
    Classify = b'K',
}

/// One case. An operation that does not take a part of it has 0 there.
struct Case {
    operation: Operation,
    frame_type: FrameType,
    number: u32,
    /// The output's length.
    room: usize,
    payload: Vec<u8>,
}

impl Case {
    /// A case of an operation that takes a payload alone.
    fn new(operation: Operation, payload: Vec<u8>) -> Self {
        Self {
            operation,
            frame_type: FrameType::Audio,
            number: 0,
            room: 0,
            payload,
        }
    }

    fn bytes(&self) -> Vec<u8> {
        let (operation, frame_type) = (self.operation as u8, self.frame_type as u8);
        row(operation, frame_type, self.number, self.room, &self.payload)
    }
}

/// What the program reads of every case: a head of 12 bytes, and the payload.
fn row(operation: u8, frame_type: u8, number: u32, room: usize, payload: &[u8]) -> Vec<u8> {
    let [_, room @ ..] = (room as u32).to_be_bytes();
    let [_, length @ ..] = (payload.len() as u32).to_be_bytes();
    let mut bytes = vec![operation, frame_type];
    bytes.extend(number.to_be_bytes());
    bytes.extend(room);
    bytes.extend(length);
    bytes.extend(payload);
    bytes
}

/// A number that a payload has, in eight bytes.
fn wide(number: usize) -> [u8; 8] {
    (number as u64).to_be_bytes()
}

/// Writes the files `stdin` and `stdout` in the folder, and prints how many cases there are.
pub fn write(folder: &Path) -> io::Result<()> {
    let mut stdin = vec![];
    let mut stdout = String::new();
    for cases in list::of_each_operation() {
        say!("{:>6}  {:?}", cases.len(), cases[0].operation);
        for case in cases {
            stdin.extend(case.bytes());
            stdout += &answers::line(&case);
            stdout += "\n";
        }
    }
    let mut printed = vec![("frame_text", sheet_frames::rows()?)];
    printed.extend(flv_files::rows()?);
    printed.push(("level", levels::rows()?));
    printed.push(("split_time", split_times::rows()?));
    for (name, rows) in printed {
        say!("{:>6}  {name}", rows.len());
        for (row, line) in rows {
            stdin.extend(row);
            stdout += &line;
            stdout += "\n";
        }
    }
    let compared = [
        ("frame_pass", passes::rows()?),
        ("track_request", requests::rows()?),
        ("frame_pass_in_place", passes_in_place::rows()?),
        ("store_frame", stores::rows()?),
        ("walk_columns", columns::walk_rows()?),
        ("column_request", columns::read_rows()?),
    ];
    for (name, rows) in compared {
        say!("{:>6}  {name}", rows.len());
        stdin.extend(rows.concat());
        stdout += &format!("{name} {} rows, 0 differ\n", rows.len());
    }
    say!("{} bytes in, {} out", stdin.len(), stdout.len());
    files::write(&folder.join("stdin"), stdin)?;
    files::write(&folder.join("stdout"), stdout)
}
