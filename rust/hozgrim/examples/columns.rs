//! Walks containers of microphones into columns. See `USAGE`. It prints what examples/c/columns.c
//! prints.

pub mod command_line;

use std::process::ExitCode;

use hozgrim::{ColumnsMut, FrameType, LentColumns};

use command_line::{Failure, end, hexadecimal, wordless};

const USAGE: &str = "\
usage: columns
           walks audio containers of a sample hearing into the same columns of 8 entries: a line for
           each, with a line for each of its tracks, and the body of one microphone; among them are
           two that are refused, and leave the columns as they were
       columns --help
           this text
";

/// How many tracks there is room for.
const ROOM: usize = 8;

/// The microphone of the witness.
const WITNESS: u8 = 4;

/// Five microphones, one of them silent. The ids stand in no order.
const HEARING: &[u8] = b"\x95\x11Opus\x02\x00\x00\x02\xA1\xA2\x01\x00\x00\x01\xB1\x07\x00\x00\x00\
    \x04\x00\x00\x03\xC1\xC2\xC3\x03\x00\x00\x02\xD1\xD2";

/// Counsel and witness alone, each with a codec of its own.
const IN_CHAMBERS: &[u8] = b"\x95\x21Opus\x04\x00\x00\x02\xE1\xE2mp4a\x09\x00\x00\x01\xF1";

fn main() -> ExitCode {
    end(USAGE, run)
}

/// What is printed for these words.
pub fn run(words: &[String]) -> Result<String, Failure> {
    wordless(USAGE, words, sample)
}

fn sample() -> String {
    let mut memory = Memory::default();
    let cut = &HEARING[..HEARING.len() - 1];
    let mut lines = memory.receive(HEARING, ROOM);
    lines.extend(memory.receive(HEARING, 4));
    lines.extend(memory.receive(cut, ROOM));
    lines.push(memory.held());
    lines.extend(memory.receive(IN_CHAMBERS, ROOM));
    lines.push(memory.held());
    lines.into_iter().map(|line| line + "\n").collect()
}

/// Columns that one container after the other is walked into.
#[derive(Default)]
pub struct Memory {
    ids: [u8; ROOM],
    fourccs: [u32; ROOM],
    starts: [usize; ROOM],
    lengths: [usize; ROOM],
}

impl Memory {
    /// Walks a container, with so many entries for starts, and says what it has.
    pub fn receive(&mut self, payload: &[u8], room: usize) -> Vec<String> {
        let received = format!("audio, {} bytes", payload.len());
        let columns = ColumnsMut {
            ids: &mut self.ids,
            fourccs: &mut self.fourccs,
            starts: &mut self.starts[..room],
            lengths: &mut self.lengths,
        };
        match columns.walk(FrameType::Audio, payload) {
            Ok(columns) => {
                let mut lines = vec![format!("{received}: {} tracks", columns.len())];
                lines.extend(listed(columns));
                lines.push(heard(columns, WITNESS));
                lines
            }
            Err(refusal) => {
                let number = refusal.number();
                vec![format!("{received}, {room} starts: refused, {number}")]
            }
        }
    }

    /// The ids in the column, with those behind the last container.
    pub fn held(&self) -> String {
        format!("ids: {}", hexadecimal(&self.ids))
    }
}

/// A line for each track. No head is gone over any more.
fn listed(columns: LentColumns) -> impl Iterator<Item = String> {
    columns.iter().enumerate().map(|(number, track)| {
        let (id, fourcc, length) = (track.id, track.fourcc, track.payload.len());
        let start = track.start;
        format!("  {number}: microphone {id}, {fourcc}, {length} bytes from {start} on")
    })
}

/// What a microphone sends. Its number is found in one column, and the others are not looked at.
fn heard(columns: LentColumns, id: u8) -> String {
    let mut ids = columns.track_columns().ids.iter();
    let number = ids.position(|found| *found == id);
    match number.map(|number| columns.track(number)) {
        Some(Ok(track)) => format!("microphone {id}: {}", hexadecimal(track.payload)),
        Some(Err(refusal)) => format!("microphone {id}: refused, {}", refusal.number()),
        None => format!("microphone {id}: no track"),
    }
}
