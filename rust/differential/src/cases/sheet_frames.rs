//! The stored frames of the sheet's input, one in a row. What is printed for them comes from the
//! reading of docs/REQUIREMENTS.md, section 17, that the program `sheet` is held against.

use std::cmp::Ordering;
use std::io;

use common::requirement::{BAD_OFFSET, OUTPUT_TOO_SHORT, UNKNOWN_FRAME_TYPE};
use sheet_check::frames::{Frame, MISNAMED, REFUSED, listed};
use sheet_check::reading::{self, HEAD, LONGEST, WIDTH};

use super::answers::hex;
use super::sample::count;
use super::{FILLING, row};
use crate::containers::tiled::{AUDIO, Form, container, tracks};

/// The byte that the program knows the operation by.
const SHEET_FRAME: u8 = b'L';

/// As many bytes of text as the sheet lends, and many more.
const ROOM: usize = 64;
const LONG_ROOM: usize = 200;

/// Frame numbers, and widths of their column.
const NUMBERS: [u64; 6] = [1, 9, 10, 999_999, 1_000_000, 1 << 32];
const WIDTHS: [u8; 4] = [0, 1, 6, 10];

const INPUTS: &[&str] = &[
    "clean end",
    "refused: -25, in the head",
    "refused: -21",
    "refused: -22",
    "refused: -25, in the body",
    "refused: -3",
    "frame of kind 0, hint 0",
    "frame of kind 0, hint 2",
    "frame of kind 1, hint 0",
    "frame of kind 2, hint 0",
    "frame of kind 3, hint 1",
];

const TEXTS: &[&str] = &[
    "no text",
    "line, buffer too short",
    "line, buffer as long",
    "line, buffer longer",
    "refusal, buffer too short",
    "refusal, buffer as long",
    "refusal, buffer longer",
];

const COLUMNS: &[&str] = &[
    "number narrower than its column",
    "number as wide as its column",
    "number wider than its column",
];

/// The rows, with the lines that are printed for them. Prints the classes of the inputs, of the
/// texts by their buffers, and of the numbers by their columns.
pub fn rows() -> io::Result<Vec<(Vec<u8>, String)>> {
    let stored = stored();
    let inputs = stored.iter().map(SheetFrame::class);
    count("sheet frames", INPUTS, inputs)?;
    let texts = stored.iter().map(SheetFrame::class_of_text);
    count("sheet frames, by text", TEXTS, texts)?;
    let numbers = stored.iter().map(SheetFrame::class_of_number);
    count("sheet frames, by number", COLUMNS, numbers)?;
    let rows = stored.iter().map(|frame| (frame.row(), frame.line()));
    Ok(rows.collect())
}

fn stored() -> Vec<SheetFrame> {
    let mut stored = ends().to_vec();
    stored.extend(refused());
    stored.extend(accepted());
    stored.push(longest());
    stored.extend(columns());
    stored.extend(rooms());
    stored
}

/// Where the input ends nothing is printed, whatever is lent.
fn ends() -> [SheetFrame; 3] {
    let end = SheetFrame::new(0, b"");
    let without_a_byte = SheetFrame {
        room: 0,
        ..end.clone()
    };
    let last = SheetFrame {
        width: 10,
        ..SheetFrame::new(u32::MAX, b"")
    };
    [end, without_a_byte, last]
}

fn refused() -> impl Iterator<Item = SheetFrame> {
    let refused = (0..).zip(REFUSED);
    refused.map(|(before, (input, _))| SheetFrame::new(before, input))
}

/// The listed frames in their order, and starts with sets that name another type than their list,
/// with the next one behind each.
fn accepted() -> Vec<SheetFrame> {
    let mut listed = listed();
    let misnamed = MISNAMED.iter();
    listed.extend(misnamed.map(|(frame_type, payload)| Frame::new(*frame_type, payload)));
    let next = listed.iter().cycle().skip(1);
    let pairs = (0..).zip(listed.iter().zip(next));
    let followed = pairs.map(|(before, (frame, next))| {
        let input = [frame.bytes(), next.bytes()].concat();
        SheetFrame::new(before, &input)
    });
    followed.collect()
}

/// The longest payload, with as many tracks as there may be and a byte behind it.
fn longest() -> SheetFrame {
    const TRACKS: usize = 4_096;
    let mut lengths = [0; TRACKS];
    lengths[TRACKS - 1] = LONGEST - 6 - 4 * TRACKS;
    let payload = container(AUDIO, Form::ManyTracks, 1, &tracks(&lengths));
    let input = [&Frame::new(0, &payload).bytes()[..], b"\x00"].concat();
    SheetFrame::new(0, &input)
}

/// Each number in each width, of a line and of a refusal by turns, with buffers that they fill.
fn columns() -> Vec<SheetFrame> {
    let inputs: [&[u8]; 2] = [b"\x01\x00\x00\x05\x17\x01\x00\x00\x00", b"\x04\x00\x00\x00"];
    let mut columns = vec![];
    for (turn, number) in (0..).zip(NUMBERS) {
        for (turn, width) in (turn..).zip(WIDTHS) {
            let before = (number - 1) as u32;
            let column = SheetFrame {
                width,
                ..SheetFrame::new(before, inputs[turn % inputs.len()])
            };
            columns.push(column.with_room(|length| length));
        }
    }
    columns
}

/// A line and each refusal, with buffers that have no byte, that are one byte too short, as long,
/// and much longer.
fn rooms() -> Vec<SheetFrame> {
    let texts: [(u8, u32, &[u8]); 5] = [
        (6, 3, b"\x00\x00\x00\x0B\x95\x11Opus\x01\x00\x00\x01\xAA"),
        (10, 999_998, b"\x09\x00\x00\x00"),
        (0, u32::MAX, b"\x02\x00\x80\x01"),
        (1, 9, b"\x01\x00\x00\x05\x17"),
        (6, 99, b"\x00\x00\x00\x04\x97\x00\xAA\x01"),
    ];
    let each = texts.into_iter().flat_map(|(width, before, input)| {
        let frame = SheetFrame {
            width,
            ..SheetFrame::new(before, input)
        };
        let rooms: [fn(usize) -> usize; 4] =
            [|_| 0, |length| length - 1, |length| length, |_| LONG_ROOM];
        rooms.map(|room| frame.clone().with_room(room))
    });
    each.collect()
}

/// What stands in an input from a frame on, and how the frame is printed.
#[derive(Clone)]
struct SheetFrame {
    /// The columns of the frame number.
    width: u8,
    /// How many frames came before.
    before: u32,
    /// The length of the text buffer.
    room: usize,
    input: Vec<u8>,
}

impl SheetFrame {
    /// With the width and the buffer of the program `sheet`.
    fn new(before: u32, input: &[u8]) -> Self {
        Self {
            width: WIDTH as u8,
            before,
            room: ROOM,
            input: input.to_vec(),
        }
    }

    /// With a buffer whose length goes by that of the text.
    fn with_room(self, room: impl Fn(usize) -> usize) -> Self {
        let (_, text) = self.text();
        Self {
            room: room(text.len()),
            ..self
        }
    }

    /// The frame or its refusal; none where the input ends.
    fn frame(&self) -> Option<Result<reading::Frame<'_>, i32>> {
        reading::frames(&self.input).next()
    }

    fn number(&self) -> u64 {
        u64::from(self.before) + 1
    }

    /// The refusal, which is 0 if there is none, and the text.
    fn text(&self) -> (i32, String) {
        let Some(frame) = self.frame() else {
            return (0, String::new());
        };
        let text = reading::line(self.width.into(), self.number(), &frame);
        (frame.err().unwrap_or(0), text)
    }

    fn row(&self) -> Vec<u8> {
        row(SHEET_FRAME, self.width, self.before, self.room, &self.input)
    }

    /// With the buffer afterwards: the text and then the bytes that it has kept, or only those. A
    /// buffer that is too short is reported before the frame's own refusal.
    fn line(&self) -> String {
        let (refusal, text) = self.text();
        let mut output = vec![FILLING; self.room];
        let (error, length) = match output.get_mut(..text.len()) {
            Some(front) => {
                front.copy_from_slice(text.as_bytes());
                (refusal, text.len())
            }
            None => (OUTPUT_TOO_SHORT, 0),
        };
        let output = hex(&output);
        format!("frame_text {error} {length} {output}")
    }

    fn class(&self) -> &'static str {
        let Some(frame) = self.frame() else {
            return "clean end";
        };
        match frame {
            Ok(frame) => class_of_frame(&frame),
            Err(UNKNOWN_FRAME_TYPE) => "refused: -21",
            Err(OUTPUT_TOO_SHORT) => "refused: -22",
            Err(BAD_OFFSET) => "refused: -3",
            Err(_) if self.input.len() < HEAD => "refused: -25, in the head",
            Err(_) => "refused: -25, in the body",
        }
    }

    fn class_of_text(&self) -> &'static str {
        let (refusal, text) = self.text();
        if text.is_empty() {
            return "no text";
        }
        match (refusal, self.room.cmp(&text.len())) {
            (0, Ordering::Less) => "line, buffer too short",
            (0, Ordering::Equal) => "line, buffer as long",
            (0, Ordering::Greater) => "line, buffer longer",
            (_, Ordering::Less) => "refusal, buffer too short",
            (_, Ordering::Equal) => "refusal, buffer as long",
            (_, Ordering::Greater) => "refusal, buffer longer",
        }
    }

    fn class_of_number(&self) -> &'static str {
        let digits = self.number().to_string().len();
        match digits.cmp(&self.width.into()) {
            Ordering::Less => "number narrower than its column",
            Ordering::Equal => "number as wide as its column",
            Ordering::Greater => "number wider than its column",
        }
    }
}

pub fn class_of_frame(frame: &reading::Frame) -> &'static str {
    let seen = frame.seen();
    match (seen.kind, seen.hint) {
        (0, 0) => "frame of kind 0, hint 0",
        (0, _) => "frame of kind 0, hint 2",
        (1, _) => "frame of kind 1, hint 0",
        (2, _) => "frame of kind 2, hint 0",
        _ => "frame of kind 3, hint 1",
    }
}
