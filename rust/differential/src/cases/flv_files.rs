//! The stored rows of FLV files: what is read and written, and the steps of their sheet. The Rust
//! has no such files; the answers come from the readings of request N3 (docs/REQUIREMENTS.md,
//! section 23) that the port and the program `flv_sheet` are held against.

use std::collections::HashSet;
use std::io;

use common::flv::{self, BACK_POINTER, FrameArguments, HEAD, HEADER, START, TYPE_BYTES, Tag, tag};
use common::recordings::{OTHER_TYPES, Recording, TIMES, four_tags};
use common::requirement::{BAD_OFFSET, OUTPUT_TOO_SHORT};
use common::writing::{AUDIO, Arguments, METADATA, SCRIPT, VIDEO, error};
use sheet_check::frames::{REFUSED_OFFSETS, listed};
use sheet_check::reading::{LAST, LONGEST, WIDTH, line};
use sheet_check::recording;

use super::answers::hex;
use super::sample::count;
use super::sheet_frames::class_of_frame;
use super::{FILLING, row};
use crate::flv_write::Call;
use crate::writing::Lent;

/// A length whose three bytes differ.
const LONG: usize = 0x01_0203;

/// Another tag that would be a frame by its low bits.
const OTHER: u8 = 0x29;

const STARTS: &[&str] = &[
    "a start",
    "it ends in the header",
    "a wrong signature",
    "a wrong version",
    "a wrong data offset",
    "it ends in the first back-pointer",
    "a wrong first back-pointer",
];

const PLACES: &[&str] = &[
    "a frame",
    "a frame behind other tags",
    "the end",
    "the end behind other tags",
    "a place past the end",
    "it ends in a tag's head",
    "it ends in a frame's body",
    "it ends in another tag's body",
    "it ends in a frame's back-pointer",
    "it ends in another tag's back-pointer",
    "a frame's wrong back-pointer",
    "another tag's wrong back-pointer",
];

const WRITTEN_STARTS: &[&str] = &["the start", "too short an output for the start"];

const WRITTEN_FRAMES: &[&str] = &[
    "audio",
    "video",
    "script data",
    "a time of more than 24 bits",
    "an empty body",
    "a body of 256 to 65,535 bytes",
    "a body of 65,536 to 16,777,214 bytes",
    "metadata, which no tag holds",
    "a frame type above 3",
    "too short an output",
    "-21 before -22",
];

const STEPS: &[&str] = &[
    "the end",
    "another tag",
    "frame of kind 0, hint 0",
    "frame of kind 0, hint 2",
    "frame of kind 1, hint 0",
    "frame of kind 2, hint 0",
    "frame of kind 3, hint 1",
    "the last frame",
    "behind the last frame",
    "a frame that is too long",
    "it ends in a tag's head",
    "it ends in a frame's body",
    "it ends in another tag's body",
    "it ends in a frame's back-pointer",
    "it ends in another tag's back-pointer",
    "a frame's wrong back-pointer",
    "another tag's wrong back-pointer",
    "an offset that is refused",
];

/// A row, what is printed for it, and its class.
struct Stored {
    row: Vec<u8>,
    line: String,
    class: &'static str,
}

/// The name of an operation, its rows, and the lines that are printed for them.
type Rows = (&'static str, Vec<(Vec<u8>, String)>);

/// The rows of each operation. Prints their classes. No row stands twice.
pub fn rows() -> io::Result<Vec<Rows>> {
    let operations = [
        ("flv_start", STARTS, read_starts()),
        ("flv_next", PLACES, read_frames()),
        ("flv_write_start", WRITTEN_STARTS, written_starts()),
        ("flv_write_frame", WRITTEN_FRAMES, written_frames()),
        ("start_step", STARTS, start_steps()),
        ("tag_step", STEPS, tag_steps()),
    ];
    let rows = operations.map(|(name, classes, mut stored)| {
        let mut known = HashSet::new();
        stored.retain(|stored| known.insert(stored.row.clone()));
        count(name, classes, stored.iter().map(|stored| stored.class))?;
        let rows = stored.into_iter().map(|stored| (stored.row, stored.line));
        Ok((name, rows.collect()))
    });
    rows.into_iter().collect()
}

fn read_start(file: &[u8]) -> Stored {
    let (error, next, class) = match flv::start(file) {
        Ok(next) => (0, next, "a start"),
        Err((error, reason)) => (error, 0, reason),
    };
    Stored {
        row: row(b'B', 0, 0, 0, file),
        line: format!("flv_start {error} {next}"),
        class,
    }
}

fn read_frame(file: &[u8], at: usize) -> Stored {
    let (error, fields, class) = match flv::frames(file, at).next() {
        Some(Ok(tag)) => {
            let Tag { head, start, next } = tag;
            let frame_type = head.frame_type().expect("it is a frame") as usize;
            let fields = [
                1,
                frame_type,
                head.timestamp as usize,
                start,
                head.length,
                next,
            ];
            let class = match start - at {
                HEAD => "a frame",
                _ => "a frame behind other tags",
            };
            (0, fields, class)
        }
        None => {
            let class = match file.len() - at {
                0 => "the end",
                _ => "the end behind other tags",
            };
            (0, [0, 0, 0, 0, 0, file.len()], class)
        }
        Some(Err((error, _))) if at > file.len() => (error, [0; 6], "a place past the end"),
        Some(Err((error, reason))) => (error, [0; 6], reason),
    };
    let fields = fields.map(|field| format!(" {field}")).concat();
    Stored {
        row: row(b'N', 0, at as u32, 0, file),
        line: format!("flv_next {error}{fields}"),
        class,
    }
}

/// A call of one of the writers, with the output afterwards: what is written and then the bytes
/// that it has kept, or only those.
fn written(lent: &Lent<Call>) -> Stored {
    let Lent { arguments, room } = lent;
    let error = error(&arguments.reasons(*room));
    let written = match error {
        0 => arguments.written(),
        _ => vec![],
    };
    let length = written.len();
    let mut output = vec![FILLING; *room];
    output[..length].copy_from_slice(&written);
    let (name, row) = match arguments {
        Call::Start => ("flv_write_start", row(b'O', 0, 0, *room, b"")),
        Call::Frame(FrameArguments {
            frame_type,
            timestamp,
            body,
        }) => {
            let row = row(b'U', *frame_type as u8, *timestamp, *room, body);
            ("flv_write_frame", row)
        }
    };
    Stored {
        row,
        line: format!("{name} {error} {length} {}", hex(&output)),
        class: lent.class(),
    }
}

/// The sheet's first step, which is lent no more of a file than its start.
fn start_step(file: &[u8]) -> Stored {
    let lent = &file[..file.len().min(START.len())];
    let (goes_on, class) = match flv::start(lent) {
        Ok(_) => (1, "a start"),
        Err((_, reason)) => (0, reason),
    };
    let text = hex(&recording::sheet(lent));
    Stored {
        row: row(b'H', 0, 0, 0, file),
        line: format!("start_step {goes_on} {text}"),
        class,
    }
}

/// A step of the sheet after so many frames, on the first tag of what is still to be read.
fn tag_step(before: usize, input: &[u8]) -> Stored {
    let tag = Tag::at(input, 0);
    let end = tag.map_or(input.len(), |tag| tag.next);
    let file = [START, &input[..end]].concat();
    let frame = recording::frames(&file).next().filter(|_| before < LAST);
    let class = match &frame {
        _ if before >= LAST => "behind the last frame",
        None if input.is_empty() => "the end",
        None => "another tag",
        Some(Ok(_)) if before + 1 == LAST => "the last frame",
        Some(Ok(frame)) => class_of_frame(frame),
        Some(Err(OUTPUT_TOO_SHORT)) => "a frame that is too long",
        Some(Err(BAD_OFFSET)) => "an offset that is refused",
        Some(Err(_)) => tag.expect_err("it is refused").1,
    };
    let (passed, refused) = match frame {
        Some(Ok(_)) => (1, false),
        // The tag is whole, so the frame counts, and it is the pass that refuses it.
        Some(Err(BAD_OFFSET)) => (1, true),
        Some(Err(_)) => (0, true),
        None => (0, false),
    };
    let frames = before + passed;
    let goes_on = u8::from(!input.is_empty() && !refused && frames < LAST);
    let text = frame.map(|frame| line(WIDTH, before as u64 + 1, &frame));
    let text = hex(text.unwrap_or_default().as_bytes());
    Stored {
        row: row(b'G', 0, before as u32, 0, input),
        line: format!("tag_step {frames} {goes_on} {text}"),
        class,
    }
}

/// Files by which the readings of the start are told apart.
fn listed_starts() -> Vec<Vec<u8>> {
    let header = &START[..HEADER];
    let files: [&[&[u8]]; 19] = [
        &[],
        &[b"\x00"],
        &[&[0; 8]],
        &[&[0; 9]],
        &[&[0; 13]],
        &[header],
        &[header, b"\x00"],
        &[header, b"\x00\x00\x01"],
        &[header, b"\x00\x00\x00\x01\x00"],
        &[header, b"\x00\x00\x00\x09"],
        &[START],
        &[START, b"\x00"],
        &[START, &tag(8, 0, b"")],
        &[b"flv", &START[3..]],
        &[b"FLV\x00", &START[4..]],
        &[b"FLV\x02\x05\x00\x00\x00\x09\x00\x00\x00\x01"],
        &[b"FLV\x01\x05\x00\x00\x00\x0A\x00\x00\x00\x00\x00"],
        &[b"FLV\x01\x00", &START[5..]],
        &[b"FLV\x01\xFF", &START[5..]],
    ];
    files.map(|parts| parts.concat()).to_vec()
}

/// The start with a bit of this byte changed.
fn changed_start(at: usize) -> Vec<u8> {
    Recording::default().with_change(at, 1 << (at % 8))
}

/// With every byte changed, too, and some of them cut in or behind the place that they belong to.
fn read_starts() -> Vec<Stored> {
    let mut files = listed_starts();
    files.extend((0..START.len()).map(changed_start));
    for at in [0, 3, 8, 9, 12] {
        let place = if at < HEADER { HEADER } else { START.len() };
        let file = changed_start(at);
        files.extend([place - 1, place].map(|end| file[..end].to_vec()));
    }
    files.iter().map(|file| read_start(file)).collect()
}

fn start_steps() -> Vec<Stored> {
    let changed = [1, 3, 5, 7, 9, 11, 12].map(changed_start);
    let files = listed_starts().into_iter().chain(changed);
    files.map(|file| start_step(&file)).collect()
}

fn read_frames() -> Vec<Stored> {
    let behind_start = |parts: &[&[u8]]| {
        let file = [START, &parts.concat()[..]].concat();
        read_frame(&file, START.len())
    };
    let mut stored = places();
    let turns = TIMES.into_iter().zip(TYPE_BYTES.into_iter().cycle());
    for (length, (time, type_byte)) in turns.enumerate() {
        stored.push(behind_start(&[&tag(type_byte, time, &[0xAF; 8][..length])]));
    }
    let frame = tag(18, 6, b"\x02");
    for type_byte in OTHER_TYPES {
        stored.push(behind_start(&[&tag(type_byte, 5, b"\xAF\x01\x21"), &frame]));
    }
    let others = OTHER_TYPES.map(|type_byte| tag(type_byte, 0, b"\x08"));
    let others = others.concat();
    stored.push(behind_start(&[&others, &frame]));
    stored.push(behind_start(&[&others]));
    stored.push(behind_start(&[&others, &frame[..15]]));
    for fault in faults(8).into_iter().chain(faults(OTHER)) {
        stored.push(behind_start(&[&fault]));
    }
    // A frame is behind the fault, and is not found.
    stored.push(behind_start(&[&[0; 15], &frame]));
    stored.push(behind_start(&[&[0; 14]]));
    let empty = tag(8, 0, b"");
    for behind in [1, 10] {
        let file = [START, &empty[..], &[0; 10][..behind]].concat();
        stored.extend([START.len(), START.len() + empty.len()].map(|at| read_frame(&file, at)));
    }
    stored.push(behind_start(&[&with_stream_id(&frame)]));
    stored.push(behind_start(&[&tag(18, 0, &[0x17; LONGEST + 1])]));
    stored.push(behind_start(&[&tag(OTHER, 0, b""), &tag(9, 1, &[8; LONG])]));
    for length in [b"\x00\x80\x01", b"\xFF\xFF\xFF"] {
        stored.push(behind_start(&[b"\x08", length, &[0; 7]]));
    }
    stored
}

/// Places of tags, and such that are none: in the start, in a body, past the end.
fn places() -> Vec<Stored> {
    let four = four_tags();
    let end = four.bytes.len();
    let others = [0, 5, 12, 14, end, end + 1, end + 11, u32::MAX as usize];
    let places = four.heads.iter().copied().chain(others);
    let mut stored: Vec<Stored> = places.map(|at| read_frame(&four.bytes, at)).collect();
    let tags = [tag(8, 1, b"\xAF"), tag(0, 2, b"")].concat();
    let around = Recording::of([(9, 3, &tags[..]), (18, 5, b"")]);
    let body = around.heads[0] + HEAD;
    stored.extend([body, body + 16].map(|at| read_frame(&around.bytes, at)));
    // No start is asked for.
    stored.push(read_frame(&tags, 0));
    stored.push(read_frame(&tags[16..], 0));
    stored.extend([0, 1].map(|at| read_frame(b"", at)));
    stored
}

/// A tag that ends in each of its places, and one with back-pointers of other numbers: a byte is
/// changed, the head is left out, the back-pointer counts itself, the bytes are in another order.
fn faults(type_byte: u8) -> Vec<Vec<u8>> {
    let whole = tag(type_byte, 0x0102_0304, b"\x17\x01\x00\x00\x00");
    let (front, _) = whole.split_at(whole.len() - BACK_POINTER);
    let right = front.len() as u32;
    let mut faults = vec![];
    faults.extend([1, 10, HEAD, 15, 16, 19].map(|end| whole[..end].to_vec()));
    faults.push([front, &[0xFF; 3]].concat());
    let bytes = [0, 8, 16, 24].map(|bit| right ^ 1 << bit);
    let numbers = [right - HEAD as u32, right + 4, right.swap_bytes()];
    for number in bytes.into_iter().chain(numbers) {
        faults.push([front, &number.to_be_bytes()].concat());
    }
    faults
}

/// A tag with another stream id, which is not read.
fn with_stream_id(tag: &[u8]) -> Vec<u8> {
    [&tag[..HEAD - 3], &[0xFF; 3], &tag[HEAD..]].concat()
}

fn written_starts() -> Vec<Stored> {
    let rooms = [0, 1, 12, 13, 14, 40];
    let lent = rooms.map(|room| Lent {
        arguments: Call::Start,
        room,
    });
    lent.iter().map(written).collect()
}

/// Without a body over 16,777,215 bytes, which a row cannot hold.
fn written_frames() -> Vec<Stored> {
    let call = |frame_type, timestamp, length| {
        let body = (0..length).map(|at| at as u8 ^ 0xA1).collect();
        Call::Frame(FrameArguments {
            frame_type,
            timestamp,
            body,
        })
    };
    let types = [AUDIO, VIDEO, SCRIPT];
    let mut lent = vec![];
    for ((length, time), frame_type) in TIMES.iter().enumerate().zip(types.iter().cycle()) {
        lent.push(Lent::exact(call(*frame_type, *time, length)));
    }
    for frame_type in types {
        lent.extend(Lent::around(call(frame_type, 0x0004_0506, 1)));
    }
    lent.extend(Lent::around(call(VIDEO, 0x0001_0203, 0)));
    lent.extend([255, 0x0102, LONG].map(|length| Lent::exact(call(SCRIPT, 40, length))));
    for frame_type in [METADATA, 4, 8, 9, 18, 255] {
        lent.push(Lent::exact(call(frame_type, 40, 2)));
    }
    for frame_type in [METADATA, 18] {
        let [.., shorter, empty] = Lent::around(call(frame_type, 40, 2));
        lent.extend([shorter, empty]);
    }
    lent.iter().map(written).collect()
}

fn tag_steps() -> Vec<Stored> {
    let mut stored = long_tags();
    stored.extend(frames());
    for type_byte in [0x28, OTHER, 0x32, 0x88, 0x00, 0xFF] {
        let other = tag(type_byte, 0, b"\x17\x00");
        stored.push(tag_step(3, &[other, tag(8, 0, b"\xAF")].concat()));
    }
    for fault in faults(8).into_iter().chain(faults(OTHER)) {
        stored.push(tag_step(0, &fault));
    }
    stored.extend(refused_offsets());
    stored.extend(numbers());
    stored
}

/// In each type, before another frame; with a back-pointer that is cut or wrong; in another tag.
fn refused_offsets() -> Vec<Stored> {
    let mut stored = vec![];
    for (before, payload) in REFUSED_OFFSETS.iter().enumerate() {
        for type_byte in TYPE_BYTES {
            let input = [tag(type_byte, 0, payload), tag(8, 0, b"\xAF")].concat();
            stored.push(tag_step(before, &input));
        }
    }
    let refused = tag(9, 0, REFUSED_OFFSETS[0]);
    let front = &refused[..refused.len() - 1];
    stored.push(tag_step(1, front));
    stored.push(tag_step(1, &[front, b"\x00"].concat()));
    stored.push(tag_step(1, &tag(OTHER, 0, REFUSED_OFFSETS[0])));
    stored
}

/// Tags around the longest frame. The short ones come behind them, where a buffer still holds their
/// bytes.
fn long_tags() -> Vec<Stored> {
    let head = |type_byte: u8, length: usize| tag(type_byte, 0, &vec![0; length])[..HEAD].to_vec();
    let mut inputs = vec![
        tag(9, 0, &[0x17; LONGEST]),
        tag(18, 0, &[0x17; LONGEST + 1]),
        tag(OTHER, 0, &[0x17; LONGEST + 1]),
        tag(0x00, 0, &[0x17; LONG]),
        head(8, LONGEST),
        head(OTHER, LONGEST + 1),
        head(8, LONGEST + 1)[..HEAD - 1].to_vec(),
    ];
    inputs.extend(TYPE_BYTES.map(|type_byte| head(type_byte, LONGEST + 1)));
    inputs.extend([0x01_0000, 0x80_0005, 0xFF_FFFF].map(|length| head(9, length)));
    inputs.iter().map(|input| tag_step(0, input)).collect()
}

/// One frame of each answer that the listed ones have, with another tag behind it.
fn frames() -> Vec<Stored> {
    let mut answers = HashSet::new();
    let mut stored = vec![];
    let mut push = |type_byte, payload: &[u8]| {
        let alone = tag_step(0, &tag(type_byte, 0x8000_0001, payload));
        if answers.insert(alone.line) {
            let input = [tag(type_byte, 0x8000_0001, payload), tag(8, 0, b"\xAF")].concat();
            stored.push(tag_step(stored.len(), &input));
        }
    };
    for frame in listed() {
        if let Some(type_byte) = TYPE_BYTES.get(usize::from(frame.frame_type)) {
            push(*type_byte, &frame.payload);
        }
    }
    stored.push(tag_step(0, &with_stream_id(&tag(8, u32::MAX, b"\xAF"))));
    stored
}

/// Each sort of step at the first frame, at the last one and behind it, and numbers of several
/// digits.
fn numbers() -> Vec<Stored> {
    let frame = tag(9, 0, b"\x17\x01\x00\x00\x00");
    let wrong = [&frame[..frame.len() - 1], b"\x11"].concat();
    let long = b"\x08\x00\x80\x01\x00\x00\x00\x00\x00\x00\x00";
    let other = tag(OTHER, 0, b"\x17");
    let refused = tag(8, 0, REFUSED_OFFSETS[0]);
    let inputs: [&[u8]; 7] = [b"", &frame, &other, &wrong, &frame[..10], long, &refused];
    let mut stored = vec![];
    for before in [0, LAST - 1, LAST] {
        stored.extend(inputs.map(|input| tag_step(before, input)));
    }
    for before in [8, 9, 99_998, 99_999, LAST - 2] {
        stored.extend([&frame, &wrong].map(|input| tag_step(before, input)));
    }
    for before in [LAST + 1, u32::MAX as usize] {
        stored.extend([&frame[..], &wrong, b""].map(|input| tag_step(before, input)));
    }
    stored
}
