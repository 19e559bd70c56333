//! Recordings: FLV files in memory, read beside a bare walk and written beside copies.

use std::hint::black_box;

use common::flv::{BACK_POINTER, HEAD, START, TYPE_BYTES, tag};
use common::rng::Rng;

use crate::buffers::{Buffers, State};
use crate::page::{grouped, nanoseconds, ratio};
use crate::port::{flv_next, flv_start, flv_write_frame, flv_write_start};
use crate::sides::Side;
use crate::timing::{Batch, Plan, batch, measure};

/// Another tag.
const OTHER: u8 = 0x28;

/// A frame to be recorded: its frame type, its time and where its body stands among the bodies.
struct Recorded {
    frame_type: u32,
    timestamp: u32,
    start: usize,
    length: usize,
}

/// A file, and what it is written from.
pub struct Recording {
    name: String,
    frames: Vec<Recorded>,
    tags: usize,
    bodies: Vec<u8>,
    file: Vec<u8>,
}

/// Types and lengths of the tags of so many seconds: 43 of AAC and 25 pictures a second, of which
/// every fiftieth is a keyframe.
pub fn typical(seconds: usize) -> Vec<(u8, usize)> {
    let mut tags = vec![];
    for picture in 0..25 * seconds {
        let length = if picture % 50 == 0 { 30_000 } else { 3_000 };
        tags.push((TYPE_BYTES[1], length));
        let audio = if picture % 25 < 18 { 2 } else { 1 };
        tags.extend(vec![(TYPE_BYTES[0], 300); audio]);
    }
    tags
}

/// A body of this length: coded sound, or a picture that is a keyframe if it is long.
fn body(type_byte: u8, length: usize) -> Vec<u8> {
    let front: &[u8] = match (type_byte, length) {
        (8, _) => b"\xAF\x01",
        (_, 10_000..) => b"\x17\x01\x00\x00\x00",
        _ => b"\x27\x01\x00\x00\x00",
    };
    let mut body = Rng::new(1).bytes(length);
    body[..front.len()].copy_from_slice(front);
    body
}

/// The tags of a file, without its start.
pub fn tags(tags: &[(u8, usize)]) -> Vec<u8> {
    let tags = tags.iter().zip(0..);
    tags.flat_map(|(&(type_byte, length), time)| tag(type_byte, time, &body(type_byte, length)))
        .collect()
}

impl Recording {
    /// The heads of `read_cells`.
    pub const READ_HEADS: [&str; 8] = [
        "recording",
        "bytes",
        "port",
        "per tag",
        "bare walk",
        "port/walk",
        "one copy",
        "port/copy",
    ];

    /// The heads of `written_cells`.
    pub const WRITTEN_HEADS: [&str; 8] = [
        "recording",
        "bytes",
        "port",
        "per frame",
        "one copy",
        "port/copy",
        "copies",
        "port/copies",
    ];

    /// Of tags with these types and lengths. The port must read the frames from it, and write it.
    fn new(name: &str, listed: &[(u8, usize)]) -> Self {
        let mut recording = Self {
            name: name.into(),
            frames: vec![],
            tags: listed.len(),
            bodies: vec![],
            file: [START, &tags(listed)[..]].concat(),
        };
        for (&(type_byte, length), timestamp) in listed.iter().zip(0..) {
            let number = TYPE_BYTES.iter().position(|byte| *byte == type_byte);
            if let Some(number) = number {
                recording.frames.push(Recorded {
                    frame_type: number as u32,
                    timestamp,
                    start: recording.bodies.len(),
                    length,
                });
                recording.bodies.extend(body(type_byte, length));
            }
        }
        recording.agree();
        recording
    }

    /// Those that are read: a typical one; then of each length frames, and other tags, all of which
    /// one call steps over.
    pub fn read() -> Vec<Self> {
        let alike = |type_byte, count: usize, length: usize| {
            let what = if type_byte == OTHER {
                "other tags"
            } else {
                "frames"
            };
            let name = format!("{} {what} of {} B", grouped(count), grouped(length));
            Self::new(&name, &vec![(type_byte, length); count])
        };
        vec![
            Self::new("typical, 10 seconds", &typical(10)),
            alike(8, 1_000, 300),
            alike(OTHER, 1_000, 300),
            alike(9, 1_000, 3_000),
            alike(OTHER, 1_000, 3_000),
        ]
    }

    /// Those that are written.
    pub fn written() -> Vec<Self> {
        let mut recordings = Self::read();
        recordings.retain(|recording| !recording.frames.is_empty());
        recordings
    }

    fn agree(&self) {
        let mut at = flv_start(&self.file).next;
        for frame in &self.frames {
            let found = flv_next(&self.file, at);
            assert_eq!((found.error, found.found), (0, 1), "{}", self.name);
            let of = (found.frame_type, found.timestamp, found.length);
            assert_eq!(of, (frame.frame_type, frame.timestamp, frame.length));
            at = found.next;
        }
        let end = flv_next(&self.file, at);
        assert_eq!((end.error, end.found, end.next), (0, 0, self.file.len()));
        assert_eq!(walk(&self.file), Some(self.frames.len()));
        if self.frames.len() == self.tags {
            let mut output = vec![0; self.file.len()];
            self.write(&self.bodies, &mut output);
            assert!(output == self.file, "{}", self.name);
        }
    }

    fn write(&self, bodies: &[u8], output: &mut [u8]) {
        let mut at = flv_write_start(output).length;
        for frame in &self.frames {
            let body = &bodies[frame.start..][..frame.length];
            let (number, time) = (frame.frame_type, frame.timestamp);
            at += flv_write_frame(number, time, body, &mut output[at..]).length;
        }
    }

    /// Measures reading, and gives a row of a table.
    pub fn read_cells(&self, plan: Plan, state: State) -> Vec<String> {
        let (read, walked, copied): (Batch<Self>, Batch<Self>, Batch<Self>) =
            (batch::<Read, _>, batch::<Walk, _>, batch::<OneCopy, _>);
        let buffers = || Buffers::new(&self.file, state);
        let [port, walk, copy] = match state {
            // The copy goes by itself: it leaves nothing of a long file in L2 to the next side.
            State::Warm => {
                let [port, walk] = measure(plan, self, buffers(), [read, walked]);
                let [copy] = measure(plan, self, buffers(), [copied]);
                [port, walk, copy]
            }
            State::Cold => measure(plan, self, buffers(), [read, walked, copied]),
        }
        .map(|cost| cost.median);
        vec![
            self.name.clone(),
            grouped(self.file.len()),
            nanoseconds(port),
            nanoseconds(port / self.tags as f64),
            nanoseconds(walk),
            ratio(port / walk),
            nanoseconds(copy),
            ratio(port / copy),
        ]
    }

    /// Measures writing, and gives a row of a table.
    pub fn written_cells(&self, plan: Plan, state: State) -> Vec<String> {
        let sides: [Batch<Self>; 3] =
            [batch::<Write, _>, batch::<OneCopy, _>, batch::<CopyEach, _>];
        let buffers = Buffers::with_room(&self.bodies, self.file.len(), state);
        let [port, one, each] = measure(plan, self, buffers, sides).map(|cost| cost.median);
        vec![
            self.name.clone(),
            grouped(self.file.len()),
            nanoseconds(port),
            nanoseconds(port / self.frames.len() as f64),
            nanoseconds(one),
            ratio(port / one),
            nanoseconds(each),
            ratio(port / each),
        ]
    }
}

/// How many frames there are, by the shortest Rust that judges every back-pointer.
fn walk(file: &[u8]) -> Option<usize> {
    let mut rest = file.strip_prefix(START)?;
    let mut frames = 0;
    while let Some((head, behind)) = rest.split_first_chunk::<HEAD>() {
        let length = u32::from_be_bytes([0, head[1], head[2], head[3]]);
        let behind = behind.get(length as usize..)?;
        let (back_pointer, behind) = behind.split_first_chunk::<BACK_POINTER>()?;
        if u32::from_be_bytes(*back_pointer) != length + HEAD as u32 {
            return None;
        }
        frames += usize::from(TYPE_BYTES.contains(&head[0]));
        rest = behind;
    }
    rest.is_empty().then_some(frames)
}

/// The port's reader, from the start to the end.
struct Read;

impl Side<Recording> for Read {
    fn run(_: &Recording, file: &mut [u8], _: &mut [u8]) {
        let mut at = flv_start(file).next;
        loop {
            let found = flv_next(file, at);
            if black_box(&found).found == 0 {
                break;
            }
            at = found.next;
        }
    }
}

/// A walk over the tags, and nothing else.
struct Walk;

impl Side<Recording> for Walk {
    fn run(_: &Recording, file: &mut [u8], _: &mut [u8]) {
        black_box(walk(file));
    }
}

/// The port's writer, the start and a call for each frame.
struct Write;

impl Side<Recording> for Write {
    fn run(recording: &Recording, bodies: &mut [u8], output: &mut [u8]) {
        recording.write(bodies, output);
    }
}

/// A copy of all that is lent at once, and nothing else.
struct OneCopy;

impl Side<Recording> for OneCopy {
    fn run(_: &Recording, lent: &mut [u8], output: &mut [u8]) {
        output[..lent.len()].copy_from_slice(lent);
    }
}

/// A copy of each body to its place, and nothing else.
struct CopyEach;

impl Side<Recording> for CopyEach {
    fn run(recording: &Recording, bodies: &mut [u8], output: &mut [u8]) {
        let mut at = START.len() + HEAD;
        for Recorded { start, length, .. } in &recording.frames {
            output[at..][..*length].copy_from_slice(&bodies[*start..][..*length]);
            at += length + BACK_POINTER + HEAD;
        }
    }
}
