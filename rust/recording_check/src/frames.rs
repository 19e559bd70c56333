//! The frames of a file, as the port reads and writes them.

use common::flv::{BACK_POINTER, HEAD, START};
use hozgrim_sys::{flv_next, flv_start, flv_write_frame, flv_write_start};

use crate::packets::Packet;

/// The columns of a line that frame number, type and length fill.
pub const FRONT: usize = 6 + 3 + 9;

pub struct Frame<'a> {
    pub frame_type: u32,
    pub timestamp: u32,
    /// Where its tag begins.
    place: usize,
    pub body: &'a [u8],
    /// Where the next tag begins.
    pub next: usize,
}

/// The frames of a file, and the error that they end with; 0 is a clean end.
pub fn read(file: &[u8]) -> (Vec<Frame<'_>>, i32) {
    let start = flv_start(file);
    let (mut at, mut error, mut frames) = (start.next, start.error, vec![]);
    while error == 0 {
        let found = flv_next(file, at);
        (at, error) = (found.next, found.error);
        if found.found == 0 {
            break;
        }
        frames.push(Frame {
            frame_type: found.frame_type,
            timestamp: found.timestamp,
            place: found.start - HEAD,
            body: &file[found.start..][..found.length],
            next: found.next,
        });
    }
    (frames, error)
}

/// The frames of a file that reads to a clean end.
pub fn of(file: &[u8]) -> Result<Vec<Frame<'_>>, String> {
    match read(file) {
        (frames, 0) => Ok(frames),
        (frames, error) => Err(format!(
            "it is refused with {error} behind {} frames",
            frames.len()
        )),
    }
}

/// A file of these frames.
pub fn written(frames: &[Frame]) -> Result<Vec<u8>, String> {
    let mut file = vec![0; START.len()];
    let mut errors = vec![flv_write_start(&mut file).error];
    for frame in frames {
        let mut tag = vec![0; HEAD + frame.body.len() + BACK_POINTER];
        let (number, time) = (frame.frame_type, frame.timestamp);
        errors.push(flv_write_frame(number, time, frame.body, &mut tag).error);
        file.extend(tag);
    }
    match errors.iter().find(|error| **error != 0) {
        None => Ok(file),
        Some(error) => Err(format!("the writer refuses with {error}")),
    }
}

impl Frame<'_> {
    /// The packet that ffprobe lists for it. It lists none for script data, for the records that a
    /// decoder begins with (AAC and AVC whose byte 1 is 0) and for the end of AVC (byte 1 is 2).
    pub fn packet(&self) -> Option<Packet> {
        let header = match (self.frame_type, self.body) {
            (0, [0xA0..=0xAF, packet_type, ..]) => (*packet_type != 0).then_some(2),
            (1, [first, packet_type, ..]) if first & 0x0F == 7 => (*packet_type == 1).then_some(5),
            (0 | 1, [_, ..]) => Some(1),
            _ => None,
        };
        Some(Packet {
            is_video: self.frame_type == 1,
            time: self.timestamp.into(),
            size: self.body.len() - header?,
            place: self.place,
        })
    }

    /// Byte 1 of AVC, which is 0 in a sequence header.
    pub fn avc_packet_type(&self) -> Option<u8> {
        match (self.frame_type, self.body) {
            (1, [first, packet_type, ..]) if first & 0x0F == 7 => Some(*packet_type),
            _ => None,
        }
    }

    /// What the line of a frame with this number begins with.
    pub fn front_of_line((number, frame): (usize, &Self)) -> String {
        let (frame_type, length) = (frame.frame_type, frame.body.len());
        format!("{number:>6}{frame_type:>3}{length:>9}")
    }
}
