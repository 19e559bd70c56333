//! The frame sheet of docs/REQUIREMENTS.md, section 17, read from its words: what the program must
//! print. What a frame is, the Rust files say, but for containers that name themselves, for offsets
//! that the pass refuses, and for sets that name another type than their list.

use std::borrow::Cow;
use std::iter;

use common::naming::names_itself;
use common::nanoseconds::offset_of_chain;
use common::requirement::{INPUT_CUT, OUTPUT_TOO_SHORT, UNKNOWN_FRAME_TYPE};
use oracle::ertmp::exaudio::exaudio_parse;
use oracle::ertmp::exvideo::exvideo_parse;
use oracle::ertmp::multitrack_media::foreach_track;
use oracle::media::modex::normalize_modex_payload_with_frame_type;
use oracle::types::{AudioHeader, FrameType, VideoHeader};
use oracle::{FRAME_TYPES, offsets_of_layers};

use crate::starts::kind_and_hint;

/// The sheet stops after this frame.
pub const LAST: usize = 999_999;

/// The longest payload.
pub const LONGEST: usize = 32_768;

/// The columns of the frame number.
pub const WIDTH: usize = 6;

/// The lengths of a frame's head and of its line.
pub const HEAD: usize = 4;
pub const LINE: usize = WIDTH + 3 + 9 + 4 + 6 + 3 + 3 + 1;

const MASK: u32 = 4;
const ROUTE_HAS_VIDEO: bool = true;

/// What the sheet prints for this input.
pub fn sheet(input: &[u8]) -> Vec<u8> {
    lines(frames(input))
}

/// The lines of frames and of their refusal.
pub fn lines<'a>(frames: impl Iterator<Item = Result<Frame<'a>, i32>>) -> Vec<u8> {
    let lines = (1..).zip(frames);
    let lines = lines.map(|(number, frame)| line(WIDTH, number, &frame));
    lines.collect::<String>().into_bytes()
}

/// Where the frame of a line stands.
pub fn place_of_line(input: &[u8], line: usize) -> usize {
    let before = frames(input).take(line).flatten();
    before.map(|frame| HEAD + frame.payload.len()).sum()
}

/// The line of a frame, or that of its refusal. The frame number has a column of this width; a
/// wider number stands whole.
pub fn line(width: usize, number: u64, frame: &Result<Frame, i32>) -> String {
    match frame {
        Ok(frame) => frame_line(width, number, frame),
        Err(refusal) => refusal_line(width, number, *refusal),
    }
}

fn refusal_line(width: usize, number: u64, refusal: i32) -> String {
    format!("{number:>width$}{refusal:>4}\n")
}

fn frame_line(width: usize, number: u64, frame: &Frame) -> String {
    let Seen {
        error,
        tracks,
        kind,
        hint,
        ..
    } = frame.seen();
    let (frame_type, length) = (frame.frame_type as u8, frame.payload.len());
    let received = format!("{number:>width$}{frame_type:>3}{length:>9}");
    format!("{received}{error:>4}{tracks:>6}{kind:>3}{hint:>3}\n")
}

/// A frame as received.
pub struct Frame<'a> {
    pub frame_type: FrameType,
    pub payload: &'a [u8],
}

/// The frames of an input, up to the last one that the sheet takes. A refusal is the end of them.
pub fn frames(input: &[u8]) -> impl Iterator<Item = Result<Frame<'_>, i32>> {
    let mut rest = input;
    let all = iter::from_fn(move || {
        if rest.is_empty() {
            return None;
        }
        let first = first_frame(rest);
        rest = first.as_ref().map_or(&[], |(_, behind)| behind);
        Some(first.map(|(frame, _)| frame))
    });
    all.take(LAST)
}

/// The frame that the input begins with, and what stands behind it.
fn first_frame(input: &[u8]) -> Result<(Frame<'_>, &[u8]), i32> {
    let (head, behind) = input.split_first_chunk::<HEAD>().ok_or(INPUT_CUT)?;
    let [number, high, middle, low] = *head;
    let known = FRAME_TYPES.get(usize::from(number));
    let frame_type = *known.ok_or(UNKNOWN_FRAME_TYPE)?;
    let length = u32::from_be_bytes([0, high, middle, low]) as usize;
    if length > LONGEST {
        return Err(OUTPUT_TOO_SHORT);
    }
    let (payload, behind) = behind.split_at_checked(length).ok_or(INPUT_CUT)?;
    let frame = Frame {
        frame_type,
        payload,
    };
    frame.passes()?;
    Ok((frame, behind))
}

/// What is said about a frame, peeled or not.
pub struct Seen {
    pub peeled: bool,
    pub error: i32,
    pub tracks: usize,
    pub kind: u8,
    pub hint: u8,
}

impl Frame<'_> {
    fn result(&self) -> Cow<'_, [u8]> {
        normalize_modex_payload_with_frame_type(self.payload, MASK, self.frame_type)
    }

    /// Whether the pass takes the offsets of the layers that are peeled off (request N6); other
    /// layers are not judged.
    pub fn passes(&self) -> Result<(), i32> {
        if let Cow::Owned(_) = self.result() {
            offset_of_chain(offsets_of_layers(self.payload))?;
        }
        Ok(())
    }

    pub fn seen(&self) -> Seen {
        let frame_type = self.frame_type;
        let result = self.result();
        let (kind, hint) = kind_and_hint(frame_type, &result, ROUTE_HAS_VIDEO);
        Seen {
            peeled: matches!(result, Cow::Owned(_)),
            error: header_error(frame_type, &result),
            tracks: track_count(frame_type, &result),
            kind,
            hint,
        }
    }
}

fn header_error(frame_type: FrameType, result: &[u8]) -> i32 {
    let parsed = match frame_type {
        FrameType::Audio => exaudio_parse(result, &mut AudioHeader::default()),
        FrameType::Video => exvideo_parse(result, &mut VideoHeader::default()),
        FrameType::Script | FrameType::Metadata => Ok(()),
    };
    parsed.err().map_or(0, |error| error as i32)
}

/// A container that names itself is accepted by the Rust, and refused by request N2.
fn track_count(frame_type: FrameType, result: &[u8]) -> usize {
    let mut tracks = 0;
    let accepted = foreach_track(frame_type, result, |_| tracks += 1);
    if accepted && !names_itself(frame_type as u32, result) {
        tracks
    } else {
        0
    }
}

#[cfg(test)]
mod tests {
    use super::*;
    use crate::frames::{self, REFUSED};

    /// The input of docs/REQUIREMENTS.md, section 17, and its lines.
    const INPUT: &[u8] = b"\
        \x00\x00\x00\x00\
        \x01\x00\x00\x05\x17\x01\x00\x00\x00\
        \x00\x00\x00\x04\xAF\x00\x12\x10\
        \x00\x00\x00\x0B\x95\x11\x4F\x70\x75\x73\x01\x00\x00\x01\xAA";
    const LINES: &str = "     1  0        0  -1     0  0  0
     2  1        5   0     0  3  1
     3  0        4   0     0  2  0
     4  0       11   0     1  0  2
";

    fn text(input: &[u8]) -> String {
        String::from_utf8(sheet(input)).expect("digits, signs and spaces")
    }

    #[test]
    fn the_four_frames_of_the_requirement() {
        assert_eq!(text(INPUT), LINES);
    }

    #[test]
    fn the_listed_frames_begin_with_them() {
        let listed = frames::bytes(&frames::listed());
        assert!(listed.starts_with(INPUT));
    }

    #[test]
    fn a_container_that_names_itself_has_no_tracks() {
        let lines = text(
            b"\x01\x00\x00\x07\x86\x06\x00\x00\x00\x00\x00\
            \x01\x00\x00\x07\x86\x05\x00\x00\x00\x00\x00\
            \x00\x00\x00\x07\x95\x05Opus\x07\
            \x00\x00\x00\x07\x95\x06Opus\x07\
            \x00\x00\x00\x0A\x97\x00\xAA\x15\x05Opus\x07\
            \x00\x00\x00\x02\x95\x05",
        );
        let expected = "     1  1        7   0     0  0  2
     2  1        7   0     1  0  2
     3  0        7   0     0  0  2
     4  0        7   0     1  0  2
     5  0       10   0     0  0  2
     6  0        2  -1     0  0  2
";
        assert_eq!(lines, expected);
    }

    #[test]
    fn sets_that_name_another_type() {
        let lines = text(
            b"\x01\x00\x00\x12\x17\x00\x00\x00\x00\x01\x00\x00\x00\x00\x01\x00\x01\x67\x01\x00\x01\x68\
            \x01\x00\x00\x12\x17\x00\x00\x00\x00\x01\x00\x00\x00\x00\x01\x00\x01\x68\x01\x00\x01\x67\
            \x00\x00\x00\x12\x90avc1\x01\x00\x00\x00\x00\x01\x00\x01\x67\x01\x00\x01\x68\
            \x00\x00\x00\x12\x90avc1\x01\x00\x00\x00\x00\x01\x00\x01\x67\x01\x00\x01\x67\
            \x01\x00\x00\x14\x96\x00avc1\x00\x01\x00\x00\x00\x00\x01\x00\x01\x67\x01\x00\x01\x67",
        );
        let expected = "     1  1       18   0     0  1  0
     2  1       18   0     0  0  2
     3  0       18   0     0  2  0
     4  0       18   0     0  0  2
     5  1       20   0     1  0  2
";
        assert_eq!(lines, expected);
    }

    #[test]
    fn each_width_of_the_first_column() {
        let frame = frames(INPUT).next().expect("there is one");
        let behind = "  0        0  -1     0  0  0\n";
        assert_eq!(line(0, 1, &frame), format!("1{behind}"));
        assert_eq!(line(1, 10, &frame), format!("10{behind}"));
        assert_eq!(line(6, 1_000_000, &frame), format!("1000000{behind}"));
        assert_eq!(line(10, 999_999, &Err(-21)), "    999999 -21\n");
        assert_eq!(line(6, 1 << 32, &Err(-25)), "4294967296 -25\n");
    }

    #[test]
    fn a_clean_end_prints_nothing() {
        assert_eq!(text(b""), "");
    }

    #[test]
    fn each_refusal() {
        for (refused, refusal) in REFUSED {
            let line = format!("{refusal:>4}\n");
            assert_eq!(text(refused), format!("     1{line}"), "{refused:02X?}");
            let behind = [INPUT, refused].concat();
            assert_eq!(text(&behind), format!("{LINES}     5{line}"));
        }
    }

    #[test]
    fn offsets_of_layers_that_are_peeled_off() {
        let lines = text(
            b"\x00\x00\x00\x04\x87\x00\x00\x00\
            \x01\x00\x00\x06\x97\x00\xAA\x07\x02\x00\
            \x00\x00\x00\x06\x97\x02\x0F\x42\x3F\x00\
            \x00\x00\x00\x06\x97\x02\x0F\x42\x40\x10\
            \x00\x00\x00\x06\x97\x02\x0F\x42\x40\x00\
            \x00\x00\x00\x00",
        );
        let expected = "     1  0        4   0     0  0  2
     2  1        6   0     0  0  2
     3  0        6  -1     0  0  2
     4  0        6  -1     0  0  2
     5  -3
";
        assert_eq!(lines, expected);
    }

    #[test]
    fn the_longest_payload() {
        let mut input = b"\x02\x00\x80\x00".to_vec();
        input.resize(HEAD + LONGEST, 0);
        assert_eq!(text(&input), "     1  2    32768   0     0  0  0\n");
    }

    #[test]
    fn nothing_behind_the_last_frame() {
        let behind: [&[u8]; 4] = [b"", b"\x02\x00\x00\x00", b"\x09\x00\x00\x00", b"\x02"];
        let frames = b"\x02\x00\x00\x00".repeat(LAST);
        for behind in behind {
            let lines = text(&[&frames, behind].concat());
            assert_eq!(lines.len(), LAST * LINE);
            assert!(lines.ends_with("999999  2        0   0     0  0  0\n"));
        }
    }
}
