//! Prints the level of each frame of an FLV file, with a bar. See `USAGE`. On the sample it prints
//! what examples/c/levels.c prints.

pub mod listing;

use std::process::ExitCode;

use hozgrim::FrameType::{Audio, Script, Video};
use hozgrim::{FlvFrame, FrameType, Refusal};

use listing::Listing;

const USAGE: &str = "\
usage: levels [FILE]
           a line for each frame of an FLV file, or of a sample that is written first: time, type,
           level, and a bar with one mark more for each doubling of the level, up to 12 marks in
           A-law and 13 in mu-law
       levels --help
           this text
";

/// Metadata and a picture; then silence, speech and full scale, in A-law and in mu-law.
const SAMPLE: [(FrameType, u32, &[u8]); 8] = [
    (Script, 0, b"\x02\x00\x0AonMetaData"),
    (Video, 0, b"\x17\x01\x00\x00\x00\x65"),
    (Audio, 0, b"\x72\xD5\x55\x55\xD5"),
    (Audio, 20, b"\x72\xC0\x1A\x94\x54"),
    (Audio, 40, b"\x72\x34\xA5\xAA\x0B"),
    (Audio, 60, b"\x82\xFF\x7F\x7F\xFF"),
    (Audio, 80, b"\x82\xF0\x2E\xB3\x5A"),
    (Audio, 100, b"\x82\x1F\x91\x00\xA0"),
];

pub const LEVELS: Listing = Listing {
    name: "levels",
    usage: USAGE,
    sample: &SAMPLE,
    line,
};

fn main() -> ExitCode {
    LEVELS.main()
}

fn line(frame: FlvFrame) -> Result<String, Refusal> {
    let FlvFrame {
        frame_type,
        timestamp,
        payload,
    } = frame;
    let level = hozgrim::level(frame_type, payload);
    // As many marks as the level has binary digits, and none for 0.
    let marks = u32::BITS - level.leading_zeros();
    let bar = "#".repeat(marks as usize);
    Ok(format!(
        "{timestamp:10} ms  {frame_type:6} {level:5} |{bar}"
    ))
}
