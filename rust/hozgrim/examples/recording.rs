//! Lists the frames of an FLV file. See `USAGE`. On the sample it prints what
//! examples/c/recording.c prints.

pub mod listing;

use std::process::ExitCode;

use hozgrim::FrameType::{Audio, Script, Video};
use hozgrim::{CAPS_EX_MODEX, FlvFrame, FrameType, Refusal};

use listing::Listing;

const USAGE: &str = "\
usage: recording [FILE]
           a line for each frame of an FLV file, or of a sample that is written first: time, type,
           length, cache kind and delivery hint
       recording --help
           this text
";

/// What begins a recording, and then sound and a second picture.
const SAMPLE: [(FrameType, u32, &[u8]); 6] = [
    (Script, 0, b"\x02\x00\x0AonMetaData"),
    (
        Video,
        0,
        b"\x17\x00\x00\x00\x00\x01\x42\x00\x1E\xFF\xE1\x00\x01\x67\x01\x00\x01\x68",
    ),
    (Audio, 0, b"\xAF\x00\x12\x10"),
    (Video, 0, b"\x17\x01\x00\x00\x00\x65"),
    (Audio, 23, b"\xAF\x01\x21\x10\x04"),
    (Video, 40, b"\x27\x01\x00\x00\x00\x41"),
];

pub const RECORDING: Listing = Listing {
    name: "recording",
    usage: USAGE,
    sample: &SAMPLE,
    line,
};

fn main() -> ExitCode {
    RECORDING.main()
}

fn line(frame: FlvFrame) -> Result<String, Refusal> {
    let FlvFrame {
        frame_type,
        timestamp,
        payload,
    } = frame;
    // As long as the payload is always long enough.
    let mut result = vec![0; payload.len()];
    let report = hozgrim::pass(frame_type, payload, CAPS_EX_MODEX, true, &mut result)?;
    Ok(format!(
        "{timestamp} ms: {frame_type}, {} bytes, {:?}, {:?}",
        payload.len(),
        report.kind,
        report.hint
    ))
}
