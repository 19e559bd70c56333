//! Prints what a frame holds. See `USAGE`. On the sample it prints what examples/c/report.c prints.

pub mod command_line;

use std::process::ExitCode;

use hozgrim::{CAPS_EX_MODEX, FrameType, Header, Refusal, Report, Track};

use command_line::{Failure, bytes, end};

const USAGE: &str = "\
usage: report
           a sample: a video container behind one ModEx layer
       report TYPE HEX..
           a frame of type 0 Audio, 1 Video, 2 Script or 3 Metadata with this payload, such as
           report 0 AF 00 12 10
       report --help
           this text
";

/// Byte 0, the layer (size, data, option), the container's head, two tracks.
const SAMPLE: &[u8] =
    b"\x97\x02\x00\x00\x2A\x06\x11avc1\x00\x00\x00\x03\xAA\xBB\xCC\x01\x00\x00\x02\xDD\xEE";

fn main() -> ExitCode {
    end(USAGE, run)
}

/// What is printed for these words.
pub fn run(words: &[String]) -> Result<String, Failure> {
    if words.iter().any(|word| word == "--help") {
        return Ok(USAGE.into());
    }
    let (number, payload) = parse(words)?;
    describe(number, &payload).map_err(Failure::Refused)
}

/// The number of a frame type, and a payload; or the word that is neither.
fn parse(words: &[String]) -> Result<(u32, Vec<u8>), Failure> {
    let Some((number, hex)) = words.split_first() else {
        return Ok((FrameType::Video.into(), SAMPLE.to_vec()));
    };
    let number = number.parse().map_err(|_| Failure::Word(number.clone()))?;
    Ok((number, bytes(hex)?.concat()))
}

/// What a frame with video on its route holds, in lines.
fn describe(number: u32, payload: &[u8]) -> Result<String, Refusal> {
    let frame_type = FrameType::try_from(number)?;
    let mut output = vec![0; payload.len()];
    let report = hozgrim::pass(frame_type, payload, CAPS_EX_MODEX, true, &mut output)?;
    let mut lines = vec![
        format!(
            "received {} bytes, result {}",
            payload.len(),
            report.result_len
        ),
        header_line(&report),
        format!("composition time {}", report.composition_time),
        format!("records {}, valid {}", report.records, report.valid_records),
        format!("{:?}, {:?}", report.kind, report.hint),
    ];
    if report.tracks > 0 {
        let tracks = hozgrim::tracks(frame_type, report.result(&output))?;
        lines.extend(tracks.map(|track| track_line(&track)));
    }
    Ok(lines.join("\n") + "\n")
}

fn header_line(report: &Report) -> String {
    let header = match report.header {
        Ok(Some(header)) => header,
        Ok(None) => return "no header".into(),
        Err(error) => return format!("header error {} ({error})", error.number()),
    };
    let enhanced = enhanced(report, &header);
    let size = header.size();
    match header {
        Header::Audio(header) => {
            let front = enhanced.unwrap_or_else(|| format!("codec {:?}", header.codec));
            format!("audio header of {size} bytes: {front}")
        }
        Header::Video(header) => format!(
            "video header of {size} bytes: {}, frame type {}",
            enhanced.unwrap_or("legacy".into()),
            header.video_frame_type.number()
        ),
    }
}

/// What an enhanced header holds. In a container, the tracks have the FourCCs.
fn enhanced(report: &Report, header: &Header) -> Option<String> {
    let packet_type = format!("packet type {}", header.packet_type()?.number());
    match header.fourcc() {
        Some(fourcc) if report.tracks == 0 => Some(format!("{packet_type}, FourCC {fourcc}")),
        _ => Some(packet_type),
    }
}

fn track_line(track: &Track) -> String {
    let verdict = match track.verdict {
        None => "no record".into(),
        Some(verdict) => format!("{verdict} record"),
    };
    format!(
        "track id {}: packet type {}, FourCC {}, {} bytes from {} on, {verdict}",
        track.id,
        track.packet_type.number(),
        track.fourcc,
        track.payload.len(),
        track.start
    )
}
