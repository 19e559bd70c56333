//! Makes a test room's frame. See `USAGE`. On the sample it prints what examples/c/make.c prints.

pub mod command_line;

use std::process::ExitCode;

use hozgrim::{
    AudioPacketType, ContainerHead, Form, FourCc, FrameType, ModexType, NewLayer, NewTrack,
    Refusal, write_container, write_modex,
};

use command_line::{Failure, bytes, end, hexadecimal};

const USAGE: &str = "\
usage: make [--sheet] [BODY..]
           an audio container of coded frames behind one ModEx layer, a track for each BODY in
           hexadecimal digits, or two sample ones: as the words that `report` takes, or with
           --sheet as the bytes that the frame sheet reads
       make --help
           this text
";

/// A sample of sound from two microphones.
const SAMPLE: [&[u8]; 2] = [b"\xAA", b"\xBB\xCC"];

/// 42 nanoseconds.
const OFFSET: &[u8] = &[0x00, 0x00, 0x2A];

fn main() -> ExitCode {
    end(USAGE, run)
}

/// What is printed for these words.
pub fn run(words: &[String]) -> Result<String, Failure> {
    if words.iter().any(|word| word == "--help") {
        return Ok(USAGE.into());
    }
    let (sheet, words) = match words.split_first() {
        Some((first, rest)) if first == "--sheet" => (true, rest),
        _ => (false, words),
    };
    let mut bodies = bytes(words)?;
    if bodies.is_empty() {
        bodies = SAMPLE.map(<[u8]>::to_vec).to_vec();
    }
    let frame = frame(&bodies).map_err(Failure::Refused)?;
    let front = if sheet {
        // The type and a length of three bytes. No command line is long enough for more.
        let [.., high, middle, low] = frame.len().to_be_bytes();
        hexadecimal(&[FrameType::Audio.into(), high, middle, low])
    } else {
        u8::from(FrameType::Audio).to_string()
    };
    Ok(format!("{front} {}\n", hexadecimal(&frame)))
}

/// A track of Opus for each body, from id 1 on.
fn frame(bodies: &[Vec<u8>]) -> Result<Vec<u8>, Refusal> {
    let head = ContainerHead::Audio {
        form: Form::ManyTracks,
        packet_type: AudioPacketType::CODED_FRAMES,
    };
    let tracks = bodies.iter().enumerate().map(|(number, payload)| NewTrack {
        id: (number + 1) as u8,
        fourcc: FourCc::OPUS,
        payload,
    });
    let offset = NewLayer {
        modex_type: ModexType::TIMESTAMP_OFFSET_NANO,
        data: OFFSET,
    };
    let container = write_container(head, tracks)?;
    write_modex(FrameType::Audio, [offset], &container)
}
