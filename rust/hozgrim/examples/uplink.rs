//! Shares a line among three viewers. See `USAGE`. It prints what examples/c/uplink.c prints.

pub mod command_line;

use std::process::ExitCode;

use hozgrim::{CAPS_EX_MODEX, Decision, FrameType, Refusal, Uplink, pass_in_place};

use command_line::{Failure, end, wordless};

const USAGE: &str = "\
usage: uplink
           offers frames to three viewers who share a line, and draws a row for each tick: of each
           viewer the frames, in small letters if they are dropped, and the credit or debt; then the
           same with other frames for one viewer, which changes nothing for the others
       uplink --help
           this text
";

const LEGEND: &str = "\
300 bytes a tick for 3 viewers, 100 each. M: metadata, K: keyframe, P: picture, S: sound.
A frame in small letters is dropped. A mark is 25 bytes, - of debt and + of credit.
";

/// How many bytes the line carries in a tick.
const BYTES: u32 = 300;

/// How many bytes a mark stands for.
const MARK: u32 = 25;

const TICKS: usize = 10;

/// The letter of a frame, and its length.
pub type Frame = (char, usize);

/// What one viewer is offered, tick by tick.
pub type Frames = [[Frame; 2]; TICKS];

/// These leave a part of the share.
pub const SOUND: Frames = [[('S', 50), ('S', 25)]; TICKS];

/// Most keyframes are longer than any credit of this line.
pub const LARGE: Frames = [
    [('K', 225), ('P', 50)],
    [('P', 50), ('P', 50)],
    [('P', 50), ('P', 50)],
    [('K', 225), ('P', 50)],
    [('P', 50), ('P', 50)],
    [('K', 150), ('P', 50)],
    [('P', 50), ('P', 50)],
    [('P', 50), ('P', 50)],
    [('K', 225), ('P', 50)],
    [('P', 50), ('P', 50)],
];

/// Those of a tick together are the share.
pub const SMALL: Frames = [
    [('K', 75), ('P', 25)],
    [('P', 50), ('P', 50)],
    [('P', 50), ('P', 50)],
    [('K', 75), ('P', 25)],
    [('P', 50), ('P', 50)],
    [('K', 75), ('P', 25)],
    [('P', 50), ('P', 50)],
    [('P', 50), ('P', 50)],
    [('K', 75), ('P', 25)],
    [('P', 50), ('P', 50)],
];

/// Metadata must be sent, and leave a debt.
pub const DEBTS: Frames = [
    [('M', 250), ('K', 75)],
    [('P', 25), ('P', 25)],
    [('P', 25), ('P', 25)],
    [('K', 75), ('P', 25)],
    [('P', 25), ('P', 25)],
    [('M', 275), ('P', 25)],
    [('P', 25), ('P', 25)],
    [('K', 75), ('P', 25)],
    [('P', 25), ('P', 25)],
    [('P', 25), ('P', 25)],
];

fn main() -> ExitCode {
    end(USAGE, run)
}

/// What is printed for these words.
pub fn run(words: &[String]) -> Result<String, Failure> {
    let text = sample().map_err(Failure::Refused)?;
    wordless(USAGE, words, || text)
}

fn sample() -> Result<String, Refusal> {
    let mut text = LEGEND.to_string();
    for (pictures, frames) in [("1: large pictures", LARGE), ("1: small pictures", SMALL)] {
        let names = ["0: sound", pictures, "2: metadata and pictures"];
        text += &format!("\n{}\n", row("tick", &names.map(String::from)));
        for (tick, cells) in (1..).zip(drawn([SOUND, frames, DEBTS])?) {
            text += &format!("{}\n", row(&format!("{tick}"), &cells));
        }
    }
    Ok(text)
}

/// What a row has of each viewer, tick by tick.
pub fn drawn(frames: [Frames; 3]) -> Result<Vec<[String; 3]>, Refusal> {
    let mut uplink = Uplink::new(frames.len())?;
    let rows = (0..TICKS).map(|tick| {
        uplink.tick(BYTES)?;
        let mut cells = <[String; 3]>::default();
        for (viewer, frames) in frames.iter().enumerate() {
            cells[viewer] = offered(&mut uplink, viewer, frames[tick])?;
        }
        Ok(cells)
    });
    rows.collect()
}

fn row(front: &str, cells: &[String; 3]) -> String {
    let [first, second, third] = cells;
    format!("{front:>4}  {first:<25}  {second:<25}  {third}")
}

/// Offers a viewer the frames of a tick: what becomes of them, and the credit then.
fn offered(uplink: &mut Uplink, viewer: usize, frames: [Frame; 2]) -> Result<String, Refusal> {
    let mut words = vec![];
    for (letter, length) in frames {
        let (frame_type, mut payload) = message(letter, length);
        let (report, _) = pass_in_place(frame_type, &mut payload, CAPS_EX_MODEX, true)?;
        let answer = uplink.offer(viewer, report.hint, report.result_len);
        words.push(word(letter, report.result_len, answer));
    }
    let credit = uplink.credit(viewer).unwrap_or_default();
    let bar = |mark: &str, bytes: i32| {
        let bytes = u32::try_from(bytes).unwrap_or(0);
        mark.repeat(bytes.div_ceil(MARK) as usize)
    };
    let (debt, credit) = (bar("-", -credit), bar("+", credit));
    Ok(format!("{:<9}{debt:>7}|{credit}", words.join(" ")))
}

/// Stands for the read of a message.
fn message(letter: char, length: usize) -> (FrameType, Vec<u8>) {
    let (frame_type, front): (_, &[u8]) = match letter {
        'M' => (FrameType::Script, b"\x02\x00\x0AonMetaData"),
        'K' => (FrameType::Video, b"\x17\x01\x00\x00\x00"),
        'P' => (FrameType::Video, b"\x27\x01\x00\x00\x00"),
        _ => (FrameType::Audio, b"\xAF\x01"),
    };
    let mut payload = front.to_vec();
    payload.resize(length, 0);
    (frame_type, payload)
}

/// What becomes of a frame: its letter and length, or its letter and the number of a refusal, which
/// concerns no other viewer.
pub fn word(letter: char, length: usize, answer: Result<Decision, Refusal>) -> String {
    match answer {
        // Here a relay writes the result to the viewer's connection.
        Ok(Decision::Sent) => format!("{letter}{length}"),
        Ok(Decision::Dropped) => format!("{}{length}", letter.to_ascii_lowercase()),
        Err(refusal) => format!("{letter}{}", refusal.number()),
    }
}
