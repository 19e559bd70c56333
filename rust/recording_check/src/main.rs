//! Holds the port's reading of an FLV file against what ffprobe says of it, levels against what
//! other decoders of G.711 say, and verdicts against records of encoders. rust/run-recordings says
//! how it is called.

mod boxes;
mod frames;
mod levels;
mod packets;
mod records;

use std::collections::BTreeSet;
use std::fmt::Display;
use std::path::Path;
use std::process::ExitCode;
use std::{env, io};

use common::flv::START;
use common::requirement::INPUT_CUT;
use common::{files, say, words};
use frames::Frame;

/// What was made of a file, or why it is not as it must be.
type Checked = Result<String, String>;

fn main() -> ExitCode {
    let words: Vec<String> = env::args().skip(1).collect();
    let words: Vec<&str> = words.iter().map(String::as_str).collect();
    let checked = match words[..] {
        ["check", file, packets, sheet] => check(file, packets, sheet),
        ["cut", file, front, sheet] => cut(file, front, sheet),
        ["rewrite", file, new] => rewrite(file, new),
        ["levels", file, decoded] => recorded_levels(file, decoded),
        ["codes", "a-law", decoded] => code_levels(0x70, decoded),
        ["codes", "mu-law", decoded] => code_levels(0x80, decoded),
        ["records", file] => encoded_record(file),
        _ => return words::end("recording_check", Err("it is run by run-recordings".into())),
    };
    match &checked {
        Ok(row) => say!("{row}"),
        Err(reason) => eprintln!("recording_check: {reason}"),
    }
    words::end("recording_check", Ok(checked.is_ok()))
}

/// Holds the frames of a file against the packets that ffprobe lists and the lines of its sheet.
/// Its AVC sequence headers must be valid.
fn check(file: &str, packets: &str, sheet: &str) -> Checked {
    let (name, file) = (file, read(file)?);
    let frames = frames::of(&file)?;
    let listed = packets::listed(&text(packets)?)?;
    let found: Vec<_> = frames.iter().filter_map(|frame| frame.packet()).collect();
    same("packet", &listed, &found)?;
    same_lines(&frames, 0, sheet)?;
    let starts = records::starts(&frames)?;
    let (bytes, count, packets) = (file.len(), frames.len(), found.len());
    let typed = |number| frames.iter().map(move |frame| frame.frame_type == number);
    let [audio, video, script] = [0, 1, 2].map(|number| typed(number).filter(|is| *is).count());
    let last = frames
        .iter()
        .map(|frame| frame.timestamp)
        .max()
        .unwrap_or(0);
    Ok(format!(
        "{bytes:>10} bytes {count:>5} frames {audio:>5} audio {video:>5} video {script:>3} script \
         {packets:>5} packets {starts:>2} AVC starts, last at {last:>8} ms: {}",
        file_name(name)
    ))
}

/// Holds the port's verdicts against the record of an MP4 or MOV file.
fn encoded_record(file: &str) -> Checked {
    let (name, file) = (file, read(file)?);
    let row = records::check(&boxes::record(&file)?)?;
    Ok(format!("{row}: {}", file_name(name)))
}

/// Cuts a file at every byte, as a failed line would have: it must read to the frames that end
/// before, and -25 unless the cut is the end of a tag. Holds the sheet of a front of the file against
/// that.
fn cut(file: &str, front: &str, sheet: &str) -> Checked {
    let (file, front) = (read(file)?, read(front)?);
    let frames = frames::of(&file)?;
    let asked = |end: usize| {
        let count = frames.iter().take_while(|frame| frame.next <= end).count();
        let last = frames[..count]
            .last()
            .map_or(START.len(), |frame| frame.next);
        (count, if last == end { 0 } else { INPUT_CUT })
    };
    for end in 0..=file.len() {
        let (found, error) = frames::read(&file[..end]);
        let (asked, found) = (asked(end), (found.len(), error));
        if asked != found {
            return Err(format!(
                "cut at byte {end}, it must be {asked:?}, and it is {found:?}"
            ));
        }
    }
    let (count, error) = asked(front.len());
    same_lines(&frames[..count], error, sheet)?;
    Ok(format!("{:>10} cuts", file.len()))
}

/// Holds the lines of a sheet against frames and the error behind them.
fn same_lines(frames: &[Frame], error: i32, sheet: &str) -> Result<(), String> {
    let lines: Vec<String> = text(sheet)?.lines().map(front).collect();
    let numbers = 1..;
    let mut asked: Vec<String> = numbers.zip(frames).map(Frame::front_of_line).collect();
    if error != 0 {
        asked.push(format!("{:>6}{error:>4}", frames.len() + 1));
    }
    same("line", &asked, &lines)
}

/// Writes the frames of a file to another one, which must be the same file but for its flags.
fn rewrite(file: &str, new: &str) -> Checked {
    let (path, mut file) = (Path::new(new), read(file)?);
    let written = frames::written(&frames::of(&file)?)?;
    file[4] = written[4];
    if written != file {
        return Err("the frames that were read are not written as they were".into());
    }
    files::write(path, &written).map_err(said)?;
    Ok(format!(
        "{:>10} bytes written as they were read",
        written.len()
    ))
}

/// Holds the level of each audio frame of a file against its samples.
fn recorded_levels(file: &str, decoded: &str) -> Checked {
    let file = read(file)?;
    let mut frames = frames::of(&file)?;
    frames.retain(|frame| frame.frame_type == 0);
    let frames: Vec<&[u8]> = frames.iter().map(|frame| frame.body).collect();
    same_levels(&frames, decoded)
}

/// Holds the levels of 256 frames, of this byte 0 and one code each from code 0 on, against what a
/// decoder makes of these codes.
fn code_levels(first: u8, decoded: &str) -> Checked {
    let frames: Vec<[u8; 2]> = (0..=255).map(|code| [first, code]).collect();
    let frames: Vec<&[u8]> = frames.iter().map(|frame| &frame[..]).collect();
    same_levels(&frames, decoded)
}

/// Holds the levels of audio frames against their samples, as another decoder has them.
fn same_levels(frames: &[&[u8]], decoded: &str) -> Checked {
    let (name, decoded) = (decoded, read(decoded)?);
    let found = levels::found(frames);
    same("level", &levels::asked(frames, &decoded)?, &found)?;
    let different: BTreeSet<u32> = found.iter().map(|answer| answer.level).collect();
    let (count, different, name) = (found.len(), different.len(), file_name(name));
    Ok(format!(
        "{count:>10} levels, {different:>3} different: {name}"
    ))
}

/// The columns of a line that do not depend on what is in the frame.
fn front(line: &str) -> String {
    line.chars().take(frames::FRONT).collect()
}

/// Names the first item in which two lists differ.
fn same<T: std::fmt::Debug + PartialEq>(
    what: &str,
    asked: &[T],
    found: &[T],
) -> Result<(), String> {
    let most = asked.len().max(found.len());
    match (0..most).find(|&at| asked.get(at) != found.get(at)) {
        None => Ok(()),
        Some(at) => Err(format!(
            "{what} {}: it must be {:?}, and it is {:?}",
            at + 1,
            asked.get(at),
            found.get(at)
        )),
    }
}

fn read(path: &str) -> Result<Vec<u8>, String> {
    files::read(Path::new(path)).map_err(said)
}

fn text(path: &str) -> Result<String, String> {
    String::from_utf8(read(path)?).map_err(|error| format!("{path}: {error}"))
}

/// A path without its folders.
fn file_name(path: &str) -> impl Display {
    Path::new(path).file_name().unwrap_or_default().display()
}

fn said(error: io::Error) -> String {
    error.to_string()
}
