//! The program `recording` prints what the documentation shows.

#[expect(dead_code, reason = "its main is not called here")]
#[path = "../examples/recording.rs"]
mod recording;

use std::fs;
use std::path::{Path, PathBuf};

use hozgrim::FrameType::{Audio, Video};
use hozgrim::{FlvFrame, FrameType, flv_start, write_flv_frame};
use recording::RECORDING;

/// What is printed, and what went wrong then.
fn run(words: &[&str]) -> (String, Option<String>) {
    let words: Vec<_> = words.iter().map(Into::into).collect();
    let mut output = vec![];
    let ended = RECORDING.run(&words, &mut output);
    let printed = String::from_utf8(output).expect("it is text");
    (printed, ended.err().map(|error| error.to_string()))
}

/// A file of two frames, without its last bytes.
fn file(name: &str, without: usize) -> PathBuf {
    let payload = b"\x17\x01\x00\x00\x00";
    file_of(
        name,
        &[(Audio, 5, payload), (Video, u32::MAX, payload)],
        without,
    )
}

fn file_of(name: &str, frames: &[(FrameType, u32, &[u8])], without: usize) -> PathBuf {
    let mut file = flv_start().to_vec();
    for &(frame_type, timestamp, payload) in frames {
        let frame = FlvFrame {
            frame_type,
            timestamp,
            payload,
        };
        write_flv_frame(frame, &mut file).expect("it is written");
    }
    file.truncate(file.len() - without);
    let path = Path::new(env!("CARGO_TARGET_TMPDIR")).join(name);
    fs::write(&path, file).expect("the file can be written");
    path
}

fn run_on(path: &Path) -> (String, Option<String>) {
    run(&[path.to_str().expect("it is text")])
}

#[test]
fn it_prints_what_the_documentation_shows() {
    let shown = include_str!("../examples/recording.txt");
    assert_eq!(run(&[]), (shown.into(), None));
}

#[test]
fn it_lists_the_frames_of_a_file() {
    let (printed, error) = run_on(&file("whole.flv", 0));
    let expected = "\
5 ms: audio, 5 bytes, LiveOnly, Droppable
4294967295 ms: video, 5 bytes, VideoKeyframe, ResyncPoint
";
    assert_eq!((printed.as_str(), error), (expected, None));
}

#[test]
fn it_lists_the_frames_before_the_line_failed() {
    let (printed, error) = run_on(&file("cut.flv", 1));
    assert_eq!(printed, "5 ms: audio, 5 bytes, LiveOnly, Droppable\n");
    assert_eq!(error.as_deref(), Some("the FLV file stops short"));
}

#[test]
fn it_lists_the_frames_before_one_that_is_refused() {
    let offsets: [&[u8]; 3] = [b"\x97\x02\x00\x00\x2A\x01", b"\x97\x00\xAA\x01", b""];
    let frames = offsets.map(|payload| (Audio, 5, payload));
    let (printed, error) = run_on(&file_of("refused.flv", &frames, 0));
    assert_eq!(printed, "5 ms: audio, 6 bytes, LiveOnly, Droppable\n");
    let refused = "a ModEx layer has an offset over 999,999 ns, or too few bytes for one";
    assert_eq!(error.as_deref(), Some(refused));
}

#[test]
fn it_says_that_a_file_is_refused() {
    let text = Path::new(env!("CARGO_MANIFEST_DIR")).join("Cargo.toml");
    let refused = "the file is not FLV of version 1 with data offset 9";
    assert_eq!(run_on(&text), (String::new(), Some(refused.into())));
}

#[test]
fn it_says_that_there_is_no_file() {
    let (printed, error) = run(&["/nowhere"]);
    assert_eq!(printed, "");
    let error = error.expect("it is a failure");
    assert!(error.starts_with("No such file"), "{error}");
    assert!(run(&["/nowhere", "/nowhere"]).1.is_some());
}

#[test]
fn it_has_help() {
    let (help, error) = run(&["--help"]);
    assert!(help.starts_with("usage: recording "));
    assert_eq!(error, None);
}
