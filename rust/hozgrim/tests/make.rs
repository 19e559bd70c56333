//! The program `make` prints what the documentation shows.

#[expect(dead_code, reason = "its main is not called here")]
#[path = "../examples/make.rs"]
mod make;

use hozgrim::{CAPS_EX_MODEX, FrameType, Refusal, pass, tracks};
use make::command_line::{Failure, bytes};

fn run(words: &[&str]) -> Result<String, Failure> {
    make::run(&owned(words))
}

fn owned(words: &[&str]) -> Vec<String> {
    words.iter().map(|word| word.to_string()).collect()
}

#[test]
fn it_prints_what_the_documentation_shows() {
    let shown = include_str!("../examples/make.txt");
    assert_eq!(run(&[]).as_deref(), Ok(shown));
    assert_eq!(run(&["AA", "BBCC"]).as_deref(), Ok(shown));
}

#[test]
fn it_makes_a_track_for_each_word() {
    let printed = run(&["AABB", "", "cc"]).expect("it is understood");
    let words: Vec<&str> = printed.split_whitespace().collect();
    assert_eq!(words[0], "0");
    let payload = bytes(&owned(&words[1..]))
        .expect("they are digits")
        .concat();
    let mut output = vec![0; payload.len()];
    let report = pass(FrameType::Audio, &payload, CAPS_EX_MODEX, true, &mut output);
    let report = report.expect("the output is long enough");
    let tracks = tracks(FrameType::Audio, report.result(&output)).expect("a container");
    let tracks = tracks.map(|track| (track.id, track.payload));
    assert!(tracks.eq([(1, &b"\xAA\xBB"[..]), (2, b""), (3, b"\xCC")]));
}

#[test]
fn it_prints_bytes_for_the_sheet() {
    let frame = run(&["AA"]).expect("it is understood");
    let payload = frame.strip_prefix("0 ").expect("it is audio");
    let bytes = run(&["--sheet", "AA"]);
    assert_eq!(bytes, Ok(format!("00 00 00 10 {payload}")));
}

#[test]
fn it_names_a_word_that_it_does_not_understand() {
    for word in ["A", "AG", "--sheets"] {
        assert_eq!(run(&["AA", word]), Err(Failure::Word(word.into())));
    }
}

#[test]
fn it_says_that_a_frame_is_refused() {
    let refused = Failure::Refused(Refusal::OutOfBounds);
    assert_eq!(run(&[""; 4_097]), Err(refused));
}

#[test]
fn it_has_help() {
    let help = run(&["AA", "--help"]).expect("it is no failure");
    assert!(help.starts_with("usage: make "));
}
