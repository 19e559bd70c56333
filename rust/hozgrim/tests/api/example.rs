//! The program `report` prints what the documentation shows.

#[expect(dead_code, reason = "its main is not called here")]
#[path = "../../examples/report.rs"]
mod report;

use hozgrim::Refusal;
use report::command_line::Failure;

fn run(words: &[&str]) -> Result<String, Failure> {
    let words: Vec<String> = words.iter().map(|word| word.to_string()).collect();
    report::run(&words)
}

#[test]
fn it_prints_what_the_documentation_shows() {
    let shown = include_str!("../../examples/report.txt");
    assert_eq!(run(&[]).as_deref(), Ok(shown));
}

#[test]
fn it_takes_hexadecimal_words() {
    let printed = run(&["0", "AF", "00", "12", "10"]);
    let expected = "\
received 4 bytes, result 4
audio header of 2 bytes: codec Aac
composition time 0 ms + 0 ns
records 1, valid 1
AudioSequenceHeader, Critical
";
    assert_eq!(printed.as_deref(), Ok(expected));
    assert_eq!(run(&["0", "af001210"]), printed);
    assert!(run(&["3"]).is_ok());
}

#[test]
fn it_says_what_a_header_holds() {
    for (words, line) in [
        (
            &["0", "90", "4F707573"],
            "audio header of 5 bytes: packet type 0, FourCC Opus",
        ),
        (
            &["1", "91", "76703039"],
            "video header of 5 bytes: packet type 1, FourCC vp09, frame type 1",
        ),
        (
            &["1", "D0", "00"],
            "video header of 2 bytes: packet type 0, frame type 5",
        ),
        (
            &["1", "22", "00"],
            "video header of 1 bytes: legacy, frame type 2",
        ),
        (
            &["1", "91", "76"],
            "header error -1 (the header is cut short)",
        ),
        (&["2", "02", "00"], "no header"),
    ] {
        let printed = run(words).expect("it is understood");
        assert_eq!(printed.lines().nth(1), Some(line));
    }
}

#[test]
fn it_says_the_time_of_any_frame() {
    for (words, line) in [
        (&["1", "17", "010000FF"], "composition time 255 ms + 0 ns"),
        (
            &["1", "970200000101", "61766331FFFFFF"],
            "composition time -1 ms + 1 ns",
        ),
        (
            &["0", "97", "020F423F01"],
            "composition time 0 ms + 999999 ns",
        ),
        (&["2", "87", "0200002A00"], "composition time 0 ms + 42 ns"),
    ] {
        let printed = run(words).expect("it is understood");
        assert_eq!(printed.lines().nth(2), Some(line));
    }
}

#[test]
fn it_names_a_word_that_it_does_not_understand() {
    for (words, word) in [
        (&["video"][..], "video"),
        (&["0", "AF", "A", "00"], "A"),
        (&["0", "00", "AG"], "AG"),
        (&["0", "+1"], "+1"),
    ] {
        assert_eq!(run(words), Err(Failure::Word(word.into())));
    }
}

#[test]
fn it_says_that_a_frame_is_refused() {
    let refused = Failure::Refused(Refusal::UnknownFrameType);
    assert_eq!(run(&["4", "00"]), Err(refused));
    let refused = Failure::Refused(Refusal::Protocol);
    assert_eq!(run(&["0", "97", "00", "AA", "01"]), Err(refused));
}

#[test]
fn it_has_help() {
    let help = run(&["--help"]).expect("it is no failure");
    assert!(help.starts_with("usage: report\n"));
    assert_eq!(run(&["0", "--help"]), Ok(help));
}
