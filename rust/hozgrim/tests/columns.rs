//! The program `columns` prints what the documentation shows.

#[expect(dead_code, reason = "its main is not called here")]
#[path = "../examples/columns.rs"]
mod columns;

use columns::Memory;
use columns::command_line::Failure;

fn run(words: &[&str]) -> Result<String, Failure> {
    let words: Vec<String> = words.iter().map(|word| word.to_string()).collect();
    columns::run(&words)
}

#[test]
fn it_prints_what_the_documentation_shows() {
    let shown = include_str!("../examples/columns.txt");
    assert_eq!(run(&[]).as_deref(), Ok(shown));
}

#[test]
fn the_witness_is_found_by_the_id() {
    let mut memory = Memory::default();
    let lines = memory.receive(b"\x95\x01Opus\x04\xAA\xBB", 1);
    assert_eq!(lines[0], "audio, 9 bytes: 1 tracks");
    assert_eq!(lines[1], "  0: microphone 4, Opus, 2 bytes from 7 on");
    assert_eq!(lines[2], "microphone 4: AA BB");
    let lines = memory.receive(b"\x95\x01Opus\x05\xAA\xBB", 1);
    assert_eq!(lines[2], "microphone 4: no track");
}

#[test]
fn a_refused_container_leaves_the_columns_alone() {
    let mut memory = Memory::default();
    memory.receive(b"\x95\x01Opus\x04", 1);
    let refused = "audio, 7 bytes, 0 starts: refused, -22";
    assert_eq!(memory.receive(b"\x95\x01Opus\x05", 0), [refused]);
    let refused = "audio, 6 bytes, 0 starts: refused, -24";
    assert_eq!(memory.receive(b"\x95\x01Opus", 0), [refused]);
    assert_eq!(memory.held(), "ids: 04 00 00 00 00 00 00 00");
}

#[test]
fn it_takes_no_words_but_help() {
    assert_eq!(run(&["room"]), Err(Failure::Word("room".into())));
    let help = run(&["room", "--help"]).expect("it is no failure");
    assert!(help.starts_with("usage: columns\n"));
}
