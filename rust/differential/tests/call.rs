//! The program as it is called.

use std::fs::File;
use std::io;
use std::process::{Command, Stdio};

/// Calls the program, and gives its status and what it wrote on standard error.
fn call(words: &[&str], output: impl Into<Stdio>) -> (Option<i32>, String) {
    let mut command = Command::new(env!("CARGO_BIN_EXE_differential"));
    let ended = command.args(words).stdout(output).output();
    let ended = ended.expect("the program can be run");
    let said = String::from_utf8(ended.stderr).expect("text");
    (ended.status.code(), said)
}

#[test]
fn a_reader_that_is_gone_ends_it_in_silence() {
    let (reader, writer) = io::pipe().expect("a pipe can be made");
    drop(reader);
    assert_eq!(call(&["reaches"], writer), (Some(141), String::new()));
}

#[test]
fn an_output_without_room_is_named() {
    let full = File::create("/dev/full").expect("Linux has it");
    let (status, said) = call(&["reaches"], full);
    assert_eq!(status, Some(1));
    assert!(said.starts_with("standard output: "), "{said}");
}

#[test]
fn words_that_do_not_go_together() {
    for (words, bad) in [
        (["fourcc", "reaches"], "reaches"),
        (["reaches", "fourcc"], "reaches"),
        (["hints", "none"], "none"),
    ] {
        let (status, said) = call(&words, Stdio::null());
        assert_eq!(status, Some(2));
        let named =
            format!("differential: \"{bad}\" is not possible here; possible are:\n  fourcc ");
        assert!(said.starts_with(&named), "{said}");
    }
}
