//! The program `uplink` prints what the documentation shows.

#[expect(dead_code, reason = "its main is not called here")]
#[path = "../examples/uplink.rs"]
mod uplink;

use hozgrim::{Decision, Refusal};
use uplink::command_line::Failure;
use uplink::{DEBTS, Frames, LARGE, SMALL, SOUND, drawn, word};

fn run(words: &[&str]) -> Result<String, Failure> {
    let words: Vec<String> = words.iter().map(|word| word.to_string()).collect();
    uplink::run(&words)
}

#[test]
fn it_prints_what_the_documentation_shows() {
    let shown = include_str!("../examples/uplink.txt");
    assert_eq!(run(&[]).as_deref(), Ok(shown));
}

#[test]
fn no_line_is_wider_than_a_page() {
    let text = run(&[]).expect("nothing is refused");
    assert!(text.lines().all(|line| line.len() <= 100));
    assert!(text.lines().all(|line| line == line.trim_end()));
}

/// What is drawn of one viewer, beside one who is offered these frames.
fn column(viewer: usize, beside: Frames) -> Vec<String> {
    let rows = drawn([SOUND, beside, DEBTS]).expect("nothing is refused");
    rows.iter().map(|cells| cells[viewer].clone()).collect()
}

#[test]
fn what_one_viewer_is_offered_changes_nothing_for_the_others() {
    let longer = LARGE.map(|frames| frames.map(|(letter, length)| (letter, 100 * length)));
    let critical = LARGE.map(|frames| frames.map(|(_, length)| ('M', length)));
    let small = [0, 1, 2].map(|viewer| column(viewer, SMALL));
    for other in [LARGE, longer, critical, SOUND] {
        assert_eq!(column(0, other), small[0]);
        assert_ne!(column(1, other), small[1]);
        assert_eq!(column(2, other), small[2]);
    }
}

#[test]
fn a_row_says_what_becomes_of_frames_and_the_credit_then() {
    let rows = drawn([SMALL, LARGE, DEBTS]).expect("nothing is refused");
    let expected = [
        "K75 P25         |",
        "k225 p50        |++++",
        "M250 k75  ------|",
    ];
    assert_eq!(rows[0], expected);
}

#[test]
fn a_part_of_a_mark_is_a_mark() {
    for (length, expected) in [
        (97, "S2 M97          |+"),
        (98, "S2 M98          |"),
        (99, "S2 M99         -|"),
        (124, "S2 M124       --|"),
    ] {
        let frames = [[('S', 2), ('M', length)]; 10];
        let rows = drawn([frames; 3]).expect("nothing is refused");
        assert_eq!(rows[0], [expected; 3]);
    }
}

#[test]
fn a_refusal_stands_in_place_of_the_length() {
    assert_eq!(word('M', 250, Err(Refusal::DebtLimit)), "M-33");
    assert_eq!(word('P', 50, Err(Refusal::OutOfRange)), "P-32");
    assert_eq!(word('P', 50, Ok(Decision::Dropped)), "p50");
    assert_eq!(word('P', 50, Ok(Decision::Sent)), "P50");
}

#[test]
fn it_takes_no_words_but_help() {
    assert_eq!(run(&["room"]), Err(Failure::Word("room".into())));
    let help = run(&["room", "--help"]).expect("it is no failure");
    assert!(help.starts_with("usage: uplink\n"));
}
