//! The program `late` prints what the documentation shows.

#[expect(dead_code, reason = "its main is not called here")]
#[path = "../examples/late.rs"]
mod late;

use late::Room;
use late::command_line::Failure;

fn run(words: &[&str]) -> Result<String, Failure> {
    let words: Vec<String> = words.iter().map(|word| word.to_string()).collect();
    late::run(&words)
}

#[test]
fn it_prints_what_the_documentation_shows() {
    let shown = include_str!("../examples/late.txt");
    assert_eq!(run(&[]).as_deref(), Ok(shown));
}

#[test]
fn who_joins_is_sent_headers_and_then_the_keyframe() {
    let mut room = Room::default();
    assert_eq!(room.join(), ["late: nothing"]);
    for (type_id, payload, line) in [
        (
            9,
            &b"\x12"[..],
            "video, 1 bytes: 1 relayed, VideoKeyframe, kept",
        ),
        (
            8,
            b"\xAF\x00\x12\x10",
            "audio, 4 bytes: 4 relayed, AudioSequenceHeader, kept",
        ),
    ] {
        assert_eq!(room.receive(type_id, payload), line);
    }
    let sent = [
        "late: AudioSequenceHeader AF 00 12 10",
        "late: VideoKeyframe 12",
    ];
    assert_eq!(room.join(), sent);
}

#[test]
fn a_frame_that_is_too_long_is_relayed_and_not_kept() {
    let mut room = Room::default();
    room.receive(9, b"\x12");
    let longer = [&b"\x12"[..], &[0xAA; 12]].concat();
    let line = "video, 13 bytes: 13 relayed, VideoKeyframe, longer than its slot, -31";
    assert_eq!(room.receive(9, &longer), line);
    assert_eq!(room.join(), ["late: nothing"]);
}

#[test]
fn commands_and_refused_frames_change_nothing() {
    let mut room = Room::default();
    room.receive(9, b"\x12");
    assert_eq!(room.receive(20, b"\x02"), "message 20: no frame");
    let refused = room.receive(8, b"\x97\x00\xAA\x01");
    assert_eq!(refused, "audio, 4 bytes: refused, -3");
    assert_eq!(room.join(), ["late: VideoKeyframe 12"]);
}

#[test]
fn it_takes_no_words_but_help() {
    assert_eq!(run(&["room"]), Err(Failure::Word("room".into())));
    let help = run(&["room", "--help"]).expect("it is no failure");
    assert!(help.starts_with("usage: late\n"));
}
