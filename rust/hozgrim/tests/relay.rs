//! The program `relay` prints what the documentation shows, and copies no payload.

#[expect(dead_code, reason = "its main is not called here")]
#[path = "../examples/relay.rs"]
mod relay;

use relay::command_line::Failure;
use relay::{Kept, Room};

fn run(words: &[&str]) -> Result<String, Failure> {
    let words: Vec<String> = words.iter().map(|word| word.to_string()).collect();
    relay::run(&words)
}

#[test]
fn it_prints_what_the_documentation_shows() {
    let shown = include_str!("../examples/relay.txt");
    assert_eq!(run(&[]).as_deref(), Ok(shown));
}

/// The last line of a room that received these messages.
fn last_line(messages: &[(u8, &[u8])]) -> String {
    let mut room = Room::default();
    let lines = messages
        .iter()
        .map(|(type_id, payload)| room.receive(*type_id, payload.to_vec()));
    lines.last().expect("there is a message")
}

#[test]
fn one_who_is_behind_waits_for_a_point_to_resume_from() {
    let inter: (u8, &[u8]) = (9, b"\x27\x01\x00\x00\x00");
    let key: (u8, &[u8]) = (9, b"\x17\x01\x00\x00\x00");
    let lines = [
        (
            &[inter][..],
            "video, 5 bytes: 0..5, LiveOnly, Droppable, to fast",
        ),
        (
            &[inter, key],
            "video, 5 bytes: 0..5, VideoKeyframe, ResyncPoint, to fast and slow",
        ),
        (
            &[inter, key, inter],
            "video, 5 bytes: 0..5, LiveOnly, Droppable, to fast and slow",
        ),
    ];
    for (messages, line) in lines {
        assert_eq!(last_line(messages), line);
    }
}

#[test]
fn commands_and_refused_frames_go_to_nobody() {
    assert_eq!(last_line(&[(20, b"\x02")]), "message 20: no frame");
    let refused = last_line(&[(8, b"\x97\x00\xAA\x01")]);
    assert_eq!(refused, "audio, 4 bytes: refused, -3");
}

#[test]
fn the_last_keyframe_is_kept_in_its_own_buffer() {
    let mut room = Room::default();
    assert_eq!(room.joining().count(), 0);
    for body in [0x65, 0x66] {
        let mut payload = b"\x97\x02\x00\x00\x2A\x01avc1\x00\x00\x00".to_vec();
        payload.push(body);
        let end = payload.as_ptr_range().end;
        room.receive(9, payload);
        let kept: Vec<&[u8]> = room.joining().map(Kept::result).collect();
        assert_eq!(kept, [&[b"\x91avc1\x00\x00\x00", &[body][..]].concat()[..]]);
        assert_eq!(kept[0].as_ptr_range().end, end);
    }
}

/// The first bytes of what a viewer is sent who joins late.
fn kept_by(messages: &[(u8, &[u8])]) -> Vec<u8> {
    let mut room = Room::default();
    for (type_id, payload) in messages {
        room.receive(*type_id, payload.to_vec());
    }
    room.joining().map(|kept| kept.result()[0]).collect()
}

#[test]
fn sequence_headers_go_before_the_keyframe() {
    let audio: (u8, &[u8]) = (8, b"\xAF\x00\x12\x10");
    let video: (u8, &[u8]) = (9, b"\x80mp4a\x00");
    let key: (u8, &[u8]) = (9, b"\x17\x01\x00\x00\x00");
    assert_eq!(kept_by(&[audio, video, key]), [0x80, 0xAF, 0x17]);
    // A keyframe goes with the header that it was coded for.
    assert_eq!(kept_by(&[audio, video, key, video]), [0x80, 0xAF]);
    assert_eq!(kept_by(&[video, key, audio]), [0x80, 0xAF, 0x17]);
}

#[test]
fn it_names_a_word_that_it_does_not_understand() {
    assert_eq!(run(&["room"]), Err(Failure::Word("room".into())));
}

#[test]
fn it_has_help() {
    let help = run(&["--help"]).expect("it is no failure");
    assert!(help.starts_with("usage: relay\n"));
    assert_eq!(run(&["room", "--help"]), Ok(help));
}
