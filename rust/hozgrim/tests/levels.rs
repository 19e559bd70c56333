//! The program `levels` prints what the documentation shows.

#[expect(dead_code, reason = "its main is not called here")]
#[path = "../examples/levels.rs"]
mod levels;

use std::ffi::OsString;
use std::fs;
use std::path::Path;

use hozgrim::FrameType::{Audio, Script, Video};
use hozgrim::{FlvFrame, flv_start, write_flv_frame};
use levels::LEVELS;

fn printed(words: &[OsString]) -> String {
    let mut output = vec![];
    LEVELS.run(words, &mut output).expect("nothing goes wrong");
    String::from_utf8(output).expect("it is text")
}

#[test]
fn it_prints_what_the_documentation_shows() {
    assert_eq!(printed(&[]), include_str!("../examples/levels.txt"));
}

#[test]
fn it_prints_a_mark_more_for_each_doubling() {
    let frames: [(_, _, &[u8]); 9] = [
        (Audio, u32::MAX, b"\x80\x00"),
        (Audio, 0, b""),
        (Audio, 1, b"\x80\xFF"),
        (Audio, 2, b"\x70\x55"),
        (Audio, 3, b"\x80\x7E"),
        (Audio, 4, b"\x70\xD4"),
        (Audio, 5, b"\x80\xFD"),
        (Script, 6, b"\x80\x00"),
        (Video, 7, b"\x80\x00"),
    ];
    let mut file = flv_start().to_vec();
    for (frame_type, timestamp, payload) in frames {
        let frame = FlvFrame {
            frame_type,
            timestamp,
            payload,
        };
        write_flv_frame(frame, &mut file).expect("it is written");
    }
    let path = Path::new(env!("CARGO_TARGET_TMPDIR")).join("levels.flv");
    fs::write(&path, file).expect("the file can be written");
    let expected = "\
4294967295 ms  audio   8031 |#############
         0 ms  audio      0 |
         1 ms  audio      0 |
         2 ms  audio      1 |#
         3 ms  audio      2 |##
         4 ms  audio      3 |##
         5 ms  audio      4 |###
         6 ms  script     0 |
         7 ms  video      0 |
";
    assert_eq!(printed(&[path.into()]), expected);
}

#[test]
fn it_has_help() {
    let help = printed(&["--help".into()]);
    assert!(help.starts_with("usage: levels "));
}
