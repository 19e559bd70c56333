//! Other tags: in front of frames, between them and behind them, of any length, and many.

use common::flv::{HEAD, START, tag};
use common::recordings::OTHER_TYPES;
use common::writing::LONGEST_BODY;
use sheet_check::reading::LONGEST;

use super::{listed_file, tags_of};
use crate::program::Feed;
use crate::trial::{Failure, Trial};

/// Lengths around those of buffers.
const LENGTHS: [usize; 14] = [
    0,
    1,
    255,
    256,
    4_096,
    LONGEST - 1,
    LONGEST,
    LONGEST + 1,
    LONGEST + 4,
    2 * LONGEST - 1,
    2 * LONGEST,
    2 * LONGEST + 1,
    100_000,
    1 << 20,
];

/// How many short ones stand between two frames.
const MANY: usize = 100_000;

pub fn check(trial: &mut Trial, _: u64) -> Result<String, Failure> {
    let listed = listed_file();
    let frames = tags_of(&listed);
    for type_byte in 0..=u8::MAX {
        let file = [START, frames, &tag(type_byte, 0, b"\x17\x00"), frames].concat();
        trial.compare("a tag of each type", &file, Feed::File)?;
    }
    for length in LENGTHS {
        // The bytes of a body are those of a frame, again and again.
        let body: Vec<u8> = tag(8, 0, b"").into_iter().cycle().take(length).collect();
        for type_byte in [0x28, 0xFF] {
            around(trial, frames, &tag(type_byte, 7, &body))?;
        }
    }
    around(trial, frames, &tag(0x29, 7, &vec![0x08; LONGEST_BODY]))?;
    let others = OTHER_TYPES.map(|type_byte| tag(type_byte, 0, b"\x08"));
    let many = others.concat().repeat(MANY / others.len());
    trial.compare(
        "many other tags alone",
        &[START, &many[..]].concat(),
        Feed::File,
    )?;
    let between = [&listed, &many[..], frames, &many, &[0]].concat();
    trial.compare("many other tags", &between, Feed::File)?;
    Ok(String::new())
}

/// Another tag in front of frames, between them and behind them; cut at its places, and with a
/// wrong back-pointer.
fn around(trial: &mut Trial, frames: &[u8], other: &[u8]) -> Result<(), Failure> {
    let file = [START, other, frames, other, other, frames, other].concat();
    trial.compare("other tags among frames", &file, Feed::File)?;
    let front = START.len() + other.len() + frames.len();
    for there in [
        HEAD - 1,
        HEAD,
        other.len() - 5,
        other.len() - 4,
        other.len() - 1,
    ] {
        let cut = &file[..front + there];
        trial.compare("another tag, cut", cut, Feed::File)?;
    }
    for place in 1..=4 {
        let mut wrong = file.clone();
        wrong[front + other.len() - place] ^= 0x10;
        trial.compare("another tag's wrong back-pointer", &wrong, Feed::File)?;
    }
    Ok(())
}
