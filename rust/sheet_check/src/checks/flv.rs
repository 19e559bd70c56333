//! The checks of `flv_sheet`.

pub mod large;
pub mod others;
pub mod refusals;
pub mod written;

use common::flv::{START, TYPE_BYTES, tag};
use common::recordings::{Recording, random_recording};
use common::rng::Rng;
use common::writing::LONGEST_BODY;
use common::{layers, strings};
use sheet_check::frames::{self, listed};
use sheet_check::reading::LONGEST;

use super::long;
use crate::program::Feed;
use crate::trial::{Failure, Trial};

/// How many random files there are.
const RANDOM_FILES: usize = 3_000;

/// How much memory more a large file may take than a small one, in KiB: as good as none, since the
/// kernel counts pages in batches.
const MORE_MEMORY: u64 = 1_024;

/// The listed frames, and other tags between them: some that would be frames by their low bits, one
/// whose body is a whole tag, and one with so long a body.
fn mixed(longer: usize) -> Vec<u8> {
    let others: [(u8, &[u8]); 6] = [
        (0x28, b"\xAF\x00\x12\x10"),
        (0x29, b""),
        (0x32, b"\x02\x00\x0AonMetaData"),
        (0x00, b"\x17"),
        (
            0xFF,
            b"\x08\x00\x00\x00\x00\x00\x00\x00\x00\x00\x00\x00\x00\x00\x0B",
        ),
        (0x0F, &vec![0x5A; longer]),
    ];
    let mut recording = Recording::default();
    for (number, frame) in listed().iter().enumerate() {
        frame.record(40 * number as u32, &mut recording);
        if let Some((type_byte, body)) = others.get(number / 2).filter(|_| number % 2 == 1) {
            recording.push(*type_byte, u32::MAX, body);
        }
    }
    recording.bytes
}

/// Listed frames and other tags, cut at every byte and whole.
pub fn cuts(trial: &mut Trial, _: u64) -> Result<String, Failure> {
    for file in layers::truncations(mixed(20)) {
        trial.compare("a file cut at any byte", &file, Feed::File)?;
    }
    Ok(String::new())
}

/// The file's tags of a payload, one for each type of frames.
fn in_each_type(payload: Vec<u8>) -> Vec<u8> {
    let tags = TYPE_BYTES.map(|type_byte| tag(type_byte, 0, &payload));
    tags.concat()
}

/// Long payloads, and short ones behind them; then one that is too long.
pub fn lengths(trial: &mut Trial, _: u64) -> Result<String, Failure> {
    let file = [START, &long(in_each_type)[..]].concat();
    trial.compare("long payloads", &file, Feed::File)?;
    for type_byte in TYPE_BYTES {
        let longer = tag(type_byte, 0, &[0x17; LONGEST + 1]);
        let file = [&file, &longer[..], &in_each_type(vec![])].concat();
        trial.compare("a payload that is too long", &file, Feed::File)?;
    }
    Ok(String::new())
}

/// Files of the generator, most of them damaged.
pub fn random(trial: &mut Trial, seed: u64) -> Result<String, Failure> {
    let mut rng = Rng::new(seed);
    for _ in 0..RANDOM_FILES {
        let file = random_recording(&mut rng);
        trial.compare("a random file", &file, Feed::File)?;
    }
    Ok(String::new())
}

/// Files that come through a pipe in small pieces.
pub fn pieces(trial: &mut Trial, _: u64) -> Result<String, Failure> {
    for size in [1, 3, 7] {
        let what = format!("pieces of {size} bytes");
        trial.compare(&what, &mixed(300), Feed::Pieces(size))?;
    }
    let file = [&mixed(200_000), &long(in_each_type)[..]].concat();
    trial.compare("pieces of 5,000 bytes", &file, Feed::Pieces(5_000))?;
    Ok(String::new())
}

/// Every payload of 0 to 2 bytes in each type.
pub fn short(trial: &mut Trial, _: u64) -> Result<String, Failure> {
    let tags = strings::up_to_two_bytes().flat_map(in_each_type);
    let file: Vec<u8> = START.iter().copied().chain(tags).collect();
    trial.compare("payloads of 0 to 2 bytes", &file, Feed::File)?;
    Ok(String::new())
}

/// What is held in memory behind the last frame of a large file, beside a small one. The small one
/// has the longest frame too.
pub fn memory(trial: &mut Trial, _: u64) -> Result<String, Failure> {
    let frame = tag(9, 0, &[0x17; LONGEST]);
    let other = tag(0x29, 0, &vec![0x17; LONGEST_BODY]);
    let small = [&START[..], &tag(0x29, 0, &[0x17; LONGEST + 1]), &frame].concat();
    let large = [&START[..], &frame.repeat(1_000), &other, &other, &frame].concat();
    let [small, large] = [trial.memory_behind(&small)?, trial.memory_behind(&large)?];
    let (Some(least), Some(most)) = (small, large) else {
        return Ok("nothing was compared: /proc has no VmHWM".into());
    };
    let remark = format!("{least} KiB behind a small file, {most} KiB behind one of 66 MB");
    if most > least + MORE_MEMORY {
        return Err(format!("memory grows with the file: {remark}").into());
    }
    Ok(remark)
}

/// The file of the listed frames.
fn listed_file() -> Vec<u8> {
    frames::recording(&listed())
}

/// The tags of a file.
fn tags_of(file: &[u8]) -> &[u8] {
    &file[START.len()..]
}

/// So many empty frames.
fn empty_frames(count: usize) -> Vec<u8> {
    tag(18, 0, b"").repeat(count)
}
