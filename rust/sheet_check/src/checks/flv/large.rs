//! As many frames as the sheet takes, with other tags between them, and what it must not judge
//! behind them.

use common::flv::{HEAD, START, tag};
use common::recordings::{OTHER_TYPES, Recording};
use common::rng::Rng;
use sheet_check::frames::{self, Frame, REFUSED_OFFSETS, listed};
use sheet_check::reading::{LAST, LONGEST};

use super::{empty_frames, listed_file, tags_of};
use crate::program::Feed;
use crate::trial::{Failure, Trial};

pub fn check(trial: &mut Trial, seed: u64) -> Result<String, Failure> {
    let file = random_file(seed);
    let larger = [&file[..], tags_of(&listed_file())].concat();
    let time = trial.compare("frames behind the last one", &larger, Feed::File)?;
    let before = [START, &empty_frames(LAST - 1)[..]].concat();
    let last = empty_frames(1);
    for fault in faults() {
        let behind = [&before, &last[..], &fault].concat();
        trial.compare("a fault behind the last frame", &behind, Feed::File)?;
        let instead = [&before[..], &fault].concat();
        trial.compare("a fault in place of the last frame", &instead, Feed::File)?;
    }
    let all = [before, last].concat();
    trial.compare("no end behind the last one", &all, Feed::HeldOpen)?;
    let (seconds, bytes) = (time.as_secs_f64(), larger.len());
    Ok(format!(
        "{LAST} lines in {seconds:.2} seconds, from {bytes} bytes"
    ))
}

/// As many random frames as the sheet takes, and another tag before one in ten.
fn random_file(seed: u64) -> Vec<u8> {
    let (mut rng, listed) = (Rng::new(seed), listed());
    let mut recording = Recording::default();
    for _ in 0..LAST {
        if rng.one_in(10) {
            let length = rng.below(300);
            let body = rng.bytes(length);
            recording.push(*rng.pick(&OTHER_TYPES), 0, &body);
        }
        let frame = frames::random(&mut rng, &listed);
        let frame_type = frame.frame_type % 3;
        let time = rng.number() as u32;
        Frame {
            frame_type,
            ..frame
        }
        .record(time, &mut recording);
    }
    recording.bytes
}

/// A cut head, a cut body, a frame that is too long, wrong back-pointers of a frame and of another
/// tag, an offset that the pass refuses.
fn faults() -> [Vec<u8>; 6] {
    let wrong = |type_byte| {
        let mut tag = tag(type_byte, 0, b"\x17");
        tag[HEAD + 1] ^= 1;
        tag
    };
    let whole = tag(9, 0, &[0x17; LONGEST + 1]);
    [
        whole[..HEAD - 1].to_vec(),
        tag(18, 0, b"\x02")[..HEAD].to_vec(),
        whole,
        wrong(8),
        wrong(0x28),
        tag(8, 0, REFUSED_OFFSETS[0]),
    ]
}
