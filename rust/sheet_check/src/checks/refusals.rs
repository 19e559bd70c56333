//! Refused frames: alone, behind others, and before others.

use sheet_check::frames::{self, Frame, REFUSED_OFFSETS, head, listed};
use sheet_check::reading::{HEAD, LONGEST};

use crate::program::Feed;
use crate::trial::{Failure, Trial};

/// Lengths over the longest one, also where their low bytes are a short one.
const TOO_LONG: [usize; 7] = [
    LONGEST + 1,
    LONGEST + 2,
    0x00_FFFF,
    0x01_0000,
    0x01_0005,
    0x80_0000,
    0xFF_FFFF,
];

/// Lengths of bodies, and how much of them is there.
const CUT_BODIES: [(usize, usize); 9] = [
    (1, 0),
    (5, 0),
    (5, 1),
    (5, 4),
    (256, 255),
    (LONGEST, 0),
    (LONGEST, 1),
    (LONGEST, 4_096),
    (LONGEST, LONGEST - 1),
];

pub fn check(trial: &mut Trial, _: u64) -> Result<String, Failure> {
    let before = frames::bytes(&listed());
    for refused in cut_heads().chain(cut_bodies()) {
        trial.compare("a cut frame alone", &refused, Feed::File)?;
        let behind = [&before[..], &refused].concat();
        trial.compare("a cut frame behind others", &behind, Feed::File)?;
    }
    for head in refused_heads() {
        trial.compare("a refused head alone", &head, Feed::File)?;
        trial.compare("a refused head, the pipe open", &head, Feed::HeldOpen)?;
        let followed = [&before, &head[..], &[0; LONGEST + 9], &before].concat();
        trial.compare("a refused head among others", &followed, Feed::File)?;
    }
    for frame in refused_offsets() {
        let refused = frame.bytes();
        trial.compare("a refused offset alone", &refused, Feed::File)?;
        trial.compare("a refused offset, the pipe open", &refused, Feed::HeldOpen)?;
        let followed = [&before[..], &refused, &before].concat();
        trial.compare("a refused offset among others", &followed, Feed::File)?;
        let cut = [&before[..], &refused[..refused.len() - 1]].concat();
        trial.compare("a refused offset, cut", &cut, Feed::File)?;
        for head in [
            head(4, frame.payload.len()),
            head(frame.frame_type, LONGEST + 1),
        ] {
            let other = [&head[..], &frame.payload].concat();
            trial.compare("a refused offset behind a refused head", &other, Feed::File)?;
        }
    }
    Ok(String::new())
}

/// In each type; the longest that there may be, too.
fn refused_offsets() -> impl Iterator<Item = Frame> {
    let mut long = b"\x97\xFF\x70\x00\x0F\x42\x40".to_vec();
    long.resize(LONGEST, 0);
    let payloads = REFUSED_OFFSETS.iter().map(|payload| payload.to_vec());
    let payloads = payloads.chain([long]);
    payloads.flat_map(|payload| [0, 1, 2, 3].map(|frame_type| Frame::new(frame_type, &payload)))
}

/// One to three bytes of heads that would be accepted or refused.
fn cut_heads() -> impl Iterator<Item = Vec<u8>> {
    let lengths = [0, 5, LONGEST, LONGEST + 1, 0xFF_FFFF];
    let types = [0, 1, 2, 3, 4, 9, 255];
    let heads = types
        .into_iter()
        .flat_map(move |frame_type| lengths.map(|length| head(frame_type, length)));
    heads.flat_map(|head| [1, 2, 3].map(|there| head[..there].to_vec()))
}

fn cut_bodies() -> impl Iterator<Item = Vec<u8>> {
    (0..4).flat_map(|frame_type| {
        CUT_BODIES.map(|(length, there)| {
            let mut cut = Frame::new(frame_type, &vec![0x17; length]).bytes();
            cut.truncate(HEAD + there);
            cut
        })
    })
}

/// Every type above 3, some also with lengths that are refused; the known types with such lengths.
fn refused_heads() -> impl Iterator<Item = [u8; HEAD]> {
    let unknown = (4..=u8::MAX).map(|frame_type| head(frame_type, 0));
    let lengths = [1, LONGEST].into_iter().chain(TOO_LONG);
    let unknown_and_long =
        lengths.flat_map(|length| [4, 9, 255].map(|frame_type| head(frame_type, length)));
    let long = TOO_LONG
        .into_iter()
        .flat_map(|length| [0, 1, 2, 3].map(|frame_type| head(frame_type, length)));
    unknown.chain(unknown_and_long).chain(long)
}
