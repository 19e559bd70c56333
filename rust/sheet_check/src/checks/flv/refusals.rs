//! Refused files: each fault alone, behind frames, behind another tag, and before frames.

use common::flv::{BACK_POINTER, HEAD, HEADER, START, TYPE_BYTES, tag};
use common::recordings::Recording;
use sheet_check::frames::REFUSED_OFFSETS;
use sheet_check::reading::LONGEST;

use super::{listed_file, tags_of};
use crate::program::Feed;
use crate::trial::{Failure, Trial};

/// The byte of the header that is not read.
const FLAGS: usize = 4;

/// Lengths over the longest one of a frame, also where their low bytes are a short one.
const TOO_LONG: [usize; 6] = [
    LONGEST + 1,
    LONGEST + 2,
    0x00_FFFF,
    0x01_0000,
    0x80_0005,
    0xFF_FFFF,
];

/// Types of other tags, the first of which would be those of frames by their low bits.
const OTHERS: [u8; 5] = [0x28, 0x29, 0x32, 0x00, 0xFF];

pub fn check(trial: &mut Trial, _: u64) -> Result<String, Failure> {
    starts(trial)?;
    let faults = wrong_back_pointers().chain(long_frames());
    for fault in faults.chain(refused_offsets()) {
        everywhere(trial, &fault)?;
        let open = [&START[..], &fault].concat();
        trial.compare("a fault, the pipe open", &open, Feed::HeldOpen)?;
    }
    for fault in cuts() {
        for before in fronts() {
            let file = [&before[..], &fault].concat();
            trial.compare("a cut tag", &file, Feed::File)?;
        }
    }
    Ok(String::new())
}

/// Every bit of the header and of the first back-pointer, with nothing behind, with the rest of the
/// start, and with frames.
fn starts(trial: &mut Trial) -> Result<(), Failure> {
    let listed = listed_file();
    for at in 0..START.len() {
        let end = if at < HEADER { HEADER } else { START.len() };
        for bit in 0..8 {
            let mut file = listed.clone();
            file[at] ^= 1 << bit;
            trial.compare("a changed start", &file, Feed::File)?;
            for end in [end - 1, end, end + 1] {
                trial.compare("a changed start, cut", &file[..end], Feed::File)?;
            }
        }
        if at != FLAGS {
            let mut file = START[..end].to_vec();
            file[at] ^= 1;
            trial.compare("a wrong start, the pipe open", &file, Feed::HeldOpen)?;
        }
    }
    Ok(())
}

/// What may stand before a fault: the start alone; frames; another tag, short and long; both.
fn fronts() -> [Vec<u8>; 4] {
    let listed = listed_file();
    let other = tag(0x28, 0, b"\xAF\x00\x12\x10");
    let long = tag(0xFF, 0, &[0x08; LONGEST + 1]);
    [
        START.to_vec(),
        listed.clone(),
        [&START[..], &other].concat(),
        [&listed[..], &long].concat(),
    ]
}

/// The fault behind each front, alone and before frames.
fn everywhere(trial: &mut Trial, fault: &[u8]) -> Result<(), Failure> {
    let listed = listed_file();
    for before in fronts() {
        let file = [&before[..], fault].concat();
        trial.compare("a fault at the end", &file, Feed::File)?;
        let followed = [&file, tags_of(&listed)].concat();
        trial.compare("a fault among frames", &followed, Feed::File)?;
    }
    Ok(())
}

/// Tags whose back-pointer is another number: one bit is changed, it leaves out the head, it counts
/// itself, it is 0.
fn wrong_back_pointers() -> impl Iterator<Item = Vec<u8>> {
    let types = TYPE_BYTES.into_iter().chain(OTHERS);
    let tags = types.flat_map(|type_byte| {
        let bodies: [&[u8]; 2] = [b"", b"\x17\x01\x00\x00\x00"];
        bodies.map(|body| Recording::of([(type_byte, 0x0102_0304, body)]))
    });
    tags.flat_map(|recording| {
        let (file, at) = (&recording.bytes, recording.back_pointers[1]);
        let length = (at - START.len() - HEAD) as u32;
        let right = length + HEAD as u32;
        let bits = [0, 4, 8, 16, 24, 31].map(|bit| right ^ 1 << bit);
        let others = [length, right + BACK_POINTER as u32, right.swap_bytes(), 0];
        let numbers = bits.into_iter().chain(others);
        let files = numbers.map(|number| [&file[..at], &number.to_be_bytes()].concat());
        let tags = files.map(|file| tags_of(&file).to_vec());
        tags.collect::<Vec<_>>()
    })
}

/// Frames that are too long: only their heads, with a body that is cut, with a wrong back-pointer,
/// and whole.
fn long_frames() -> impl Iterator<Item = Vec<u8>> {
    let heads = TYPE_BYTES.into_iter().flat_map(|type_byte| {
        TOO_LONG.map(|length| {
            let [.., high, middle, low] = length.to_be_bytes();
            [&[type_byte, high, middle, low][..], &[0; 7]].concat()
        })
    });
    let longer = TYPE_BYTES.into_iter().flat_map(|type_byte| {
        let whole = tag(type_byte, 0, &[0x17; LONGEST + 1]);
        let cut = whole[..HEAD + LONGEST].to_vec();
        let mut wrong = whole.clone();
        wrong[HEAD + LONGEST + 1] ^= 1;
        [whole, cut, wrong]
    });
    heads.chain(longer)
}

/// Frames whose offset the pass refuses: of each type, also with a wrong back-pointer, which comes
/// first; and another tag, which is not passed.
fn refused_offsets() -> impl Iterator<Item = Vec<u8>> {
    REFUSED_OFFSETS.iter().flat_map(|payload| {
        let whole = TYPE_BYTES.map(|type_byte| tag(type_byte, 0x0102_0304, payload));
        let wrong = whole.clone().map(|mut tag| {
            let last = tag.len() - 1;
            tag[last] ^= 1;
            tag
        });
        let behind_another = [&tag(0x28, 0, payload)[..], &whole[0]].concat();
        whole.into_iter().chain(wrong).chain([behind_another])
    })
}

/// Tags that end in their head, body or back-pointer, with bodies around the longest, and some of
/// frames whose offset would be refused.
fn cuts() -> impl Iterator<Item = Vec<u8>> {
    let types = TYPE_BYTES.into_iter().chain(OTHERS);
    types.flat_map(|type_byte| {
        let longest = tag(type_byte, 0, &[0x17; LONGEST]);
        let longer = tag(type_byte, 0, &[0x17; LONGEST + 1]);
        let cut = |tag: &[u8], missing: usize| tag[..tag.len() - missing].to_vec();
        let body = LONGEST + BACK_POINTER;
        let of_longest =
            [1, 3, 4, 5, 4_096, body - 1, body, body + 1].map(|missing| cut(&longest, missing));
        let of_longer = [1, 4, 5, 6, body + 1, body + 2].map(|missing| cut(&longer, missing));
        let refused = tag(type_byte, 0, REFUSED_OFFSETS[0]);
        let of_refused = [1, 4, 5].map(|missing| cut(&refused, missing));
        of_longest.into_iter().chain(of_longer).chain(of_refused)
    })
}
