//! `hozgrim_flv_start` and `hozgrim_flv_next` beside a reading of the request: the Rust has no
//! reader of FLV files. On a file with other bytes in its bodies the port must answer the same.

mod class;

use std::iter;

use common::flv::{self, START, Tag, tag};
use common::layers::truncations;
use common::recordings::{
    OTHER_TYPES, Recording, each_bit_changed, every_type, four_tags, random_recording,
};
use common::rng::Rng;
use common::writing::LONGEST_BODY;
use hozgrim_sys::{HozgrimFlvFrame, HozgrimFlvStart};

use crate::input::{Input, lower};
use crate::run::{Comparison, Difference, same};

/// Of a longer file, only the front is shown.
const SHOWN: usize = 600;

/// A longer file is made smaller by few tries only.
const LONG: usize = 100_000;
const FEW_TRIES: usize = 16;

/// How many other tags one call steps over.
const MANY: usize = 100_000;

/// A file that is read from its start on, or from a place.
#[derive(Clone)]
pub struct Walk {
    file: Vec<u8>,
    at: Option<usize>,
}

pub struct FlvRead;

impl Comparison for FlvRead {
    const NAME: &'static str = "flv_read";

    const CLASSES: &'static [&'static str] = class::CLASSES;

    const SIDES: [&'static str; 2] = ["requirement", "port"];

    type Input = Walk;

    fn listed() -> impl Iterator<Item = Walk> {
        let whole = examples()
            .chain(truncations(four_tags().bytes))
            .chain(every_type())
            .chain(changed())
            .chain(large());
        whole.map(|file| Walk { file, at: None }).chain(places())
    }

    fn random(rng: &mut Rng) -> Walk {
        let file = random_recording(rng);
        let at = rng.one_in(3).then(|| random_place(rng, &file));
        Walk { file, at }
    }

    fn compare(walk: &Walk) -> Result<&'static str, Difference> {
        let (asked, found) = (walk.asked(), walk.found());
        same_answers(&asked, &found)?;
        same_answers(&asked, &walk.with_other_bodies().found())?;
        Ok(class::of(walk))
    }
}

/// The answers of the start, if it is asked, and of each call that follows.
type Answers = (Option<HozgrimFlvStart>, Vec<HozgrimFlvFrame>);

/// Holds the answers against each other, up to the first that differs.
fn same_answers(asked: &Answers, found: &Answers) -> Result<(), Difference> {
    same(asked.0, found.0)?;
    let calls = asked.1.len().max(found.1.len());
    for call in 0..calls {
        let of = |answers: &Answers| (call, answers.1.get(call).copied());
        same(of(asked), of(found))?;
    }
    Ok(())
}

impl Walk {
    /// Where the first call of `hozgrim_flv_next` looks, if there is one.
    fn first_place(&self) -> Option<usize> {
        self.at.or_else(|| flv::start(&self.file).ok())
    }

    /// What must be answered, by the reading.
    fn asked(&self) -> Answers {
        let start = match flv::start(&self.file) {
            Ok(next) => HozgrimFlvStart { error: 0, next },
            Err((error, _)) => HozgrimFlvStart { error, next: 0 },
        };
        let start = self.at.is_none().then_some(start);
        let Some(at) = self.first_place() else {
            return (start, vec![]);
        };
        let mut frames: Vec<HozgrimFlvFrame> = flv::frames(&self.file, at).map(answer).collect();
        if frames.last().is_none_or(|last| last.error == 0) {
            frames.push(HozgrimFlvFrame {
                next: self.file.len(),
                ..HozgrimFlvFrame::default()
            });
        }
        (start, frames)
    }

    /// What the port answers, call after call. A walk that does not end is cut off behind as many
    /// calls as the file has bytes, and one more.
    fn found(&self) -> Answers {
        let file = &self.file[..];
        let start = self.at.is_none().then(|| hozgrim_sys::flv_start(file));
        let refused = start.is_some_and(|start| start.error != 0);
        let first = self.at.or(start.map(|start| start.next));
        let mut place = first.filter(|_| !refused);
        let calls = iter::from_fn(|| {
            let answer = hozgrim_sys::flv_next(file, place?);
            place = (answer.error == 0 && answer.found != 0).then_some(answer.next);
            Some(answer)
        });
        (start, calls.take(file.len() + 2).collect())
    }

    /// The same file but for every byte in a body.
    fn with_other_bodies(&self) -> Self {
        let mut other = self.clone();
        if let Some(at) = self.first_place() {
            for body in flv::bodies(&self.file, at) {
                other.file[body].iter_mut().for_each(|byte| *byte = !*byte);
            }
        }
        other
    }
}

fn answer(frame: Result<Tag, (i32, &str)>) -> HozgrimFlvFrame {
    match frame {
        Ok(tag) => HozgrimFlvFrame {
            error: 0,
            found: 1,
            frame_type: tag.head.frame_type().expect("it is a frame"),
            timestamp: tag.head.timestamp,
            start: tag.start,
            length: tag.head.length,
            next: tag.next,
        },
        Err((error, _)) => HozgrimFlvFrame {
            error,
            ..HozgrimFlvFrame::default()
        },
    }
}

/// The files by which the readings of the request are told apart.
fn examples() -> impl Iterator<Item = Vec<u8>> {
    let header = &START[..9];
    let empty = &tag(8, 0, b"")[..];
    let other = &tag(0, 0, b"")[..];
    let files: [&[&[u8]]; 23] = [
        &[],
        &[b"\x00"],
        &[&[0; 8]],
        &[&[0; 9]],
        &[header],
        &[header, b"\x00\x00\x01"],
        &[header, b"\x00\x00\x00\x01"],
        &[header, b"\x00\x00\x00\x01\x00"],
        &[b"FLV\x01\x05\x01\x00\x00\x09"],
        &[b"FLV\x01\x05\x00\x00\x00\x0A\x00\x00\x00\x00\x00"],
        &[START],
        &[START, empty],
        &[START, empty, b"\x00"],
        &[START, empty, &[0; 10]],
        &[START, &[0; 14]],
        &[START, &[0; 15]],
        &[START, &[0; 15], empty],
        &[START, b"\x08\x00\x00\x01\x00\x00\x00\x00\x00\x00\x00\xAF"],
        &[START, b"\x08\x00\x80\x01\x00\x00\x00\x00\x00\x00\x00"],
        &[START, &empty[..14], b"\x0C"],
        &[START, &empty[..11], b"\x01\x00\x00\x0B"],
        &[START, &tag(8, 0x8000_0001, b"")],
        &[START, other, empty, &empty[..14]],
    ];
    let files = files.map(|parts| parts.concat());
    files.into_iter()
}

/// Four tags with every bit of a place changed, and of the start cut behind it too.
fn changed() -> impl Iterator<Item = Vec<u8>> {
    let files: Vec<Vec<u8>> = each_bit_changed(&four_tags()).collect();
    let cut = files.clone().into_iter().flat_map(|file| {
        let ends = [8, 9, 10, 12, 13, 14];
        ends.map(|end| file[..end].to_vec())
    });
    let cut: Vec<Vec<u8>> = cut.collect();
    files.into_iter().chain(cut)
}

/// The longest tags, of frames and others, whole, cut, and with a wrong back-pointer; and so many
/// other tags that one call steps over a long part of the file.
fn large() -> impl Iterator<Item = Vec<u8>> {
    let longest = [8, 0x29].into_iter().flat_map(|type_byte| {
        let body = vec![0x08; LONGEST_BODY];
        let empty: (u8, u32, &[u8]) = (18, 7, b"");
        let recording = Recording::of([empty, (type_byte, 7, &body), empty]);
        let at = recording.back_pointers[2];
        let file = recording.bytes.clone();
        let wrong = [0, 3].map(|byte| recording.with_change(at + byte, 1));
        let cut = [at - 1, at, at + 3].map(|end| file[..end].to_vec());
        [file].into_iter().chain(wrong).chain(cut)
    });
    let others = OTHER_TYPES.map(|type_byte| tag(type_byte, 0, b"\x08"));
    let many = others.concat().repeat(MANY / others.len());
    let empty = tag(9, 7, b"");
    let many = [START, &empty[..], &many, &empty, &many].concat();
    longest.chain([many])
}

/// Every place of short files, cut at every byte, and places far past the end. One of the files has
/// whole tags in a body, which are read where a call points there.
fn places() -> impl Iterator<Item = Walk> {
    let tags = [tag(8, 1, b"\xAF"), tag(0, 2, b"")].concat();
    let inner = Recording::of([(9, 3, &tags[..]), (0xFF, 4, b""), (18, 5, b"")]).bytes;
    // No start: a frame; and another tag whose type byte is that of the signature.
    let frame = tag(8, 1, b"\xAF");
    let other = b"F\x00\x00\x00LV\x01\x05\x00\x00\x00\x00\x00\x00\x0B".to_vec();
    let files = [four_tags().bytes, inner, frame, other];
    let files = files.into_iter().flat_map(truncations);
    files.flat_map(|file| {
        let length = file.len();
        let far = [
            1 << 32,
            1 << 63,
            usize::MAX - 14,
            usize::MAX - 10,
            usize::MAX - 1,
        ];
        let far = far.into_iter().chain([usize::MAX, usize::MAX - length]);
        let places = (0..length + 16).chain(far);
        places.map(move |at| Walk {
            file: file.clone(),
            at: Some(at),
        })
    })
}

/// Half of them places of tags.
fn random_place(rng: &mut Rng, file: &[u8]) -> usize {
    let tags: Vec<usize> = flv::tags(file, START.len())
        .flatten()
        .map(|tag| tag.next)
        .collect();
    match rng.below(8) {
        0 => rng.below(file.len() + 20),
        1 => file.len(),
        2 => file.len() + 1 + rng.below(20),
        3 => usize::MAX - rng.below(20),
        _ if tags.is_empty() => START.len(),
        _ => *rng.pick(&tags),
    }
}

impl Input for Walk {
    fn smaller(&self) -> impl Iterator<Item = Self> {
        let tries = if self.file.len() > LONG {
            FEW_TRIES
        } else {
            usize::MAX
        };
        let files = self
            .file
            .smaller()
            .take(tries)
            .map(|file| Self { file, at: self.at });
        let places = self.at.into_iter().flat_map(|at| lower(at as u64));
        let places = places.map(|at| Self {
            file: self.file.clone(),
            at: Some(at as usize),
        });
        let class = class::of(self);
        let smaller = files.chain(places);
        smaller.filter(move |walk| class::of(walk) == class)
    }

    fn show(&self) -> String {
        let front = self.file[..self.file.len().min(SHOWN)].to_vec().show();
        let (class, length) = (class::of(self), self.file.len());
        let from = self.at.map_or("the start".into(), |at| at.to_string());
        format!("\"{class}\", from {from} of a file of {length} bytes, which begins with {front}")
    }
}
