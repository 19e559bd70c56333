//! The stored track requests, each with its answer.

use std::io;

use common::requirement::{NO_SUCH_TRACK, NOT_A_CONTAINER, UNKNOWN_FRAME_TYPE};
use hozgrim_sys::HozgrimTrack;
use oracle::starts::record_valid;
use oracle::types::FrameType;

use super::sample::{count, drawn, filled};
use super::{Case, classify, containers, row};
use crate::classify::Classify;
use crate::containers::tiled::{AUDIO, Form, container, empty_tracks};
use crate::containers::{Candidate, Containers};
use crate::pass::Seen;
use crate::run::{Comparison, name_of};

/// The byte that the program knows the operation by.
const TRACK_REQUEST: u8 = b'Q';

/// The class whose payloads are too long to be stored.
const TOO_LONG: &str = "OneTrack, body over 24 bits";

/// Random payloads are taken while fewer rows have their class.
const EACH: usize = 24;

/// The classes of answers.
const ANSWERS: &[&str] = &[
    "refused: -21",
    "refused: -24",
    "refused: -23",
    "track without a record",
    "track with a valid record",
    "track with a refused record",
    "track with a record refused for a type",
];

/// Prints the classes of the payloads and of the answers.
pub fn rows() -> io::Result<Vec<Vec<u8>>> {
    let stored = stored();
    let classes = Containers::CLASSES.iter().copied();
    let classes: Vec<_> = classes.filter(|class| *class != TOO_LONG).collect();
    count("track request", &classes, stored.iter().map(Stored::class))?;
    let answers = stored.iter().map(Stored::class_of_answer);
    count("track request, by answer", ANSWERS, answers)?;
    Ok(stored.iter().map(Stored::row).collect())
}

fn stored() -> Vec<Stored> {
    let random = drawn::<Classify>(|frame| {
        let Candidate {
            frame_type,
            payload,
        } = &frame.candidate;
        (*frame_type, payload.len())
    });
    let random = random.flat_map(|frame| every_track(frame.candidate));
    let listed = listed().map(Stored::new);
    filled(
        listed,
        random.map(Stored::new),
        EACH,
        Stored::class,
        Stored::row,
    )
}

/// A payload, and the number of the track that is asked for.
struct Request {
    candidate: Candidate,
    number: u32,
}

/// Those of the operation on containers; every track of the frames of kind and hint; the last one
/// of the most tracks that have a FourCC each.
fn listed() -> impl Iterator<Item = Request> {
    let asked = containers::containers().into_iter().map(|case| Request {
        number: case.number,
        candidate: candidate(case),
    });
    let classified = classify::frames().into_iter().map(candidate);
    let every = classified.flat_map(every_track);
    asked.chain(every).chain([last_codec()])
}

fn last_codec() -> Request {
    let tracks = empty_tracks(4_096);
    Request {
        candidate: Candidate {
            frame_type: FrameType::Audio as u32,
            payload: container(AUDIO, Form::ManyTracksManyCodecs, 1, &tracks),
        },
        number: 4_095,
    }
}

fn candidate(case: Case) -> Candidate {
    Candidate {
        frame_type: case.frame_type as u32,
        payload: case.payload,
    }
}

/// One request for each track, and one beyond.
fn every_track(candidate: Candidate) -> impl Iterator<Item = Request> {
    let count = candidate.tracks().map_or(0, |tracks| tracks.len());
    (0..=count as u32).map(move |number| Request {
        candidate: candidate.clone(),
        number,
    })
}

/// A request with its answer.
struct Stored {
    request: Request,
    answer: HozgrimTrack,
}

impl Stored {
    fn new(request: Request) -> Self {
        let Request { candidate, number } = &request;
        // The route flag has no part in a request.
        let seen = Seen::new(candidate.frame_type, &candidate.payload, 0);
        let answer = seen.track(*number as usize);
        Self { request, answer }
    }

    fn class(&self) -> &'static str {
        name_of(self.request.candidate.class())
    }

    fn class_of_answer(&self) -> &'static str {
        match (self.answer.error, self.answer.verdict) {
            (UNKNOWN_FRAME_TYPE, _) => "refused: -21",
            (NOT_A_CONTAINER, _) => "refused: -24",
            (NO_SUCH_TRACK, _) => "refused: -23",
            (_, 0) => "track without a record",
            (_, 1) => "track with a valid record",
            _ if self.is_for_a_type() => "track with a record refused for a type",
            _ => "track with a refused record",
        }
    }

    /// Whether the Rust accepts the track's record.
    fn is_for_a_type(&self) -> bool {
        let Request { candidate, .. } = &self.request;
        let HozgrimTrack { start, length, .. } = self.answer;
        let known = candidate.known_type().expect("there is a track");
        let fourcc = self.answer.fourcc.to_be_bytes();
        record_valid(known, &fourcc, &candidate.payload[start..start + length])
    }

    /// Behind the payload stands the answer.
    fn row(&self) -> Vec<u8> {
        let Request { candidate, number } = &self.request;
        let frame_type = candidate.frame_type as u8;
        let mut bytes = row(TRACK_REQUEST, frame_type, *number, 0, &candidate.payload);
        bytes.extend(numbers(&self.answer).map(u32::to_be_bytes).concat());
        bytes
    }
}

/// The answer's numbers in the order of the row; the error without its sign.
fn numbers(answer: &HozgrimTrack) -> [u32; 9] {
    [
        answer.error.unsigned_abs(),
        answer.count as u32,
        answer.track_id.into(),
        answer.packet_type.into(),
        answer.fourcc,
        answer.video_frame_type.into(),
        answer.start as u32,
        answer.length as u32,
        answer.verdict.into(),
    ]
}
