//! Containers of multitrack audio and video: acceptance, the number of tracks, the tracks by their
//! numbers, and what is asked of a container as a whole.

mod class;
pub mod tiled;

use common::naming::names_itself;
use common::requirement::{NO_SUCH_TRACK, NOT_A_CONTAINER, UNKNOWN_FRAME_TYPE};
use common::rng::Rng;
use oracle::FRAME_TYPES;
use oracle::ertmp::multitrack_media::{
    first_track_fourcc, foreach_track, is_multitrack_container, multitrack_has_keyframe,
    multitrack_has_metadata, multitrack_has_sequence_start,
};
use oracle::types::FrameType;

use crate::input::{Input, lower};
use crate::leaf::{self, LeafCount, LeafFirst, LeafTrack};
use crate::run::{Class, Comparison, Difference, fitting, same};

/// As many tracks are all asked for; of more, a few.
const FEW: usize = 8;

pub struct Containers;

impl Comparison for Containers {
    const NAME: &'static str = "containers";

    const CLASSES: &'static [&'static str] = class::CLASSES;

    type Input = Candidate;

    fn listed() -> impl Iterator<Item = Candidate> {
        tiled::listed()
    }

    fn random(rng: &mut Rng) -> Candidate {
        tiled::random(rng)
    }

    fn compare(candidate: &Candidate) -> Result<&'static str, Difference> {
        let tracks = candidate.tracks();
        let numbers = asked(tracks.as_ref().map_or(0, Vec::len));
        let port = Answers::of_port(candidate, &numbers);
        same(Answers::of_rust(candidate, &tracks, &numbers), port)?;
        let class = fitting(candidate.class(), tracks.is_ok());
        let left_out = class::LEFT_OUT.contains(&class);
        assert_eq!(left_out, candidate.is_left_out(), "no input of \"{class}\"");
        Ok(class)
    }
}

/// A payload, and the number of its frame type.
#[derive(Clone)]
pub struct Candidate {
    pub frame_type: u32,
    pub payload: Vec<u8>,
}

/// The tracks of an accepted container, or why there are none.
pub type Tracks = Result<Vec<LeafTrack>, i32>;

impl Candidate {
    pub fn known_type(&self) -> Option<FrameType> {
        FRAME_TYPES.get(self.frame_type as usize).copied()
    }

    pub fn class(&self) -> Class {
        class::class(self.frame_type, &self.payload)
    }

    pub fn tracks(&self) -> Tracks {
        match self.known_type() {
            Some(known) => tracks(known, &self.payload),
            None => Err(UNKNOWN_FRAME_TYPE),
        }
    }

    pub fn is_left_out(&self) -> bool {
        let known = self.known_type();
        known.is_some_and(|known| is_left_out(known, &self.payload))
    }
}

impl Input for Candidate {
    fn smaller(&self) -> impl Iterator<Item = Self> {
        let payloads = self.payload.smaller();
        let payloads = payloads.map(|payload| Self { payload, ..*self });
        let types = lower(self.frame_type.into()).map(|number| Self {
            frame_type: number as u32,
            ..self.clone()
        });
        payloads.chain(types)
    }

    fn show(&self) -> String {
        format!(
            "frame type {}, payload of {}",
            self.frame_type,
            self.payload.show()
        )
    }
}

/// Whether the Rust accepts a container that names itself. Of these, tracks and first FourCC are
/// not compared with the Rust's: request N2 refuses them.
pub fn is_left_out(frame_type: FrameType, payload: &[u8]) -> bool {
    names_itself(frame_type as u32, payload) && foreach_track(frame_type, payload, |_| {})
}

/// The tracks that there must be: the Rust's, but for what is left out.
pub fn tracks(frame_type: FrameType, payload: &[u8]) -> Tracks {
    if is_left_out(frame_type, payload) {
        return Err(NOT_A_CONTAINER);
    }
    tracks_of_rust(frame_type, payload)
}

/// The FourCC of the first one, likewise.
pub fn first_fourcc(frame_type: FrameType, payload: &[u8]) -> Option<[u8; 4]> {
    let first = first_track_fourcc(frame_type, payload);
    first.filter(|_| !is_left_out(frame_type, payload))
}

/// What the Rust's visitor is handed, each body as its place in the payload. A refusal hands out
/// nothing.
pub fn tracks_of_rust(frame_type: FrameType, payload: &[u8]) -> Tracks {
    let mut tracks = vec![];
    let accepted = foreach_track(frame_type, payload, |track| {
        tracks.push(LeafTrack {
            error: 0,
            fourcc: track.fourcc,
            count: 0,
            start: track.payload.as_ptr() as usize - payload.as_ptr() as usize,
            length: track.payload.len(),
            track_id: track.track_id,
            packet_type: track.packet_type,
            video_frame_type: track.video_frame_type,
        });
    });
    if !accepted {
        assert!(tracks.is_empty(), "a refused container has no tracks");
        return Err(NOT_A_CONTAINER);
    }
    let count = tracks.len();
    tracks.iter_mut().for_each(|track| track.count = count);
    Ok(tracks)
}

/// The track of this number; without one, the refusal and the count are all there is.
pub fn request(tracks: &Tracks, number: usize) -> LeafTrack {
    let refused = |error, count| LeafTrack {
        error,
        count,
        ..LeafTrack::default()
    };
    match tracks {
        Ok(tracks) => match tracks.get(number) {
            Some(track) => *track,
            None => refused(NO_SUCH_TRACK, tracks.len()),
        },
        Err(error) => refused(*error, 0),
    }
}

/// What the tracks make of a request.
pub fn requested_track(frame_type: FrameType, payload: &[u8], number: usize) -> LeafTrack {
    request(&tracks(frame_type, payload), number)
}

/// The numbers of a few tracks, or those at both ends and in the middle; and numbers beyond.
pub fn asked(count: usize) -> Vec<usize> {
    let mut numbers: Vec<usize> = if count <= FEW {
        (0..count).collect()
    } else {
        vec![0, 1, count / 2, count - 2, count - 1]
    };
    numbers.extend([count, count + 1, usize::MAX]);
    numbers
}

/// What the functions answer. Equal places are equal bodies: both are parts of the same payload.
#[derive(Debug, PartialEq)]
struct Answers {
    container: bool,
    first: LeafFirst,
    sequence_start: bool,
    metadata: bool,
    keyframe: bool,
    count: LeafCount,
    /// By the numbers that were asked for.
    tracks: Vec<(usize, LeafTrack)>,
}

impl Answers {
    /// The Rust has no frame type for a number above 3, and accepts containers that name
    /// themselves: docs/REQUIREMENTS.md decides.
    fn of_rust(candidate: &Candidate, tracks: &Tracks, numbers: &[usize]) -> Self {
        let payload = &candidate.payload[..];
        let known = candidate.known_type();
        let holds =
            |of: fn(FrameType, &[u8]) -> bool| known.is_some_and(|known| of(known, payload));
        let fourcc = known.and_then(|known| first_fourcc(known, payload));
        let count = match tracks {
            Ok(tracks) => (0, tracks.len()),
            Err(error) => (*error, 0),
        };
        Self {
            container: holds(is_multitrack_container),
            first: LeafFirst {
                found: fourcc.is_some(),
                fourcc: fourcc.unwrap_or_default(),
            },
            sequence_start: holds(multitrack_has_sequence_start),
            metadata: holds(multitrack_has_metadata),
            keyframe: multitrack_has_keyframe(payload),
            count: LeafCount {
                error: count.0,
                count: count.1,
            },
            tracks: by_number(numbers, |number| request(tracks, number)),
        }
    }

    fn of_port(candidate: &Candidate, numbers: &[usize]) -> Self {
        let (frame_type, payload) = (candidate.frame_type, &candidate.payload[..]);
        Self {
            container: leaf::is_multitrack_container(frame_type, payload),
            first: leaf::first_track_fourcc(frame_type, payload),
            sequence_start: leaf::multitrack_has_sequence_start(frame_type, payload),
            metadata: leaf::multitrack_has_metadata(frame_type, payload),
            keyframe: leaf::multitrack_has_keyframe(payload),
            count: leaf::track_count(frame_type, payload),
            tracks: by_number(numbers, |number| {
                leaf::track_info(frame_type, payload, number)
            }),
        }
    }
}

/// The answer to each number, beside it.
pub fn by_number<T>(numbers: &[usize], answer: impl Fn(usize) -> T) -> Vec<(usize, T)> {
    numbers
        .iter()
        .map(|&number| (number, answer(number)))
        .collect()
}
