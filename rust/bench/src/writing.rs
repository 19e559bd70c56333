//! Containers that are written, beside copies of their bodies.

use std::hint::black_box;

use common::containers::{self, Form, Track, container};
use common::rng::Rng;
use oracle::ertmp::multitrack_media::foreach_track;
use oracle::types::FrameType;

use crate::buffers::{Buffers, State};
use crate::frames::name;
use crate::page::{grouped, nanoseconds, ratio};
use crate::port::{ContainerCall, HozgrimWritten, write_container};
use crate::sides::Side;
use crate::timing::{Batch, Plan, batch, measure};

/// The packet type of coded frames.
const CODED: u8 = 1;

/// The FourCC of every track.
const FOURCC: [u8; 4] = *b"Opus";

/// An audio container to be written, whose bodies stand one behind the other.
pub struct Writing {
    name: String,
    form: Form,
    ids: Vec<u8>,
    fourccs: Vec<u32>,
    starts: Vec<usize>,
    lengths: Vec<usize>,
    bodies: Vec<u8>,
    /// Where each body is written to.
    places: Vec<usize>,
    written: Vec<u8>,
}

impl Writing {
    /// The heads of `cells`.
    pub const HEADS: [&str; 8] = [
        "container",
        "bytes",
        "port",
        "per track",
        "one copy",
        "port/copy",
        "copies",
        "port/copies",
    ];

    /// The port must write what the original reads the same tracks from.
    pub fn new(form: Form, count: usize, length: usize) -> Self {
        let bodies = Rng::new(1).bytes(count * length);
        let track = |number: usize| Track {
            id: number as u8,
            fourcc: FOURCC,
            body: bodies[number * length..][..length].to_vec(),
        };
        let tracks: Vec<Track> = (0..count).map(track).collect();
        let written = container(containers::AUDIO, form, CODED, &tracks);
        let what = if count == 1 { "track" } else { "tracks" };
        let writing = Self {
            name: name(form, count, &format!("{what} of {} B", grouped(length))),
            form,
            ids: tracks.iter().map(|track| track.id).collect(),
            fourccs: vec![u32::from_be_bytes(FOURCC); count],
            starts: (0..count).map(|number| number * length).collect(),
            lengths: vec![length; count],
            places: places(&tracks, &written),
            bodies,
            written,
        };
        writing.agree();
        writing
    }

    fn agree(&self) {
        let mut output = vec![0; self.written.len()];
        let answer = self.write(&self.bodies, &mut output);
        assert_eq!((answer.error, answer.length), (0, output.len()));
        assert!(output == self.written, "{}", self.name);
    }

    fn write(&self, bodies: &[u8], output: &mut [u8]) -> HozgrimWritten {
        let call = ContainerCall {
            frame_type: FrameType::Audio as u32,
            video_frame_type: 0,
            form: self.form as u32,
            packet_type: CODED.into(),
            count: self.ids.len(),
            ids: &self.ids,
            fourccs: &self.fourccs,
            starts: &self.starts,
            lengths: &self.lengths,
            bodies,
        };
        write_container(&call, output)
    }

    /// Measures it, and gives a row of a table.
    pub fn cells(&self, plan: Plan, state: State) -> Vec<String> {
        let sides: [Batch<Self>; 3] = [batch::<Port, _>, batch::<OneCopy, _>, batch::<CopyEach, _>];
        let buffers = Buffers::with_room(&self.bodies, self.written.len(), state);
        let costs = measure(plan, self, buffers, sides);
        let [port, one, each] = costs.map(|cost| cost.median);
        vec![
            self.name.clone(),
            grouped(self.written.len()),
            nanoseconds(port),
            nanoseconds(port / self.ids.len() as f64),
            nanoseconds(one),
            ratio(port / one),
            nanoseconds(each),
            ratio(port / each),
        ]
    }
}

/// Where the bodies of the tracks stand, once the original has read the same tracks.
fn places(tracks: &[Track], written: &[u8]) -> Vec<usize> {
    let mut places = vec![];
    let accepted = foreach_track(FrameType::Audio, written, |track| {
        let expected = &tracks[places.len()];
        assert_eq!(
            (track.track_id, track.fourcc),
            (expected.id, expected.fourcc)
        );
        assert!(track.payload == expected.body);
        places.push(track.payload.as_ptr() as usize - written.as_ptr() as usize);
    });
    assert!(accepted && places.len() == tracks.len());
    places
}

/// The port's writer.
struct Port;

impl Side<Writing> for Port {
    fn run(writing: &Writing, bodies: &mut [u8], output: &mut [u8]) {
        black_box(&writing.write(bodies, output));
    }
}

/// A copy of all bodies at once, one behind the other, and nothing else.
struct OneCopy;

impl Side<Writing> for OneCopy {
    fn run(_: &Writing, bodies: &mut [u8], output: &mut [u8]) {
        output[..bodies.len()].copy_from_slice(bodies);
    }
}

/// A copy of each body to its place, and nothing else.
struct CopyEach;

impl Side<Writing> for CopyEach {
    fn run(writing: &Writing, bodies: &mut [u8], output: &mut [u8]) {
        let parts = writing.starts.iter().zip(&writing.lengths);
        for (place, (start, length)) in writing.places.iter().zip(parts) {
            output[*place..][..*length].copy_from_slice(&bodies[*start..][..*length]);
        }
    }
}
