//! `hozgrim_write_container` beside what is asked of it. The Rust reads back what it writes.

use common::calls::{container, container_changes, random_container};
use common::containers::Track;
use common::rng::Rng;
use common::writing::{
    AUDIO, ContainerArguments, LONGEST_BODY, MANY_TRACKS, MANY_TRACKS_MANY_CODECS, MOST_TRACKS,
    ONE_TRACK, Parts, VIDEO,
};
use hozgrim_sys::ContainerCall;
use oracle::FRAME_TYPES;
use oracle::ertmp::multitrack_media::foreach_track;

use crate::containers::{tiled, tracks_of_rust};
use crate::input::Input;
use crate::run::{Comparison, Difference, same};
use crate::writing::{
    Lent, Writer, changed, fewer, lower_column, lower_number, smaller_bytes, take_out,
};

pub struct WriteContainer;

impl Comparison for WriteContainer {
    const NAME: &'static str = "write_container";

    const CLASSES: &'static [&'static str] = &[
        "OneTrack, audio",
        "OneTrack, video",
        "OneTrack, a body over 16,777,215 bytes",
        "ManyTracks, audio, one track",
        "ManyTracks, video, one track",
        "ManyTracks, audio",
        "ManyTracks, video",
        "ManyTracksManyCodecs, audio, one FourCC",
        "ManyTracksManyCodecs, video, one FourCC",
        "ManyTracksManyCodecs, audio",
        "ManyTracksManyCodecs, video",
        "4,096 tracks",
        "a body of 16,777,215 bytes with a length",
        "an empty part at the end",
        "columns that are longer",
        "audio with a video frame type of 5 or above 7",
        "a container that was read, written again",
        "a frame type above 3",
        "a form above 2",
        "no track",
        "two tracks in OneTrack",
        "over 4,096 tracks",
        "too few ids",
        "too few FourCCs",
        "too few starts",
        "too few lengths",
        "a part that leaves what was lent",
        "an empty part past the end",
        "a part that ends at 2^64 or past it",
        "a body over 16,777,215 bytes",
        "a container of script data",
        "a container of metadata",
        "unequal FourCCs in ManyTracks",
        "a video frame type of 5 or above 7",
        "a packet type above 15",
        "an audio container that names itself",
        "a video container that names itself",
        "too short an output",
        "several reasons of -26",
        "several reasons of -28",
        "-21 before -26",
        "-21 before -27",
        "-21 before -28",
        "-21 before -22",
        "-26 before -27",
        "-26 before -28",
        "-26 before -22",
        "-27 before -28",
        "-27 before -22",
        "-28 before -22",
    ];

    const SIDES: [&'static str; 2] = ["requirement", "port"];

    type Input = Lent<ContainerArguments>;

    fn listed() -> impl Iterator<Item = Self::Input> {
        heads().chain(rows()).chain(again()).chain(large())
    }

    fn random(rng: &mut Rng) -> Self::Input {
        let arguments = random_container(rng);
        Lent::random(rng, arguments)
    }

    fn compare(lent: &Self::Input) -> Result<&'static str, Difference> {
        let arguments = &lent.arguments;
        let call = ContainerCall {
            frame_type: arguments.frame_type,
            video_frame_type: arguments.video_frame_type,
            form: arguments.form,
            packet_type: arguments.packet_type,
            count: arguments.count,
            ids: &arguments.ids,
            fourccs: &arguments.fourccs,
            starts: &arguments.bodies.starts,
            lengths: &arguments.bodies.lengths,
            bodies: &arguments.bodies.lent,
        };
        let written = lent.same_as_asked(|output| hozgrim_sys::write_container(&call, output))?;
        if let Some(written) = written {
            same(given(arguments), found(arguments.frame_type, &written))?;
            if was_read(arguments) {
                same(&arguments.bodies.lent, &written)?;
            }
        }
        Ok(lent.class())
    }
}

/// A track, and what it has of the head.
#[derive(Debug, PartialEq)]
struct Found {
    id: u8,
    fourcc: [u8; 4],
    packet_type: u8,
    video_frame_type: u8,
    body: Vec<u8>,
}

/// What a call that is not refused gives.
fn given(arguments: &ContainerArguments) -> Option<Vec<Found>> {
    let video_frame_type = match arguments.frame_type {
        VIDEO => arguments.video_frame_type as u8,
        _ => 0,
    };
    let found = |track: Track| Found {
        id: track.id,
        fourcc: track.fourcc,
        packet_type: arguments.packet_type as u8,
        video_frame_type,
        body: track.body,
    };
    Some(arguments.tracks().into_iter().map(found).collect())
}

/// What the Rust finds, if it accepts the payload.
fn found(frame_type: u32, payload: &[u8]) -> Option<Vec<Found>> {
    let mut found = vec![];
    let accepted = foreach_track(FRAME_TYPES[frame_type as usize], payload, |track| {
        found.push(Found {
            id: track.track_id,
            fourcc: track.fourcc,
            packet_type: track.packet_type,
            video_frame_type: track.video_frame_type,
            body: track.payload.to_vec(),
        });
    });
    accepted.then_some(found)
}

/// The call with head, tracks and places of a container that the Rust accepts.
fn call_of(frame_type: u32, payload: &[u8]) -> Option<ContainerArguments> {
    let known = FRAME_TYPES.get(frame_type as usize)?;
    let tracks = tracks_of_rust(*known, payload).ok()?;
    let first = tracks.first()?;
    Some(ContainerArguments {
        frame_type,
        video_frame_type: first.video_frame_type.into(),
        form: u32::from(payload[1]) >> 4,
        packet_type: first.packet_type.into(),
        count: tracks.len(),
        ids: tracks.iter().map(|track| track.track_id).collect(),
        fourccs: tracks
            .iter()
            .map(|track| u32::from_be_bytes(track.fourcc))
            .collect(),
        bodies: Parts {
            starts: tracks.iter().map(|track| track.start).collect(),
            lengths: tracks.iter().map(|track| track.length).collect(),
            lent: payload.to_vec(),
        },
    })
}

/// Whether the lent bytes are a container that these arguments were read from.
fn was_read(arguments: &ContainerArguments) -> bool {
    let read = call_of(arguments.frame_type, &arguments.bodies.lent);
    read.as_ref() == Some(arguments)
}

/// Every packet type and video frame type, in each form.
fn heads() -> impl Iterator<Item = Lent<ContainerArguments>> {
    bases().flat_map(|base| {
        let numbers = (0..16).flat_map(|packet_type| (0..8).map(move |frame| (packet_type, frame)));
        numbers.map(move |(packet_type, video_frame_type)| {
            Lent::exact(ContainerArguments {
                packet_type,
                video_frame_type,
                ..base.clone()
            })
        })
    })
}

/// In each form, in audio and in video; of three tracks the second is empty.
fn bases() -> impl Iterator<Item = ContainerArguments> {
    let lengths = [
        (ONE_TRACK, &[3][..]),
        (MANY_TRACKS, &[2]),
        (MANY_TRACKS, &[2, 0, 3]),
        (MANY_TRACKS_MANY_CODECS, &[2, 0, 3]),
    ];
    let of = move |frame_type| lengths.map(|(form, lengths)| container(frame_type, form, lengths));
    [AUDIO, VIDEO].into_iter().flat_map(of)
}

/// With every change, and every two of them, and outputs of several lengths.
fn rows() -> impl Iterator<Item = Lent<ContainerArguments>> {
    let changed = changed(bases().collect(), container_changes);
    bases().chain(changed).flat_map(Lent::around)
}

/// Containers that the Rust accepts; those that name themselves are not written again.
fn again() -> impl Iterator<Item = Lent<ContainerArguments>> {
    let payloads = tiled::payloads();
    let calls = payloads.flat_map(|payload| [AUDIO, VIDEO].map(|number| call_of(number, &payload)));
    calls.flatten().map(Lent::exact)
}

/// Bodies around the limits of one, two and three bytes of length.
fn large() -> impl Iterator<Item = Lent<ContainerArguments>> {
    let few = [255, 256, 257, 65_535, 65_536, 65_537];
    let few = few.into_iter().flat_map(|length| {
        [ONE_TRACK, MANY_TRACKS, MANY_TRACKS_MANY_CODECS].map(|form| (form, length))
    });
    let longest = [
        (ONE_TRACK, LONGEST_BODY + 1),
        (MANY_TRACKS, LONGEST_BODY),
        (MANY_TRACKS_MANY_CODECS, LONGEST_BODY),
        (MANY_TRACKS, LONGEST_BODY + 1),
        (MANY_TRACKS_MANY_CODECS, LONGEST_BODY + 1),
    ];
    let alone = few.chain(longest);
    let alone = alone.map(|(form, length)| Lent::exact(container(AUDIO, form, &[length])));
    alone.chain(too_long())
}

/// A body that is too long, beside one more reason; one of them stands in a track behind it.
fn too_long() -> impl Iterator<Item = Lent<ContainerArguments>> {
    let call = || container(VIDEO, MANY_TRACKS, &[LONGEST_BODY + 1, 1]);
    let mut unknown = Lent::exact(call());
    unknown.arguments.frame_type = 4;
    let mut leaving = Lent::exact(call());
    leaving.arguments.bodies.starts[1] += 1;
    let mut value = Lent::exact(call());
    value.arguments.packet_type = 16;
    let mut itself = Lent::exact(call());
    itself.arguments.packet_type = 6;
    let mut short = Lent::exact(call());
    short.room = 0;
    [unknown, leaving, value, itself, short].into_iter()
}

impl Writer for ContainerArguments {
    fn written_class(&self) -> &'static str {
        let longest = self.bodies.lengths[..self.count].iter().max();
        let end = self.bodies.lent.len();
        let audio = self.frame_type == AUDIO;
        if longest > Some(&LONGEST_BODY) {
            "OneTrack, a body over 16,777,215 bytes"
        } else if longest == Some(&LONGEST_BODY) {
            "a body of 16,777,215 bytes with a length"
        } else if self.count == MOST_TRACKS {
            "4,096 tracks"
        } else if was_read(self) {
            "a container that was read, written again"
        } else if self.ids.len() > self.count {
            "columns that are longer"
        } else if audio && (self.video_frame_type == 5 || self.video_frame_type > 7) {
            "audio with a video frame type of 5 or above 7"
        } else if self.bodies.starts.contains(&end) {
            "an empty part at the end"
        } else {
            class_of_form(self, audio)
        }
    }
}

fn class_of_form(arguments: &ContainerArguments, audio: bool) -> &'static str {
    let equal = !arguments.unequal_fourccs();
    match (arguments.form, audio) {
        (ONE_TRACK, true) => "OneTrack, audio",
        (ONE_TRACK, false) => "OneTrack, video",
        (MANY_TRACKS, true) if arguments.count == 1 => "ManyTracks, audio, one track",
        (MANY_TRACKS, false) if arguments.count == 1 => "ManyTracks, video, one track",
        (MANY_TRACKS, true) => "ManyTracks, audio",
        (MANY_TRACKS, false) => "ManyTracks, video",
        (_, true) if equal => "ManyTracksManyCodecs, audio, one FourCC",
        (_, false) if equal => "ManyTracksManyCodecs, video, one FourCC",
        (_, true) => "ManyTracksManyCodecs, audio",
        (_, false) => "ManyTracksManyCodecs, video",
    }
}

impl Input for ContainerArguments {
    fn smaller(&self) -> impl Iterator<Item = Self> {
        let numbers = lower_number(self, |call| &mut call.count)
            .chain(lower_number(self, |call| &mut call.frame_type))
            .chain(lower_number(self, |call| &mut call.video_frame_type))
            .chain(lower_number(self, |call| &mut call.form))
            .chain(lower_number(self, |call| &mut call.packet_type));
        let columns = lower_column(self, |call| &mut call.ids)
            .chain(lower_column(self, |call| &mut call.fourccs))
            .chain(lower_column(self, |call| &mut call.bodies.starts))
            .chain(lower_column(self, |call| &mut call.bodies.lengths));
        fewer(self, self.ids.len(), |call, part| {
            call.count = call.count.saturating_sub(part.len());
            take_out(&mut call.ids, &part);
            take_out(&mut call.fourccs, &part);
            take_out(&mut call.bodies.starts, &part);
            take_out(&mut call.bodies.lengths, &part);
        })
        .chain(numbers)
        .chain(columns)
        .chain(smaller_bytes(self, &self.bodies.lent, |call| {
            &mut call.bodies.lent
        }))
    }

    fn show(&self) -> String {
        format!(
            "frame type {}, video frame type {}, form {}, packet type {}, count {}, ids {:?}, \
             FourCCs {:X?}, starts {:?}, lengths {:?}, bodies of {}",
            self.frame_type,
            self.video_frame_type,
            self.form,
            self.packet_type,
            self.count,
            self.ids,
            self.fourccs,
            self.bodies.starts,
            self.bodies.lengths,
            self.bodies.lent.show()
        )
    }
}
