//! Which cases of containers are stored.

use common::layers;
use oracle::FRAME_TYPES;
use oracle::types::FrameType;

use super::list::random;
use super::{Case, Operation};
use crate::containers::tiled::{AUDIO, FORMS, Form, VIDEO, container, empty_tracks, tracks};
use crate::containers::{Candidate, Containers};
use crate::run::{Comparison, name_of};
use crate::starts::TYPES;

/// Audio: the containers of docs/REQUIREMENTS.md, then others that are easily misjudged.
const AUDIOS: &[&[u8]] = &[
    b"\x95\x01Opus\x07",
    b"\x95\x11Opus\x07\x00\x00\x00",
    b"\x95\x11Opus\x07\x00\x00\x01",
    b"\x85\x01Opus\x07",
    b"\x85\x11Opus\x07\x00\x00\x00",
    // The longest length; form 3; a byte behind the track, and a second head that is cut.
    b"\x95\x11Opus\x07\xFF\xFF\xFF\xAA",
    b"\x95\x31Opus\x07\x00\x00\x00",
    b"\x95\x11Opus\x07\x00\x00\x00\x08",
    b"\x95\x21Opus\x07\x00\x00\x00Opus\x08\x00\x00",
    // The same id twice.
    b"\x95\x11Opus\x07\x00\x00\x01\xAA\x07\x00\x00\x01\xBB",
    // Naming itself, also cut off; naming the container of video.
    b"\x95\x05Opus\x07",
    b"\x95\x05\x00\x00\x00\x00\x00\x00",
    b"\x95\x05",
    b"\x95\x06Opus\x07",
    // Other packet types.
    b"\x94\x01Opus\x07",
    b"\x96\x01Opus\x07",
];

/// Video: a command, and byte 0 of each other frame type; legacy; other packet types; naming
/// itself, also cut off and in a command; naming the container of audio.
const VIDEOS: &[&[u8]] = &[
    b"\xD6\x01avc1\x07",
    b"\xD6\x11avc1\x07\x00\x00\x00",
    b"\x86\x01avc1\x07\xAA",
    b"\x96\x01avc1\x07\xAA",
    b"\xA6\x01avc1\x07\xAA",
    b"\xB6\x01avc1\x07\xAA",
    b"\xC6\x01avc1\x07\xAA",
    b"\xE6\x01avc1\x07\xAA",
    b"\xF6\x01avc1\x07\xAA",
    b"\x16\x01avc1\x07\xAA",
    b"\x56\x01avc1\x07\xAA",
    b"\x95\x01avc1\x07\xAA",
    b"\x86\x06\x00\x00\x00\x00\x00",
    b"\x96\x06avc1\x07",
    b"\x96\x06",
    b"\xD6\x06avc1\x07",
    b"\x86\x05\x00\x00\x00\x00\x00",
];

/// Listed ones; every track of small containers; packet types, those of containers in each form;
/// frame types; containers that are cut off; the most tracks; and two of each class.
pub fn containers() -> Vec<Case> {
    let mut cases: Vec<Case> = AUDIOS
        .iter()
        .map(|payload| case(FrameType::Audio, 0, payload))
        .chain(
            VIDEOS
                .iter()
                .map(|payload| case(FrameType::Video, 0, payload)),
        )
        .collect();
    cases.extend(small());
    cases.extend(packet_types());
    cases.extend(naming());
    cases.extend(frame_types());
    cases.extend(cut_off());
    cases.extend(most_tracks());
    cases.extend(of_each_class());
    cases
}

/// The request for this track.
fn case(frame_type: FrameType, number: u32, payload: &[u8]) -> Case {
    Case {
        frame_type,
        number,
        ..Case::new(Operation::Container, payload.to_vec())
    }
}

/// Every track and one beyond, of each form with 1 to 3 tracks.
fn small() -> Vec<Case> {
    let mut cases = vec![];
    for (frame_type, first) in TYPES.into_iter().zip([AUDIO, VIDEO]) {
        for form in FORMS {
            for count in 1..=3 {
                let payload = container(first, form, 1, &tracks(&[1, 0, 2][..count]));
                let beyond = if form == Form::OneTrack { 1 } else { count };
                let numbers = 0..=beyond as u32;
                cases.extend(numbers.map(|number| case(frame_type, number, &payload)));
            }
        }
    }
    let long = container(AUDIO, Form::ManyTracks, 1, &tracks(&[256, 1]));
    cases.extend([0, 1, 2, 4_096, u32::MAX].map(|number| case(FrameType::Audio, number, &long)));
    cases
}

/// Each packet type, of audio, of video with a keyframe, and of other video.
fn packet_types() -> Vec<Case> {
    let mut cases = vec![];
    for packet_type in 0..16 {
        let payload = |first| {
            container(
                first,
                Form::ManyTracksManyCodecs,
                packet_type,
                &tracks(&[1]),
            )
        };
        cases.push(case(FrameType::Audio, 0, &payload(AUDIO)));
        cases.push(case(FrameType::Video, 0, &payload(VIDEO)));
        cases.push(case(FrameType::Video, 0, &payload(0xA6)));
    }
    cases
}

/// Containers that name themselves, and that name the other kind: a track, and none of theirs.
fn naming() -> Vec<Case> {
    let mut cases = vec![];
    for (frame_type, first) in TYPES.into_iter().zip([AUDIO, VIDEO]) {
        for packet_type in [5, 6] {
            for form in FORMS {
                let payload = container(first, form, packet_type, &tracks(&[1, 0]));
                cases.extend([0, 2].map(|number| case(frame_type, number, &payload)));
            }
        }
    }
    cases
}

/// Containers of audio and of video, taken for every frame type.
fn frame_types() -> Vec<Case> {
    let containers =
        [AUDIO, VIDEO].map(|first| container(first, Form::ManyTracks, 3, &tracks(&[1])));
    let of_types = |payload: Vec<u8>| FRAME_TYPES.map(|frame_type| case(frame_type, 0, &payload));
    containers.into_iter().flat_map(of_types).collect()
}

/// Of each form, cut off at every byte.
fn cut_off() -> impl Iterator<Item = Case> {
    FORMS.into_iter().flat_map(|form| {
        let whole = container(VIDEO, form, 0, &tracks(&[1, 0]));
        layers::truncations(whole).map(|payload| case(FrameType::Video, 0, &payload))
    })
}

/// 4,096 and 4,097 tracks.
fn most_tracks() -> impl Iterator<Item = Case> {
    [4_096, 4_097].into_iter().flat_map(|count| {
        let payload = container(AUDIO, Form::ManyTracks, 1, &empty_tracks(count));
        [4_095, 4_096].map(|number| case(FrameType::Audio, number, &payload))
    })
}

/// Of each class the first two random ones that are short, if any is. Tracks 0 and 1 are asked for.
fn of_each_class() -> Vec<Case> {
    let mut cases = vec![];
    for class in Containers::CLASSES {
        let fits = |candidate: &Candidate| {
            candidate.payload.len() < 40 && name_of(candidate.class()) == *class
        };
        let found = random(Containers::random).take(50_000).filter(fits);
        for (number, candidate) in (0..2).zip(found) {
            if let Some(frame_type) = candidate.known_type() {
                cases.push(case(frame_type, number, &candidate.payload));
            }
        }
    }
    cases
}
