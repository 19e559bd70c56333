//! Payloads that tracks fill, and what is close to them: the inputs of the comparison.

use std::iter;

pub use common::containers::{AUDIO, FORMS, Form, Track, VIDEO, container};
use common::damage::random_damage;
use common::layers;
use common::rng::Rng;
use common::strings;

use super::Candidate;
use crate::fourcc::FOURCCS;
use crate::records::{around, damaged};

/// The numbers of the frame types, and two that are none.
const TYPES: [u32; 6] = [0, 1, 2, 3, 4, 5];

/// Numbers that are no frame type, also where their low byte or their low half is one.
pub const UNKNOWN: [u32; 7] = [4, 255, 256, 257, 65_536, 65_537, u32::MAX];

/// Tracks with bodies of these lengths, numbered from 7 on.
pub fn tracks(lengths: &[usize]) -> Vec<Track> {
    let track = |(at, &length): (usize, &usize)| Track {
        id: (7 + at) as u8,
        fourcc: FOURCCS[at % FOURCCS.len()],
        body: (at..at + length).map(|byte| byte as u8 | 0xA0).collect(),
    };
    lengths.iter().enumerate().map(track).collect()
}

/// As many tracks with empty bodies.
pub fn empty_tracks(count: usize) -> Vec<Track> {
    tracks(&vec![0; count])
}

/// The listed payloads with the frame types.
pub fn listed() -> impl Iterator<Item = Candidate> {
    let payloads = strings::up_to_two_bytes().chain(payloads());
    let known = payloads.flat_map(|payload| candidates(payload, &TYPES));
    let unknown = small().flat_map(|payload| candidates(payload, &UNKNOWN));
    known.chain(unknown).chain(large())
}

/// Every front; tracks by their number, the lengths of their bodies and their ids; containers that
/// name one; damaged ones.
pub fn payloads() -> impl Iterator<Item = Vec<u8>> {
    every_front()
        .chain(rows())
        .chain(naming().flat_map(cut_and_longer))
        .chain(small().flat_map(damaged))
        .chain(every_id())
        .chain(many())
}

fn candidates(payload: Vec<u8>, types: &[u32]) -> impl Iterator<Item = Candidate> {
    types.iter().map(move |&frame_type| Candidate {
        frame_type,
        payload: payload.clone(),
    })
}

/// Every byte 0 and byte 1, before tracks that fit the form; above form 2, those of form 1.
fn every_front() -> impl Iterator<Item = Vec<u8>> {
    (0..=u16::MAX).flat_map(|front| {
        let [first, second] = front.to_be_bytes();
        let form = match second >> 4 {
            0 => Form::OneTrack,
            2 => Form::ManyTracksManyCodecs,
            _ => Form::ManyTracks,
        };
        [&[1][..], &[2, 0]].map(|lengths| {
            let mut payload = container(first, form, 0, &tracks(lengths));
            payload[1] = second;
            payload
        })
    })
}

/// 1 to 5 tracks with bodies of several lengths, cut off at every byte, and with one byte more.
fn rows() -> impl Iterator<Item = Vec<u8>> {
    let lengths = [
        &[0, 0, 0, 0, 0][..],
        &[1, 1, 1, 1, 1],
        &[0, 1, 2, 3, 4],
        &[4, 0, 3, 0, 9],
        &[255, 0, 256, 0, 257],
    ];
    let counted = lengths
        .into_iter()
        .flat_map(|lengths| (1..=5).map(|count| &lengths[..count]));
    let of_forms = counted.flat_map(|lengths| FORMS.map(|form| (form, lengths)));
    of_forms.flat_map(|(form, lengths)| {
        [AUDIO, VIDEO].into_iter().flat_map(move |first| {
            let payload = container(first, form, 1, &tracks(lengths));
            cut_and_longer(payload)
        })
    })
}

/// Cut off at every byte, whole, and with one byte more.
fn cut_and_longer(mut payload: Vec<u8>) -> impl Iterator<Item = Vec<u8>> {
    payload.push(0x00);
    layers::truncations(payload)
}

/// Of each form, with the packet types of audio and of video containers: those that name
/// themselves, and those that name the other kind.
pub fn naming() -> impl Iterator<Item = Vec<u8>> {
    let heads = [AUDIO, VIDEO, 0x86]
        .into_iter()
        .flat_map(|first| [5, 6].map(|packet_type| (first, packet_type)));
    heads.flat_map(|(first, packet_type)| {
        FORMS.into_iter().flat_map(move |form| {
            [&[0][..], &[2], &[1, 0, 2]]
                .map(|lengths| container(first, form, packet_type, &tracks(lengths)))
        })
    })
}

/// Of each form, in audio and in video, with one and with two tracks.
fn small() -> impl Iterator<Item = Vec<u8>> {
    [AUDIO, VIDEO].into_iter().flat_map(|first| {
        FORMS.into_iter().flat_map(move |form| {
            [&[2][..], &[1, 2], &[0, 1, 0]]
                .map(|lengths| container(first, form, 0, &tracks(lengths)))
        })
    })
}

/// Two tracks of the same id, of every one.
fn every_id() -> impl Iterator<Item = Vec<u8>> {
    (0..=u8::MAX).flat_map(|id| {
        let mut tracks = tracks(&[1, 2]);
        tracks.iter_mut().for_each(|track| track.id = id);
        FORMS.map(|form| container(VIDEO, form, 3, &tracks))
    })
}

/// As many tracks as there may be, one less and more, around the end of the payload.
fn many() -> impl Iterator<Item = Vec<u8>> {
    let counts = [4_094, 4_095, 4_096, 4_097, 4_098, 5_000];
    counts.into_iter().flat_map(|count| {
        let mut uneven = empty_tracks(count);
        uneven[count - 1].body = vec![0xAA; 3];
        let rows = [empty_tracks(count), uneven];
        rows.into_iter().flat_map(|tracks| {
            FORMS.into_iter().flat_map(move |form| {
                let whole = [AUDIO, VIDEO].map(|first| container(first, form, 0, &tracks));
                whole.into_iter().flat_map(around)
            })
        })
    })
}

/// Bodies whose lengths have two and three bytes, up to the most of them; OneTrack has longer ones.
pub fn large() -> impl Iterator<Item = Candidate> {
    let rows = [&[65_535][..], &[65_536], &[65_535, 65_536, 0]];
    let rows = rows
        .into_iter()
        .flat_map(|lengths| FORMS.map(|form| (form, tracks(lengths))));
    let longest = (1 << 24) - 1;
    let longest = [
        (Form::OneTrack, longest),
        (Form::OneTrack, longest + 1),
        (Form::OneTrack, longest + 2),
        (Form::ManyTracks, longest),
        (Form::ManyTracksManyCodecs, longest),
    ];
    let longest = longest
        .into_iter()
        .map(|(form, length)| (form, tracks(&[length])));
    rows.chain(longest).flat_map(|(form, tracks)| {
        [AUDIO, VIDEO].into_iter().zip([0, 1]).flat_map({
            move |(first, frame_type)| {
                let payloads = around(container(first, form, 1, &tracks));
                payloads.map(|payload| Candidate {
                    frame_type,
                    payload,
                })
            }
        })
    })
}

/// Mostly containers of the type that byte 0 has, half of them damaged; one in sixteen is made of
/// bytes behind the byte 0 of a container.
pub fn random(rng: &mut Rng) -> Candidate {
    let first = match rng.below(16) {
        0 => rng.byte(),
        1 => 0x85,
        2 => 0xD6,
        3..8 => AUDIO,
        _ => 0x86 | (rng.byte() & 0x70),
    };
    let frame_type = match rng.below(32) {
        0 => rng.number() as u32,
        1 => rng.below(8) as u32,
        _ => u32::from(first & 0x0F == 6),
    };
    let mut payload = if rng.one_in(16) {
        let length = rng.below(40);
        iter::once(first).chain(rng.bytes(length)).collect()
    } else {
        random_container(rng, first)
    };
    random_damage(rng, &mut payload);
    Candidate {
        frame_type,
        payload,
    }
}

/// Mostly of a few tracks with short bodies.
fn random_container(rng: &mut Rng, first: u8) -> Vec<u8> {
    let form = *rng.pick(&FORMS);
    let packet_type = if rng.one_in(2) {
        *rng.pick(&[0, 1, 3, 4])
    } else {
        rng.byte() & 0x0F
    };
    let count = match rng.below(2_000) {
        0 => 4_094 + rng.below(5),
        1..20 => 1 + rng.below(300),
        20..600 => 1,
        _ => 1 + rng.below(6),
    };
    let fourcc = *rng.pick(&FOURCCS);
    let tracks: Vec<Track> = iter::repeat_with(|| random_track(rng, fourcc, count))
        .take(count)
        .collect();
    let mut payload = container(first, form, packet_type, &tracks);
    if rng.one_in(32) {
        payload[1] = rng.byte();
    }
    payload
}

/// One of `count` tracks; half of the ids are small.
fn random_track(rng: &mut Rng, fourcc: [u8; 4], count: usize) -> Track {
    let length = match rng.below(4_000) {
        _ if count > 300 => rng.below(2),
        0 => 65_534 + rng.below(4),
        1..40 => 250 + rng.below(12),
        40..800 => 0,
        _ => rng.below(6),
    };
    Track {
        id: if rng.one_in(2) {
            rng.byte()
        } else {
            rng.byte() & 3
        },
        fourcc: if rng.one_in(4) {
            rng.number().to_be_bytes()[..4]
                .try_into()
                .expect("four bytes")
        } else {
            fourcc
        },
        body: rng.bytes(length),
    }
}
