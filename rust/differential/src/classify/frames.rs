//! Frames of every shape that kind or hint tells apart: the inputs of the comparison.

use std::iter;

use common::damage::random_damage;
use common::layers::{self, random_offset, wrap};
use common::rng::Rng;
use common::strings;
use oracle::FRAME_TYPES;
use oracle::media::modex::normalize_modex_payload_with_frame_type;
use oracle::types::{CAPS_EX_MASK_MODEX, FrameType};

use super::Frame;
use crate::aac::Aac;
use crate::containers::Candidate;
use crate::containers::tiled::{self, AUDIO, FORMS, Track, VIDEO, container};
use crate::fourcc::FOURCCS;
use crate::headers;
use crate::modex;
use crate::records::{avc, hevc};
use crate::run::Comparison;
use crate::starts::{Start, Starts, TAG, TYPES, whole_records};

/// The numbers of the frame types, and three that are none.
const NUMBERS: [u32; 7] = [0, 1, 2, 3, 4, 255, u32::MAX];

/// 0, and flags that mean video, also where their low byte is 0.
pub const FLAGS: [u32; 5] = [0, 1, 2, 256, u32::MAX];

/// The flags that most payloads have.
pub const FEW_FLAGS: [u32; 2] = [0, 1];

/// Bytes 0 of containers: of audio, of each frame type of video, and of a command.
const CONTAINERS: [u8; 9] = [AUDIO, VIDEO, 0x86, 0xA6, 0xB6, 0xC6, 0xD6, 0xE6, 0xF6];

/// Which records of a container are valid.
const PATTERNS: [&[bool]; 10] = [
    &[true],
    &[false],
    &[true, true],
    &[true, false],
    &[false, true],
    &[false, false],
    &[true, true, false],
    &[true, false, true],
    &[false, true, true],
    &[false, false, true],
];

/// A FourCC, a valid record and a refused one.
type Codec = ([u8; 4], Vec<u8>, Vec<u8>);

/// Which records of a container are refused for a type, and which are refused anyway or valid.
const MISNAMED: [&[Body]; 7] = [
    &[Body::Misnamed],
    &[Body::Misnamed, Body::Misnamed],
    &[Body::Valid, Body::Misnamed],
    &[Body::Misnamed, Body::Valid],
    &[Body::Misnamed, Body::Refused],
    &[Body::Refused, Body::Misnamed],
    &[Body::Valid, Body::Misnamed, Body::Refused],
];

enum Body {
    Valid,
    Refused,
    Misnamed,
}

/// Payloads of 0 to 2 bytes and some of each shape with every frame type and flag, the others as
/// audio and as video with few flags.
pub fn listed() -> impl Iterator<Item = Frame> {
    let every = strings::up_to_two_bytes()
        .chain(before_records(0x17))
        .chain(before_records(TAG))
        .chain(CONTAINERS.into_iter().flat_map(started))
        .chain(misnamed());
    let every = every.flat_map(|payload| frames(payload, &NUMBERS, &FLAGS));
    let payloads = headers::before_fourccs()
        .chain((0..=u8::MAX).flat_map(before_records))
        .chain(every_byte_1())
        .chain(legacy())
        .chain(tiled::payloads())
        .chain(containers());
    let payloads = payloads.flat_map(audio_and_video);
    let starts = Starts::listed().flat_map(|start| {
        let number = start.frame_type as u32;
        frames(start.frame(TAG), &[number], &FEW_FLAGS)
    });
    every.chain(payloads).chain(starts).chain(wrapped())
}

/// The payload with these frame types and flags.
fn frames(payload: Vec<u8>, numbers: &[u32], flags: &[u32]) -> Vec<Frame> {
    let with = |frame_type, flag| Frame {
        candidate: Candidate {
            frame_type,
            payload: payload.clone(),
        },
        flag,
    };
    numbers
        .iter()
        .flat_map(|&number| flags.iter().map(move |&flag| with(number, flag)))
        .collect()
}

fn audio_and_video(payload: Vec<u8>) -> Vec<Frame> {
    let numbers = TYPES.map(|frame_type| frame_type as u32);
    frames(payload, &numbers, &FEW_FLAGS)
}

/// This byte 0 before each FourCC and record.
fn before_records(first: u8) -> impl Iterator<Item = Vec<u8>> {
    let records = whole_records();
    FOURCCS.into_iter().flat_map(move |fourcc| {
        let whole = |record: &Vec<u8>| [&[first], &fourcc[..], record].concat();
        records.each_ref().map(whole)
    })
}

/// Every byte 0, packet types of AVC and AAC, and records where either has one, cut off.
fn legacy() -> impl Iterator<Item = Vec<u8>> {
    let fronts = [0, 1, 2, 3, 255].into_iter().flat_map(|second| {
        let records = whole_records().into_iter();
        records.flat_map(move |record| {
            let timed = [&[second, 0x00, 0x00, 0x00], &record[..]].concat();
            [timed, [&[second], &record[..]].concat()]
        })
    });
    fronts.flat_map(|rest| {
        (0..=u8::MAX).flat_map(move |first| {
            let whole = [&[first], &rest[..]].concat();
            // Without packet type 0 no record is read.
            let skipped = if rest[0] == 0 { 2 } else { whole.len() };
            layers::truncations(whole).skip(skipped)
        })
    })
}

/// Every byte 1 of legacy AVC and AAC, before valid records.
fn every_byte_1() -> impl Iterator<Item = Vec<u8>> {
    let [aac, ..] = whole_records();
    let avc = avc::small().next().expect("there are such records");
    let avc = [&[0x00; 3], &avc[..]].concat();
    let fronts = (0..8).map(move |frame_type| (frame_type << 4 | 0x07, avc.clone()));
    let fronts = fronts.chain((0..16).map(move |sound| (0xA0 | sound, aac.clone())));
    fronts.flat_map(|(first, rest)| {
        (0..=u8::MAX).map(move |second| [&[first, second], &rest[..]].concat())
    })
}

/// Containers of valid and refused records, of every packet type; those of packet type 0 cut off.
pub fn containers() -> impl Iterator<Item = Vec<u8>> {
    let whole = (0..16).flat_map(|packet_type| {
        let firsts = CONTAINERS.into_iter();
        firsts.flat_map(move |first| recorded(first, packet_type))
    });
    let cut = [AUDIO, VIDEO]
        .into_iter()
        .flat_map(|first| recorded(first, 0))
        .flat_map(layers::truncations);
    whole.chain(cut)
}

/// Of each form, with rows of valid and refused records of one codec, and of two that alternate.
fn recorded(first: u8, packet_type: u8) -> impl Iterator<Item = Vec<u8>> {
    rows()
        .into_iter()
        .flat_map(move |tracks| FORMS.map(|form| container(first, form, packet_type, &tracks)))
}

/// The containers of packet type 0 that have the first codec alone.
fn started(first: u8) -> impl Iterator<Item = Vec<u8>> {
    recorded(first, 0).take(FORMS.len() * PATTERNS.len())
}

/// Starts with records that are refused for a type: legacy, of every frame type; enhanced; and in
/// containers of each form, beside others.
fn misnamed() -> impl Iterator<Item = Vec<u8>> {
    let legacy = avc::misnamed().flat_map(|record| {
        let fronts = (0..8).map(|frame_type| [frame_type << 4 | 0x07, 0x00, 0x00, 0x00, 0x00]);
        fronts.map(move |front| [&front[..], &record].concat())
    });
    let avc = avc::misnamed().map(|record| (*b"avc1", record));
    let hevc = hevc::misnamed().map(|record| (*b"hvc1", record));
    let enhanced = avc.chain(hevc).map(|(fourcc, record)| {
        let start = [&[TAG], &fourcc[..], &record];
        start.concat()
    });
    let containers = CONTAINERS.into_iter().flat_map(misnamed_containers);
    legacy.chain(enhanced).chain(containers)
}

fn misnamed_containers(first: u8) -> impl Iterator<Item = Vec<u8>> {
    let [.., avc, hevc] = codecs();
    let codecs = [
        (avc, avc::misnamed().next()),
        (hevc, hevc::misnamed().next()),
    ];
    let rows = codecs.into_iter().flat_map(|(codec, misnamed)| {
        let (fourcc, valid, refused) = codec;
        let misnamed = misnamed.expect("there are such records");
        MISNAMED.map(|bodies| {
            let track = |(id, body): (usize, &Body)| Track {
                id: id as u8,
                fourcc,
                body: match body {
                    Body::Valid => valid.clone(),
                    Body::Refused => refused.clone(),
                    Body::Misnamed => misnamed.clone(),
                },
            };
            bodies.iter().enumerate().map(track).collect::<Vec<_>>()
        })
    });
    rows.flat_map(move |tracks| FORMS.map(|form| container(first, form, 0, &tracks)))
}

fn rows() -> Vec<Vec<Track>> {
    let codecs = codecs();
    let mut rows = vec![];
    for pair in (0..codecs.len()).flat_map(|at| [[at, at], [at, (at + 1) % codecs.len()]]) {
        for pattern in PATTERNS {
            let track = |(at, valid): (usize, &bool)| {
                let (fourcc, record, refused) = &codecs[pair[at % 2]];
                Track {
                    id: at as u8,
                    fourcc: *fourcc,
                    body: if *valid { record } else { refused }.clone(),
                }
            };
            rows.push(pattern.iter().enumerate().map(track).collect());
        }
    }
    rows
}

/// In audio the empty record of `Opus` is valid too.
fn codecs() -> [Codec; 6] {
    let [aac, _, avc, refused_hevc, hevc] = whole_records();
    let cut_avc = avc[..7].to_vec();
    [
        ([0x00; 4], vec![0x00], vec![]),
        (*b"Opus", vec![0xAA], vec![]),
        (*b"fLaC", vec![0xAA], vec![]),
        (*b"mp4a", aac.clone(), aac[..1].to_vec()),
        (*b"avc1", avc, cut_avc),
        (*b"hvc1", hevc, refused_hevc),
    ]
}

/// Chains of layers alone and around frames, with every enhanced byte 0, unpeeled and peeled.
fn wrapped() -> impl Iterator<Item = Frame> {
    let inner = (0x80..=u8::MAX).flat_map(|first| {
        let short = [vec![first], vec![first, 0x00]];
        short.into_iter().chain(before_records(first))
    });
    let inner = inner
        .chain(CONTAINERS.into_iter().flat_map(started))
        .chain(tiled::naming())
        .chain(misnamed());
    let around = inner.flat_map(|inner| {
        [(1, None), (2, None), (2, Some(1))].map(|(count, offset)| wrap(&inner, count, offset))
    });
    let unpeeled = modex::layered().chain(around);
    unpeeled.flat_map(|payload| {
        let peeled = TYPES.into_iter().flat_map({
            let payload = payload.clone();
            move |known| frames(peel(&payload, known), &[known as u32], &FEW_FLAGS)
        });
        audio_and_video(payload).into_iter().chain(peeled)
    })
}

fn peel(payload: &[u8], known: FrameType) -> Vec<u8> {
    normalize_modex_payload_with_frame_type(payload, CAPS_EX_MASK_MODEX, known).into_owned()
}

/// Mostly audio and video. One in sixteen is wrapped; every other one is peeled, if it can be.
pub fn random(rng: &mut Rng) -> Frame {
    let mut payload = match rng.below(8) {
        0 => headers::random(rng),
        1 => layers::random_payload(rng),
        2 => random_legacy(rng),
        3 => {
            let first = rng.byte() | 0x80;
            random_start(rng).frame(first)
        }
        4 => random_start(rng).frame(TAG),
        5 | 6 => random_container(rng),
        _ => tiled::random(rng).payload,
    };
    let frame_type = match rng.below(32) {
        0 => rng.number() as u32,
        1 => *rng.pick(&NUMBERS),
        number => number as u32 % 2,
    };
    if rng.one_in(16) {
        let count = 1 + rng.below(3) as u8;
        let offset = random_offset(rng);
        payload = wrap(&payload, count, offset);
    }
    if let Some(known) = FRAME_TYPES.get(frame_type as usize)
        && rng.one_in(2)
    {
        payload = peel(&payload, *known);
    }
    let flag = match rng.below(4) {
        0 => rng.number() as u32,
        1 => *rng.pick(&FLAGS),
        _ => 0,
    };
    Frame {
        candidate: Candidate {
            frame_type,
            payload,
        },
        flag,
    }
}

/// Every other record is one of its own codec, often damaged.
fn random_start(rng: &mut Rng) -> Start {
    let mut start = Starts::random(rng);
    if rng.one_in(2) {
        start.record = match &start.fourcc {
            b"avc1" => avc::random(rng),
            b"hvc1" => hevc::random(rng),
            b"mp4a" => Aac::random(rng),
            _ => start.record,
        };
    }
    start
}

/// Mostly AVC or AAC, with a packet type that means something and a record where it may be.
fn random_legacy(rng: &mut Rng) -> Vec<u8> {
    let first = match rng.below(4) {
        0 => rng.byte(),
        1 => 0xA0 | rng.byte() & 0x0F,
        2 => 0x17,
        _ => rng.byte() & 0x70 | 0x07,
    };
    let mut payload = vec![first, *rng.pick(&[0, 0, 0, 1, 2, 3, 255])];
    if rng.one_in(2) {
        payload.extend(Aac::random(rng));
    } else {
        payload.extend(rng.bytes(3));
        payload.extend(avc::random(rng));
    }
    random_damage(rng, &mut payload);
    payload
}

/// One to four records of any codec, mostly with packet type 0.
pub fn random_container(rng: &mut Rng) -> Vec<u8> {
    let first = match rng.below(4) {
        0 => *rng.pick(&CONTAINERS),
        1 => VIDEO,
        _ => AUDIO,
    };
    let packet_type = if rng.one_in(2) { 0 } else { rng.byte() & 0x0F };
    let count = 1 + rng.below(4);
    let track = || {
        let start = random_start(rng);
        Track {
            id: rng.byte(),
            fourcc: start.fourcc,
            body: start.record,
        }
    };
    let tracks: Vec<Track> = iter::repeat_with(track).take(count).collect();
    let mut payload = container(first, *rng.pick(&FORMS), packet_type, &tracks);
    random_damage(rng, &mut payload);
    payload
}
