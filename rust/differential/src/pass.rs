//! The product's entries: the whole pass, and the class and the tracks of a payload as it is.

pub mod class;
pub mod frames;

use std::borrow::Cow;

use common::nanoseconds::{offset_of_chain, time};
use common::requirement::UNKNOWN_FRAME_TYPE;
use common::rng::Rng;
use hozgrim_sys::{HozgrimClass, HozgrimReport, HozgrimTrack};
use oracle::media::codec_config::validate_aac_config;
use oracle::types::{AudioCodec, FrameType};
use oracle::{FRAME_TYPES, offsets_of_layers};
use sheet_check::starts::kind_and_hint;

use crate::containers::{Tracks, asked, by_number, request, tracks};
use crate::input::{Input, lower};
use crate::leaf::LeafTrack;
use crate::modex::{self, Peeled};
use crate::records::avc_valid;
use crate::run::{Comparison, Difference, same};
use crate::starts::Start;
use crate::{exaudio, exvideo};

const AAC: u8 = AudioCodec::Aac as u8;

/// The codec of legacy video that has records.
const AVC: u8 = 7;

/// The frame type of a command.
const COMMAND: u8 = 5;

pub struct Pass;

impl Comparison for Pass {
    const NAME: &'static str = "pass";

    const CLASSES: &'static [&'static str] = class::CLASSES;

    type Input = Frame;

    fn listed() -> impl Iterator<Item = Frame> {
        frames::listed()
    }

    fn random(rng: &mut Rng) -> Frame {
        frames::random(rng)
    }

    fn compare(frame: &Frame) -> Result<&'static str, Difference> {
        let lent = &frame.lent;
        let result = lent.result();
        let (passed, class) = frame.expected(result.as_ref());
        same(passed, Passed::of_port(frame))?;
        same_as_it_is(frame, &lent.payload)?;
        if let Some(Cow::Owned(peeled)) = &result {
            same_as_it_is(frame, peeled)?;
        }
        Ok(class)
    }
}

/// A frame with its mask and the output that is lent, and the number of its route flag.
#[derive(Clone, PartialEq)]
pub struct Frame {
    pub lent: modex::Frame,
    pub flag: u32,
}

impl Frame {
    /// What the whole pass must give for this result of the Rust, and the frame's class.
    pub fn expected(&self, result: Option<&Cow<'_, [u8]>>) -> (Passed, &'static str) {
        let passed = Passed::of_rust(self, result);
        let class = class::class(&self.lent, result, &passed.report);
        (passed, class)
    }
}

impl Input for Frame {
    fn smaller(&self) -> impl Iterator<Item = Self> {
        let lent = self.lent.smaller();
        let lent = lent.map(|lent| Self { lent, ..*self });
        let flags = lower(self.flag.into()).map(|flag| Self {
            flag: flag as u32,
            ..self.clone()
        });
        lent.chain(flags)
    }

    fn show(&self) -> String {
        format!("route flag {}, {}", self.flag, self.lent.show())
    }
}

/// What the whole pass reports, and the output afterwards, between two bytes that were not lent.
#[derive(Debug, PartialEq)]
pub struct Passed {
    pub report: HozgrimReport,
    pub memory: Vec<u8>,
}

impl Passed {
    /// The refusals of peeling come first; then that of an offset, which the Rust does not have.
    pub fn of_rust(frame: &Frame, result: Option<&Cow<'_, [u8]>>) -> Self {
        let bytes = result.map(|result| &result[..]);
        let Peeled { error, memory, .. } = Peeled::of_result(&frame.lent, bytes);
        let (Some(known), Some(result), 0) = (frame.lent.known_type(), result, error) else {
            return Self {
                report: refusal(error),
                memory,
            };
        };
        let peeled = matches!(result, Cow::Owned(_));
        match offset(&frame.lent.payload, peeled) {
            Ok(offset) => Self {
                report: report(known, result, offset, frame.flag),
                memory,
            },
            Err(error) => Self {
                report: refusal(error),
                memory: frame.lent.memory(),
            },
        }
    }

    pub fn of_port(frame: &Frame) -> Self {
        let Frame { lent, flag } = frame;
        let mut memory = lent.memory();
        let report = hozgrim_sys::pass(
            lent.frame_type,
            &lent.payload,
            lent.mask,
            *flag,
            &mut memory[1..=lent.room],
        );
        Self { report, memory }
    }

    /// What the output holds of the result. Of a refused frame there is none.
    pub fn result(&self) -> &[u8] {
        &self.memory[1..][..self.report.result_length]
    }
}

/// Every other field is 0.
fn refusal(error: i32) -> HozgrimReport {
    HozgrimReport {
        error,
        ..HozgrimReport::default()
    }
}

/// The offset of the layers, if the Rust peels them off, or the refusal for it (request N6).
fn offset(payload: &[u8], peeled: bool) -> Result<i64, i32> {
    if !peeled {
        return Ok(0);
    }
    offset_of_chain(offsets_of_layers(payload))
}

/// What the Rust's functions say about a result, but that a container that names itself has no
/// tracks, and that a record with a set of another type than its list is refused. The time is that
/// of the header and of the offset.
fn report(known: FrameType, result: &[u8], offset: i64, flag: u32) -> HozgrimReport {
    let tracks = tracks(known, result);
    let verdicts = verdicts(known, result, &tracks);
    let HozgrimClass { kind, hint, .. } = class_of(known, result, flag);
    let valid_records = verdicts.iter().filter(|valid| **valid).count();
    let cached = !verdicts.is_empty() && valid_records == verdicts.len();
    assert_eq!(kind == 1 || kind == 2, cached, "{result:02X?}");
    HozgrimReport {
        kind,
        hint,
        result_length: result.len(),
        tracks: tracks.map_or(0, |tracks| tracks.len()),
        records: verdicts.len(),
        valid_records,
        composition_time_ns: time(milliseconds(known, result), offset),
        ..header(known, result)
    }
}

/// Those of a readable video header, signed.
fn milliseconds(known: FrameType, result: &[u8]) -> i32 {
    match (known, exvideo::of_rust(result).0) {
        (FrameType::Video, header) if header.error == 0 => header.composition_time.cast_signed(),
        _ => 0,
    }
}

fn class_of(known: FrameType, payload: &[u8], flag: u32) -> HozgrimClass {
    let (kind, hint) = kind_and_hint(known, payload, flag != 0);
    HozgrimClass {
        error: 0,
        kind: kind.into(),
        hint: hint.into(),
    }
}

/// The header's part of a report, but for the time.
fn header(known: FrameType, result: &[u8]) -> HozgrimReport {
    match known {
        FrameType::Audio => {
            let (header, _) = exaudio::of_rust(result);
            HozgrimReport {
                header_error: header.error,
                header_size: header.header_size,
                is_ex_header: header.is_ex_header,
                packet_type: header.packet_type,
                audio_codec: header.audio_codec,
                sample_rate: header.sample_rate,
                sample_size: header.sample_size,
                channels: header.channels,
                aac_packet_type: header.aac_packet_type,
                fourcc: header.fourcc,
                ..HozgrimReport::default()
            }
        }
        FrameType::Video => {
            let (header, _) = exvideo::of_rust(result);
            HozgrimReport {
                header_error: header.error,
                header_size: header.header_size,
                is_ex_header: header.is_ex_header,
                packet_type: header.packet_type,
                frame_type: header.frame_type,
                fourcc: header.fourcc,
                ..HozgrimReport::default()
            }
        }
        FrameType::Script | FrameType::Metadata => HozgrimReport::default(),
    }
}

/// Whether each record that is judged is valid, in the order of the tracks.
fn verdicts(known: FrameType, payload: &[u8], tracks: &Tracks) -> Vec<bool> {
    let Ok(tracks) = tracks else {
        return single_verdict(known, payload).into_iter().collect();
    };
    let judged = tracks.iter().filter(|track| track.packet_type == 0);
    let verdict = |track: &LeafTrack| {
        let record = &payload[track.start..track.start + track.length];
        starts(known, track.fourcc, record)
    };
    judged.map(verdict).collect()
}

/// That of the record of a frame that is no accepted container.
fn single_verdict(known: FrameType, payload: &[u8]) -> Option<bool> {
    let head = header(known, payload);
    let behind = payload.get(head.header_size..).unwrap_or_default();
    if head.header_error != 0 {
        return None;
    }
    match (known, head.is_ex_header) {
        (FrameType::Audio, 0) => {
            let judged = head.audio_codec == AAC && payload.get(1) == Some(&0);
            judged.then(|| validate_aac_config(behind))
        }
        (FrameType::Video, 0) => {
            let avc = payload[0] & 0x0F == AVC && payload.get(1) == Some(&0);
            let judged = avc && head.frame_type != COMMAND;
            judged.then(|| avc_valid(payload.get(5..).unwrap_or_default()))
        }
        (FrameType::Audio | FrameType::Video, _) => {
            let judged = head.packet_type == 0 && head.frame_type != COMMAND;
            judged.then(|| starts(known, head.fourcc, behind))
        }
        (FrameType::Script | FrameType::Metadata, _) => None,
    }
}

/// Whether the record of a sequence start is valid.
pub fn starts(frame_type: FrameType, fourcc: [u8; 4], record: &[u8]) -> bool {
    let start = Start {
        frame_type,
        fourcc,
        record: record.to_vec(),
    };
    start.is_valid()
}

/// Holds class and tracks of a payload, with the frame's type and flag, against those of the port.
fn same_as_it_is(frame: &Frame, payload: &[u8]) -> Result<(), Difference> {
    let number = frame.lent.frame_type;
    let seen = Seen::new(number, payload, frame.flag);
    same(
        seen.class,
        hozgrim_sys::classify(number, payload, frame.flag),
    )?;
    let numbers = asked(seen.tracks.as_ref().map_or(0, Vec::len));
    same(
        by_number(&numbers, |track| seen.track(track)),
        by_number(&numbers, |track| hozgrim_sys::track(number, payload, track)),
    )?;
    Ok(())
}

/// What the Rust sees in a payload as it is, but that a container that names itself has no tracks,
/// and that a record with a set of another type than its list is refused.
pub struct Seen {
    class: HozgrimClass,
    tracks: Tracks,
    verdicts: Vec<bool>,
}

impl Seen {
    pub fn new(number: u32, payload: &[u8], flag: u32) -> Self {
        let Some(&known) = FRAME_TYPES.get(number as usize) else {
            return Self {
                class: HozgrimClass {
                    error: UNKNOWN_FRAME_TYPE,
                    ..HozgrimClass::default()
                },
                tracks: Err(UNKNOWN_FRAME_TYPE),
                verdicts: vec![],
            };
        };
        let tracks = tracks(known, payload);
        Self {
            class: class_of(known, payload, flag),
            verdicts: verdicts(known, payload, &tracks),
            tracks,
        }
    }

    pub fn track(&self, number: usize) -> HozgrimTrack {
        let track = request(&self.tracks, number);
        let verdict = match (track.error, self.verdicts.get(number)) {
            (0, Some(true)) => 1,
            (0, Some(false)) => 2,
            _ => 0,
        };
        HozgrimTrack {
            error: track.error,
            fourcc: u32::from_be_bytes(track.fourcc),
            count: track.count,
            start: track.start,
            length: track.length,
            track_id: track.track_id,
            packet_type: track.packet_type,
            video_frame_type: track.video_frame_type,
            verdict,
        }
    }
}
