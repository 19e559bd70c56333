//! The frames that are measured.

use common::containers::{self, Form, Track, container};
use common::layers;
use common::rng::Rng;
use oracle::types::FrameType;

use crate::buffers::mix;
use crate::page::grouped;

/// The packet types of a sequence start and of coded frames.
const START: u8 = 0;
const CODED: u8 = 1;

/// As many tracks as a container may have.
pub const MOST_TRACKS: usize = 4_096;

/// How long the bodies of many tracks are.
const SHORT_BODY: usize = 20;

/// An AudioSpecificConfig: AAC-LC, 44,100 Hz, stereo.
const AAC: &[u8] = b"\x12\x10";

/// A frame and its name in a table.
pub struct Frame {
    pub name: String,
    pub frame_type: FrameType,
    pub payload: Vec<u8>,
}

impl Frame {
    fn new(name: impl Into<String>, frame_type: FrameType, payload: Vec<u8>) -> Self {
        let name = name.into();
        Self {
            name,
            frame_type,
            payload,
        }
    }

    /// A front, filled up to a length.
    fn filled(name: &str, frame_type: FrameType, front: &[u8], length: usize) -> Self {
        let name = format!("{name}, {} B", grouped(length));
        Self::new(name, frame_type, filled(front, length))
    }
}

/// A front, and random bytes up to a length.
fn filled(front: &[u8], length: usize) -> Vec<u8> {
    let rest = Rng::new(1).bytes(length - front.len());
    [front, &rest].concat()
}

/// One frame of each shape.
pub fn shapes() -> Vec<Frame> {
    let single = small().into_iter().chain(large()).chain(headers());
    single.chain(containers()).collect()
}

/// Frames that are offered to a store: three that it does not keep, and three that it keeps.
pub fn offered() -> [Frame; 6] {
    let inter = b"\x27\x01\x00\x00\x00";
    [
        Frame::filled("inter frame", FrameType::Video, inter, 6_000),
        sound(),
        script(),
        avc_header(),
        keyframe(5),
        keyframe(40_000),
    ]
}

fn small() -> [Frame; 3] {
    [
        Frame::new("empty audio", FrameType::Audio, vec![]),
        keyframe(5),
        script(),
    ]
}

fn large() -> [Frame; 5] {
    [
        sound(),
        Frame::filled("HEVC", FrameType::Video, b"\xA1hvc1\x00\x00\x28", 6_000),
        keyframe(40_000),
        layered(3),
        layered(33),
    ]
}

fn script() -> Frame {
    let front = b"\x02\x00\x0AonMetaData\x08";
    Frame::filled("script", FrameType::Script, front, 300)
}

fn sound() -> Frame {
    Frame::filled("AAC", FrameType::Audio, b"\xAF\x01", 1_200)
}

/// A legacy AVC keyframe.
pub fn keyframe(length: usize) -> Frame {
    let front = b"\x17\x01\x00\x00\x00";
    Frame::filled("keyframe", FrameType::Video, front, length)
}

/// Audio behind so many ModEx layers of three bytes. Each is an offset, of 1, 2 and so on
/// nanoseconds: the type of a layer that the port has most to do with.
fn layered(count: usize) -> Frame {
    let layers = (1..=count).flat_map(|number| {
        let next = if number < count { layers::MODEX } else { CODED };
        layers::layer(layers::Form::Short, &[0, 0, number as u8], next)
    });
    let front = [&layers::wrapped(layers.collect())[..], b"Opus"].concat();
    let name = format!("{count} ModEx layers");
    Frame::filled(&name, FrameType::Audio, &front, 1_200)
}

fn headers() -> [Frame; 3] {
    let aac = [b"\xAF\x00", AAC].concat();
    let hevc = [&b"\x90hvc1"[..], &hevc_record()].concat();
    [
        Frame::new("AAC sequence header", FrameType::Audio, aac),
        avc_header(),
        Frame::new("HEVC sequence header", FrameType::Video, hevc),
    ]
}

fn avc_header() -> Frame {
    let payload = [&b"\x17\x00\x00\x00\x00"[..], &avc_record()].concat();
    Frame::new("AVC sequence header", FrameType::Video, payload)
}

fn containers() -> [Frame; 8] {
    [
        coded_tracks(Form::ManyTracks, 8, 200),
        avc_records(Form::ManyTracks, 8),
        coded_tracks(Form::ManyTracks, MOST_TRACKS, SHORT_BODY),
        coded_tracks(Form::ManyTracksManyCodecs, MOST_TRACKS, SHORT_BODY),
        cut(coded_tracks(Form::ManyTracks, MOST_TRACKS, SHORT_BODY)),
        aac_records(MOST_TRACKS),
        avc_records(Form::ManyTracks, MOST_TRACKS),
        avc_records(Form::ManyTracksManyCodecs, MOST_TRACKS),
    ]
}

/// Audio without records.
pub fn coded_tracks(form: Form, count: usize, length: usize) -> Frame {
    let tracks = tracks(count, b"Opus", &filled(b"", length));
    let payload = container(containers::AUDIO, form, CODED, &tracks);
    let what = if count == 1 { "track" } else { "tracks" };
    let what = format!("{what} of {length} B");
    Frame::new(name(form, count, &what), FrameType::Audio, payload)
}

/// Audio without records, in short bodies.
pub fn short_tracks(count: usize) -> Frame {
    coded_tracks(Form::ManyTracks, count, SHORT_BODY)
}

/// The same, each with its FourCC.
pub fn own_fourccs(count: usize) -> Frame {
    coded_tracks(Form::ManyTracksManyCodecs, count, SHORT_BODY)
}

/// Audio without records, in bodies of 1 byte to as many as there are tracks, no two as long.
pub fn uneven_tracks(count: usize) -> Frame {
    let mut lengths: Vec<usize> = (1..=count).collect();
    mix(&mut lengths);
    let mut tracks = tracks(count, b"Opus", b"");
    for (track, length) in tracks.iter_mut().zip(lengths) {
        track.body = filled(b"", length);
    }
    let payload = container(containers::AUDIO, Form::ManyTracks, CODED, &tracks);
    let what = format!("tracks of 1 to {} B", grouped(count));
    Frame::new(
        name(Form::ManyTracks, count, &what),
        FrameType::Audio,
        payload,
    )
}

pub fn avc_records(form: Form, count: usize) -> Frame {
    let tracks = tracks(count, b"avc1", &avc_record());
    let payload = container(containers::VIDEO, form, START, &tracks);
    Frame::new(name(form, count, "AVC records"), FrameType::Video, payload)
}

fn aac_records(count: usize) -> Frame {
    let form = Form::ManyTracks;
    let tracks = tracks(count, b"mp4a", AAC);
    let payload = container(containers::AUDIO, form, START, &tracks);
    Frame::new(name(form, count, "AAC records"), FrameType::Audio, payload)
}

/// The last byte is missing, which shows at the end of the walk.
fn cut(mut frame: Frame) -> Frame {
    frame.name += ", cut";
    frame.payload.pop();
    frame
}

pub fn name(form: Form, count: usize, what: &str) -> String {
    let count = grouped(count);
    match form {
        Form::ManyTracksManyCodecs => format!("{count} {what}, own FourCCs"),
        Form::OneTrack | Form::ManyTracks => format!("{count} {what}"),
    }
}

fn tracks(count: usize, fourcc: &[u8; 4], body: &[u8]) -> Vec<Track> {
    let track = |number| Track {
        id: number as u8,
        fourcc: *fourcc,
        body: body.to_vec(),
    };
    (0..count).map(track).collect()
}

/// A parameter set: a 16-bit length, and that many bytes, of which the first ones are given. They
/// name the type of the set's list: else the port would refuse the record, and end early.
fn set(front: &[u8], length: u16) -> Vec<u8> {
    let front = [&length.to_be_bytes(), front].concat();
    filled(&front, 2 + usize::from(length))
}

/// High profile: a set of 27 bytes, a picture set of 5, and the extension without sets.
fn avc_record() -> Vec<u8> {
    let head = b"\x01\x64\x00\x28\xFF\xE1";
    let [sequence, picture] = [set(b"\x67", 27), set(b"\x68", 5)];
    [head, &sequence[..], b"\x01", &picture, b"\xFD\xF8\xF8\x00"].concat()
}

/// Three arrays of one set each, of types 32, 33 and 34.
fn hevc_record() -> Vec<u8> {
    let mut record = filled(b"\x01", 22);
    record.push(3);
    for (nal_type, length) in [(32, 24), (33, 42), (34, 7)] {
        record.extend([nal_type, 0x00, 0x01]);
        record.extend(set(&[nal_type << 1, 0x01], length));
    }
    record
}
