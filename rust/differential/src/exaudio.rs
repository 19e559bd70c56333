//! `exaudio_parse`.

use common::rng::Rng;
use oracle::ertmp::exaudio::exaudio_parse;
use oracle::types::{AudioCodec, AudioHeader};

use crate::headers;
use crate::leaf::{self, LeafAudioHeader};
use crate::run::{Comparison, Difference, same};

const PCM: u8 = AudioCodec::Pcm as u8;
const AAC: u8 = AudioCodec::Aac as u8;

pub struct Exaudio;

impl Comparison for Exaudio {
    const NAME: &'static str = "exaudio";

    const CLASSES: &'static [&'static str] = &[
        "empty",
        "enhanced, cut off",
        "enhanced, known FourCC",
        "enhanced, unknown FourCC",
        "reserved nibble",
        "legacy AAC, with byte 1",
        "legacy AAC, without byte 1",
        "legacy, other",
    ];

    type Input = Vec<u8>;

    fn listed() -> impl Iterator<Item = Vec<u8>> {
        headers::listed()
    }

    fn random(rng: &mut Rng) -> Vec<u8> {
        headers::random(rng)
    }

    fn compare(payload: &Vec<u8>) -> Result<&'static str, Difference> {
        let (header, _) = same(of_rust(payload), (leaf::exaudio_parse(payload), 0))?;
        Ok(class(payload, &header))
    }
}

/// What the Rust answers, and the fifth byte of its FourCC, which is 0; the port has none. It is
/// given a header that is not the default in any field.
pub fn of_rust(payload: &[u8]) -> (LeafAudioHeader, u8) {
    let mut header = AudioHeader {
        is_ex_header: 0xE1,
        packet_type: 0xE2,
        fourcc: [0xE3; 5],
        audio_codec: AudioCodec::Speex,
        sample_rate: 0xE4,
        sample_size: 0xE5,
        channels: 0xE6,
        aac_packet_type: 0xE7,
        header_size: 0xE8,
    };
    let error = match exaudio_parse(payload, &mut header) {
        Ok(()) => 0,
        Err(error) => error as i32,
    };
    let [a, b, c, d, fifth] = header.fourcc;
    let header = LeafAudioHeader {
        error,
        is_ex_header: header.is_ex_header,
        packet_type: header.packet_type,
        audio_codec: header.audio_codec as u8,
        sample_rate: header.sample_rate,
        sample_size: header.sample_size,
        channels: header.channels,
        aac_packet_type: header.aac_packet_type,
        fourcc: [a, b, c, d],
        header_size: header.header_size,
    };
    (header, fifth)
}

/// The class of a payload that has this header. No known FourCC stands for the default codec.
fn class(payload: &[u8], header: &LeafAudioHeader) -> &'static str {
    match (header.error, header.is_ex_header, header.audio_codec) {
        (-1, 0, PCM) if payload.is_empty() => "empty",
        (-1, 0, PCM) => "enhanced, cut off",
        (-7, 0, PCM) => "reserved nibble",
        (0, 1, PCM) => "enhanced, unknown FourCC",
        (0, 1, _) => "enhanced, known FourCC",
        (0, 0, AAC) if header.header_size == 2 => "legacy AAC, with byte 1",
        (0, 0, AAC) => "legacy AAC, without byte 1",
        (0, 0, _) => "legacy, other",
        _ => panic!("no such answer is known: {header:?}"),
    }
}
