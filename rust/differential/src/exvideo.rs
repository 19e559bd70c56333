//! `exvideo_parse`.

use common::rng::Rng;
use oracle::ertmp::exvideo::exvideo_parse;
use oracle::media::modex::ERTMP_PACKET_TYPE_MODEX as MODEX;
use oracle::types::{ERTMP_PACKET_TYPE_METADATA as METADATA, VideoHeader};

use crate::headers;
use crate::leaf::{self, LeafVideoHeader};
use crate::run::{Comparison, Difference, same};

pub struct Exvideo;

impl Comparison for Exvideo {
    const NAME: &'static str = "exvideo";

    const CLASSES: &'static [&'static str] = &[
        "empty",
        "legacy, other",
        "legacy AVC, short",
        "legacy AVC, timed",
        "command, cut off",
        "command",
        "FourCC cut off",
        "time cut off",
        "timed 'avc1'",
        "timed 'hvc1'",
        "timed 'vvc1'",
        "enhanced, plain",
    ];

    type Input = Vec<u8>;

    fn listed() -> impl Iterator<Item = Vec<u8>> {
        headers::listed()
    }

    fn random(rng: &mut Rng) -> Vec<u8> {
        headers::random(rng)
    }

    fn compare(payload: &Vec<u8>) -> Result<&'static str, Difference> {
        Ok(class(payload, &same_header(payload)?))
    }
}

/// The header that both sides give.
pub fn same_header(payload: &[u8]) -> Result<LeafVideoHeader, Difference> {
    let (header, _) = same(of_rust(payload), (leaf::exvideo_parse(payload), 0))?;
    Ok(header)
}

/// What the Rust answers, and the fifth byte of its FourCC, which is 0; the port has none. It is
/// given a header that is not the default in any field.
pub fn of_rust(payload: &[u8]) -> (LeafVideoHeader, u8) {
    let mut header = VideoHeader {
        is_ex_header: 0xE1,
        packet_type: 0xE2,
        fourcc: [0xE3; 5],
        frame_type: 0xE4,
        composition_time: 0xE5E5_E5E5,
        header_size: 0xE6,
    };
    let error = match exvideo_parse(payload, &mut header) {
        Ok(()) => 0,
        Err(error) => error as i32,
    };
    let [a, b, c, d, fifth] = header.fourcc;
    let header = LeafVideoHeader {
        error,
        is_ex_header: header.is_ex_header,
        packet_type: header.packet_type,
        frame_type: header.frame_type,
        fourcc: [a, b, c, d],
        composition_time: header.composition_time,
        header_size: header.header_size,
    };
    (header, fifth)
}

/// The class of a payload that has this header.
fn class(payload: &[u8], header: &LeafVideoHeader) -> &'static str {
    let command = header.frame_type == 5 && ![METADATA, MODEX].contains(&header.packet_type);
    match (header.error, header.is_ex_header, header.header_size) {
        (-1, 0, 0) => "empty",
        (0, 0, 1) if payload[0] & 0x0F == 7 => "legacy AVC, short",
        (0, 0, 1) => "legacy, other",
        (0, 0, 5) => "legacy AVC, timed",
        (-1, 1, 0) if command => "command, cut off",
        (-1, 1, 0) => "FourCC cut off",
        (0, 1, 2) => "command",
        (-1, 1, 5) => "time cut off",
        (0, 1, 5) => "enhanced, plain",
        (0, 1, 8) => match &header.fourcc {
            b"avc1" => "timed 'avc1'",
            b"hvc1" => "timed 'hvc1'",
            b"vvc1" => "timed 'vvc1'",
            _ => panic!("no such FourCC has a time: {header:?}"),
        },
        _ => panic!("no such answer is known: {header:?}"),
    }
}
