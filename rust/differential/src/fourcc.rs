//! `fourcc_parse`, `fourcc_to_audio_codec` and `ConfigCodec::from_fourcc`.

use common::rng::Rng;
use common::strings;
use oracle::ertmp::exvideo::fourcc_parse;
use oracle::ertmp::fourcc::fourcc_to_audio_codec;
use oracle::media::codec_config::ConfigCodec;

use crate::leaf;
use crate::run::{Comparison, Difference, same};

/// The seven FourCCs that the lookup knows, in the order of the classes, and five that it does not.
pub const FOURCCS: [[u8; 4]; 12] = [
    *b"Opus", *b"mp4a", *b"mp3 ", *b".mp3", *b"ac-3", *b"ec-3", *b"fLaC", *b"avc1", *b"hvc1",
    *b"av01", *b"vp09", *b"vvc1",
];

pub struct Fourcc;

impl Comparison for Fourcc {
    const NAME: &'static str = "fourcc";

    /// After the first one in pairs: with exactly four bytes, and with more.
    const CLASSES: &'static [&'static str] = &[
        "short",
        "unknown",
        "unknown, and more",
        "'Opus'",
        "'Opus', and more",
        "'mp4a'",
        "'mp4a', and more",
        "'mp3 '",
        "'mp3 ', and more",
        "'.mp3'",
        "'.mp3', and more",
        "'ac-3'",
        "'ac-3', and more",
        "'ec-3'",
        "'ec-3', and more",
        "'fLaC'",
        "'fLaC', and more",
    ];

    type Input = Vec<u8>;

    fn listed() -> impl Iterator<Item = Vec<u8>> {
        strings::up_to_two_bytes().chain(FOURCCS.into_iter().flat_map(near))
    }

    /// Up to twelve bytes. Three in four begin with a FourCC, half of these with one byte damaged.
    fn random(rng: &mut Rng) -> Vec<u8> {
        let length = rng.below(13);
        let mut data = rng.bytes(length);
        if !rng.one_in(4) {
            let mut front = *rng.pick(&FOURCCS);
            if rng.one_in(2) {
                front[rng.below(4)] = rng.byte();
            }
            let fits = length.min(4);
            data[..fits].copy_from_slice(&front[..fits]);
        }
        data
    }

    fn compare(data: &Vec<u8>) -> Result<&'static str, Difference> {
        let answers = same(Answers::of_rust(data), Answers::of_port(data))?;
        Ok(class(&answers, data.len()))
    }
}

/// A FourCC without its last byte, with each of its bytes changed to every value, and with 1 to 4
/// bytes behind it.
fn near(fourcc: [u8; 4]) -> Vec<Vec<u8>> {
    let mut strings = vec![fourcc[..3].to_vec()];
    for at in 0..4 {
        for byte in 0..=u8::MAX {
            let mut changed = fourcc;
            changed[at] = byte;
            strings.push(changed.to_vec());
        }
    }
    for filling in [0x00, b' ', b'1', 0xFF] {
        for more in 1..=4 {
            strings.push([&fourcc[..], &[filling; 4][..more]].concat());
        }
    }
    strings
}

/// What the functions answer. A refusal leaves the value 0.
#[derive(Debug, PartialEq)]
struct Answers {
    parse_error: i32,
    /// The Rust puts a 0 behind the four bytes; they are all that the port has.
    fourcc: [u8; 5],
    lookup_error: i32,
    codec: u8,
    config_codec: u8,
}

impl Answers {
    fn of_rust(data: &[u8]) -> Self {
        let (parse_error, fourcc) = match fourcc_parse(data) {
            Ok(fourcc) => (0, fourcc),
            Err(error) => (error as i32, [0; 5]),
        };
        let (lookup_error, codec) = match fourcc_to_audio_codec(data) {
            Ok(codec) => (0, codec as u8),
            Err(error) => (error as i32, 0),
        };
        Self {
            parse_error,
            fourcc,
            lookup_error,
            codec,
            config_codec: ConfigCodec::from_fourcc(data) as u8,
        }
    }

    fn of_port(data: &[u8]) -> Self {
        let parsed = leaf::fourcc_parse(data);
        let found = leaf::fourcc_to_audio_codec(data);
        let [a, b, c, d] = parsed.fourcc;
        Self {
            parse_error: parsed.error,
            fourcc: [a, b, c, d, 0],
            lookup_error: found.error,
            codec: found.codec,
            config_codec: leaf::config_codec_from_fourcc(data),
        }
    }
}

/// The class of a string of `length` bytes that has these answers.
fn class(answers: &Answers, length: usize) -> &'static str {
    let pair = match (answers.parse_error, answers.lookup_error) {
        (-1, -5) => return "short",
        (0, -5) => 0,
        (0, 0) => {
            let known = FOURCCS
                .iter()
                .position(|fourcc| *fourcc == answers.fourcc[..4]);
            1 + known.expect("the lookup knows listed FourCCs only")
        }
        _ => panic!("the two functions do not fit together: {answers:?}"),
    };
    Fourcc::CLASSES[1 + 2 * pair + usize::from(length > 4)]
}
