//! `hozgrim_level` beside a reading of the request: the Rust has no level. It names the codec of a
//! frame, though, and the reading must find a law where that is G.711.

use common::g711::{self, Law, expansion, samples};
use common::rng::Rng;
use common::strings;
use common::writing::{AUDIO, SCRIPT, VIDEO};
use hozgrim_sys::HozgrimLevel;
use oracle::ertmp::exaudio::exaudio_parse;
use oracle::types::{AudioCodec, AudioHeader};

use crate::containers::Candidate;
use crate::modex::KNOWN;
use crate::run::{Comparison, Difference, same};

/// Frame types that are refused, also where their low bits would not be.
pub const REFUSED_TYPES: [u32; 6] = [4, 255, 256, 65_536, 1 << 31, u32::MAX];

/// Bytes 0 of both laws.
pub const FORMATS: [u8; 2] = [0x70, 0x80];

/// The loudest sample of each law, negative. So many of them stand behind what is lent.
const LOUDEST: [u8; 2] = [0x2A, 0x00];
const BEHIND: usize = 64;

/// As many samples are tried with the loudest at every place.
const MOST_SAMPLES: usize = 300;

/// Frames by one loudest sample: byte 0, the other samples, the loudest. The signs differ. The
/// others are the quietest, and those that are a step below.
const PEAKS: [[u8; 3]; 8] = [
    [0x70, 0x55, 0xAA],
    [0x7F, 0xD5, 0x2A],
    [0x7F, 0x2B, 0xAA],
    [0x70, 0xAB, 0x2A],
    [0x80, 0x7F, 0x80],
    [0x8F, 0xFF, 0x00],
    [0x8F, 0x01, 0x80],
    [0x80, 0x81, 0x00],
];

pub struct Level;

impl Comparison for Level {
    const NAME: &'static str = "level";

    /// Those of a law stand together, in the order that `class_of_samples` counts them in.
    const CLASSES: &'static [&'static str] = &[
        "a frame type above 3",
        "video with the bytes of G.711",
        "script data with the bytes of G.711",
        "metadata with the bytes of G.711",
        "no audio, other bytes",
        "empty audio",
        "enhanced audio",
        "another sound format",
        "A-law, no sample",
        "A-law, one sample",
        "A-law, several are the loudest",
        "A-law, the first is the loudest, positive",
        "A-law, the first is the loudest, negative",
        "A-law, the last is the loudest, positive",
        "A-law, the last is the loudest, negative",
        "A-law, one between is the loudest, positive",
        "A-law, one between is the loudest, negative",
        "mu-law, no sample",
        "mu-law, one sample",
        "mu-law, several are the loudest",
        "mu-law, the first is the loudest, positive",
        "mu-law, the first is the loudest, negative",
        "mu-law, the last is the loudest, positive",
        "mu-law, the last is the loudest, negative",
        "mu-law, one between is the loudest, positive",
        "mu-law, one between is the loudest, negative",
        "mu-law, samples of 0",
    ];

    const SIDES: [&'static str; 2] = ["requirement", "port"];

    type Input = Candidate;

    fn listed() -> impl Iterator<Item = Candidate> {
        examples()
            .chain(short())
            .chain(two_samples())
            .chain(places())
            .chain(long())
    }

    /// Mostly G.711, of few different samples, so that levels differ.
    fn random(rng: &mut Rng) -> Candidate {
        let frame_type = match rng.below(16) {
            0 => *rng.pick(&REFUSED_TYPES),
            1 => rng.below(4) as u32,
            _ => AUDIO,
        };
        let first = match rng.below(8) {
            0 => rng.byte(),
            _ => *rng.pick(&FORMATS) | rng.below(16) as u8,
        };
        let codes = rng.bytes(4);
        let most = *rng.pick(&[4, 40, 400]);
        let count = rng.below(most);
        let mut payload = vec![first];
        payload.extend((0..count).map(|_| *rng.pick(&codes)));
        if rng.one_in(2) {
            let at = 1 + rng.below(payload.len());
            payload.insert(at, rng.byte());
        }
        Candidate {
            frame_type,
            payload,
        }
    }

    fn compare(frame: &Candidate) -> Result<&'static str, Difference> {
        let asked = asked(frame);
        for loudest in LOUDEST {
            let memory = [&frame.payload[..], &[loudest; BEHIND]].concat();
            let lent = &memory[..frame.payload.len()];
            same(asked, hozgrim_sys::level(frame.frame_type, lent))?;
        }
        let law = samples(AUDIO, &frame.payload).map(|(law, _)| law);
        assert_eq!(law, law_of_rust(&frame.payload), "{:02X?}", frame.payload);
        Ok(class(frame))
    }
}

/// What must be answered, by the reading.
pub fn asked(frame: &Candidate) -> HozgrimLevel {
    match g711::level(frame.frame_type, &frame.payload) {
        Ok(level) => HozgrimLevel { error: 0, level },
        Err((error, _)) => HozgrimLevel { error, level: 0 },
    }
}

/// The law of audio that the Rust names.
fn law_of_rust(payload: &[u8]) -> Option<Law> {
    let mut header = AudioHeader::default();
    exaudio_parse(payload, &mut header).ok()?;
    match header.audio_codec {
        AudioCodec::G711A => Some(Law::A),
        AudioCodec::G711U => Some(Law::Mu),
        _ => None,
    }
}

pub fn class(frame: &Candidate) -> &'static str {
    let Candidate {
        frame_type,
        payload,
    } = frame;
    let level = match g711::level(*frame_type, payload) {
        Ok(level) => level,
        Err((_, name)) => return name,
    };
    match (*frame_type, samples(AUDIO, payload)) {
        (AUDIO, Some((law, codes))) => class_of_samples(law, codes, level),
        (AUDIO, None) => match payload.first() {
            None => "empty audio",
            Some(0x90..=0x9F) => "enhanced audio",
            Some(_) => "another sound format",
        },
        (VIDEO, Some(_)) => "video with the bytes of G.711",
        (SCRIPT, Some(_)) => "script data with the bytes of G.711",
        (_, Some(_)) => "metadata with the bytes of G.711",
        (_, None) => "no audio, other bytes",
    }
}

/// By the samples that have this level.
fn class_of_samples(law: Law, codes: &[u8], level: u32) -> &'static str {
    let value = |at: &usize| expansion(law, codes[*at]);
    let is_loudest = |at: &usize| value(at).unsigned_abs() == level;
    let loudest: Vec<usize> = (0..codes.len()).filter(is_loudest).collect();
    let further = match (codes.len(), &loudest[..]) {
        (0 | 1, _) => codes.len(),
        (length, [at]) => {
            let place = match *at {
                0 => 0,
                at if at == length - 1 => 1,
                _ => 2,
            };
            3 + 2 * place + usize::from(value(at) < 0)
        }
        _ if level == 0 => 9,
        _ => 2,
    };
    let first = match law {
        Law::A => "A-law, no sample",
        Law::Mu => "mu-law, no sample",
    };
    let at = Level::CLASSES.iter().position(|known| *known == first);
    Level::CLASSES[at.expect("the class is listed") + further]
}

fn audio(payload: Vec<u8>) -> Candidate {
    Candidate {
        frame_type: AUDIO,
        payload,
    }
}

/// The frames by which the readings of the request are told apart.
pub fn examples() -> impl Iterator<Item = Candidate> {
    let frames: [(u32, &[u8]); 18] = [
        (0, b"\x87\x00\x00\x00"),
        (0, b"\x70\x2A"),
        (0, b"\x80\x2A"),
        (0, b"\x97\x00"),
        (0, b"\x7F\x00\x02"),
        (0, b"\x70"),
        (0, b""),
        (1, b"\x80\x00"),
        (2, b"\x70\x2A"),
        (4, b"\x70\x2A"),
        (256, b"\x70\x2A"),
        (0, b"\x70\xAA"),
        (0, b"\x80\x80"),
        (0, b"\x70\x00"),
        (0, b"\x80\x00"),
        (0, b"\x70\xD5"),
        (0, b"\x80\xFF"),
        (0, b"\x80\x7F"),
    ];
    let frame = |(frame_type, payload): (u32, &[u8])| Candidate {
        frame_type,
        payload: payload.to_vec(),
    };
    frames.into_iter().map(frame)
}

/// Every payload of 0 to 2 bytes in every type: every code of both laws behind every low nibble.
fn short() -> impl Iterator<Item = Candidate> {
    let types = KNOWN.into_iter().chain(REFUSED_TYPES);
    types.flat_map(|frame_type| {
        strings::up_to_two_bytes().map(move |payload| Candidate {
            frame_type,
            payload,
        })
    })
}

/// Every two samples of both laws.
fn two_samples() -> impl Iterator<Item = Candidate> {
    FORMATS.into_iter().flat_map(|format| {
        (0..=u16::MAX).map(move |codes| {
            let [first, second] = codes.to_be_bytes();
            audio(vec![format, first, second])
        })
    })
}

/// The loudest sample at every place among up to so many.
fn places() -> impl Iterator<Item = Candidate> {
    (1..=MOST_SAMPLES).flat_map(|count| (1..=count).flat_map(move |at| peaks(count, at)))
}

/// The loudest sample first and last, where the number of a place has more than 16 bits.
fn long() -> impl Iterator<Item = Candidate> {
    let counts = [65_534, 65_535, 65_536, 65_537, 1 << 20];
    counts
        .into_iter()
        .flat_map(|count| [1, count].into_iter().flat_map(move |at| peaks(count, at)))
}

/// With the loudest sample in this byte.
fn peaks(count: usize, at: usize) -> [Candidate; 8] {
    PEAKS.map(|[first, other, loudest]| {
        let mut payload = vec![other; 1 + count];
        payload[0] = first;
        payload[at] = loudest;
        audio(payload)
    })
}
