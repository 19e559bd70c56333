//! The rule of a sequence start. It is private in the Rust files, so it is held against two
//! answers: what `classify_cache_frame` makes of a frame around the record, and the public
//! validators, put together as docs/REQUIREMENTS.md, section 9, says. Both take a record whose sets
//! name another type than their list; request N7 refuses it.

use common::layers;
use common::rng::Rng;
use common::sets::of_their_lists;
use oracle::media::init_cache::{CacheFrameKind, classify_cache_frame};
use oracle::starts::record_valid;
use oracle::types::FrameType;

use crate::aac::Aac;
use crate::fourcc::FOURCCS;
use crate::headers::UNKNOWN;
use crate::input::Input;
use crate::leaf;
use crate::records::{self, avc, hevc};
use crate::run::{Class, Comparison, Difference, fitting, same};

/// Byte 0 of an enhanced frame of packet type 0, in audio and in video.
pub const TAG: u8 = 0x90;

/// The frame types that have sequence starts.
pub const TYPES: [FrameType; 2] = [FrameType::Audio, FrameType::Video];

/// The classes of what request N7 refuses and the Rust does not.
const FOR_A_TYPE: [&str; 4] = [
    "audio 'avc1', refused for a type",
    "audio 'hvc1', refused for a type",
    "video 'avc1', refused for a type",
    "video 'hvc1', refused for a type",
];

pub struct Starts;

impl Comparison for Starts {
    const NAME: &'static str = "starts";

    const CLASSES: &'static [&'static str] = &[
        "audio 'mp4a'",
        "audio 'mp4a', refused",
        "audio 'Opus', empty",
        "empty, refused",
        "'avc1'",
        "'avc1', refused",
        "'hvc1'",
        "'hvc1', refused",
        FOR_A_TYPE[0],
        FOR_A_TYPE[1],
        FOR_A_TYPE[2],
        FOR_A_TYPE[3],
        "opaque",
    ];

    type Input = Start;

    /// Both types, every FourCC, known, unknown, and with each bit changed, and records that are
    /// cut off at every byte; with the known ones, records whose sets name another type.
    fn listed() -> impl Iterator<Item = Start> {
        let known = FOURCCS.into_iter();
        let misnamed = known.clone().flat_map(|fourcc| {
            let records = avc::misnamed().chain(hevc::misnamed());
            records.map(move |record| (fourcc, record))
        });
        let changed = known.clone().flat_map(|fourcc| {
            let fourcc = u32::from_be_bytes(fourcc);
            (0..u32::BITS).map(move |bit| (fourcc ^ 1 << bit).to_be_bytes())
        });
        let fourccs = known.chain(UNKNOWN).chain(changed);
        let cut = fourccs.flat_map(|fourcc| records().map(move |record| (fourcc, record)));
        cut.chain(misnamed).flat_map(|(fourcc, record)| {
            TYPES.map(|frame_type| Start {
                frame_type,
                fourcc,
                record: record.clone(),
            })
        })
    }

    /// Half of the FourCCs have a rule of their own; one in eight is damaged.
    fn random(rng: &mut Rng) -> Start {
        let frame_type = *rng.pick(&TYPES);
        let mut fourcc = match rng.below(4) {
            0 => *rng.pick(&FOURCCS),
            1 => *rng.pick(&UNKNOWN),
            _ => *rng.pick(&[*b"avc1", *b"hvc1", *b"mp4a", *b"Opus"]),
        };
        if rng.one_in(8) {
            fourcc[rng.below(4)] = rng.byte();
        }
        let record = match rng.below(8) {
            0 => vec![],
            1 => records::random_bytes(rng),
            2 | 3 => Aac::random(rng),
            4 | 5 => avc::random(rng),
            _ => hevc::random(rng),
        };
        Start {
            frame_type,
            fourcc,
            record,
        }
    }

    fn compare(start: &Start) -> Result<&'static str, Difference> {
        let number = start.frame_type as u32;
        let port = leaf::sequence_start_config_valid(number, &start.fourcc, &start.record);
        same(start.is_valid(), port)?;
        let by_validators = record_valid(start.frame_type, &start.fourcc, &start.record);
        let valid = same(by_validators && start.has_named_sets(), port)?;
        let class = start.class();
        let left_out = by_validators && !valid;
        assert_eq!(is_for_a_type(class), left_out, "{}", start.show());
        Ok(fitting(class, valid))
    }
}

/// The parts of a frame that starts a sequence.
pub struct Start {
    pub frame_type: FrameType,
    pub fourcc: [u8; 4],
    pub record: Vec<u8>,
}

impl Start {
    /// Whether the Rust takes the frame for a sequence header. It does so exactly if the record is
    /// valid.
    pub fn classified(&self) -> bool {
        let kind = classify_cache_frame(self.frame_type, &self.frame(TAG));
        match (self.frame_type, kind) {
            (_, CacheFrameKind::LiveOnly) => false,
            (FrameType::Audio, CacheFrameKind::AudioSequenceHeader) => true,
            (FrameType::Video, CacheFrameKind::VideoSequenceHeader) => true,
            _ => panic!("no such start is known: {:?} is {kind:?}", self.frame_type),
        }
    }

    /// Whether the record is valid: what the Rust says, but for what request N7 refuses.
    pub fn is_valid(&self) -> bool {
        self.classified() && self.has_named_sets()
    }

    /// Whether the sets of a record that the Rust takes name the types of their lists.
    fn has_named_sets(&self) -> bool {
        of_their_lists(&self.fourcc, &self.record)
    }

    /// The enhanced frame around the record that has this byte 0.
    pub fn frame(&self, first: u8) -> Vec<u8> {
        [&[first], &self.fourcc[..], &self.record].concat()
    }

    pub fn class(&self) -> Class {
        let or = |class: Class, valid, refused| class.map(|_| valid).map_err(|_| refused);
        let record = &self.record[..];
        match (self.frame_type, &self.fourcc) {
            (FrameType::Audio, b"mp4a") => {
                let class = crate::aac::class(record);
                or(class, "audio 'mp4a'", "audio 'mp4a', refused")
            }
            (FrameType::Audio, b"Opus") if record.is_empty() => Ok("audio 'Opus', empty"),
            _ if record.is_empty() => Err("empty, refused"),
            (frame_type, b"avc1") => match avc::class(record) {
                class if records::is_for_a_type(class) => Err(FOR_A_TYPE[2 * frame_type as usize]),
                class => or(class, "'avc1'", "'avc1', refused"),
            },
            (frame_type, b"hvc1") => match hevc::class(record) {
                class if records::is_for_a_type(class) => {
                    Err(FOR_A_TYPE[2 * frame_type as usize + 1])
                }
                class => or(class, "'hvc1'", "'hvc1', refused"),
            },
            _ => Ok("opaque"),
        }
    }
}

/// Whether the starts of a class are those that request N7 refuses, and the Rust does not.
pub fn is_for_a_type(class: Class) -> bool {
    class.is_err_and(|name| FOR_A_TYPE.contains(&name))
}

impl Input for Start {
    fn smaller(&self) -> impl Iterator<Item = Self> {
        let smaller = self.record.smaller();
        smaller.map(|record| Self { record, ..*self })
    }

    fn show(&self) -> String {
        let fourcc = self.fourcc.escape_ascii();
        format!("{:?} '{fourcc}', {}", self.frame_type, self.record.show())
    }
}

/// Records of each codec, cut off at every byte.
fn records() -> impl Iterator<Item = Vec<u8>> {
    whole_records().into_iter().flat_map(layers::truncations)
}

/// Two of AAC, one of AVC, two of HEVC. All are valid but the first one of HEVC.
pub fn whole_records() -> [Vec<u8>; 5] {
    [
        vec![0x12, 0x10],
        vec![0xFF, 0xFF, 0xFF, 0xFF, 0xFF, 0xFF],
        avc::small().last().expect("there are such records"),
        hevc::small().last().expect("there are such records"),
        hevc::small()
            .find(|record| hevc::class(record).is_ok())
            .expect("there are such records"),
    ]
}
