//! The verdicts on AVC and HEVC records. Every record is put to each validator, not only to that of
//! its kind. A record that the Rust accepts, though a set names another type than its list, must be
//! refused: request N7.

pub mod avc;
pub mod hevc;

use std::iter;

use common::layers;
use common::rng::Rng;
use common::sets::{AVC_LISTS, of_their_lists};
use oracle::media::codec_config::{
    ConfigCodec, validate_aac_config, validate_avc_record, validate_config_record,
    validate_hevc_record,
};

use crate::input::Input;
use crate::leaf;
use crate::run::{Class, Comparison, Difference, fitting, same};

pub struct Records;

impl Comparison for Records {
    const NAME: &'static str = "records";

    const CLASSES: &'static [&'static str] = &[
        "AVC without extension",
        "AVC with extension",
        "AVC refused: short",
        "AVC refused: version",
        "AVC refused: no set",
        "AVC refused: empty set",
        "AVC refused: cut set",
        "AVC refused: no picture set",
        "AVC refused: extension cut",
        "AVC refused: empty set in the extension",
        avc::FOR_A_TYPE[0],
        avc::FOR_A_TYPE[1],
        avc::FOR_A_TYPE[2],
        avc::FOR_A_TYPE[3],
        avc::FOR_A_TYPE[4],
        avc::FOR_A_TYPE[5],
        "HEVC",
        "HEVC refused: short",
        "HEVC refused: version",
        "HEVC refused: empty set",
        "HEVC refused: cut",
        "HEVC refused: no SPS",
        "HEVC refused: no PPS",
        hevc::FOR_A_TYPE[0],
        hevc::FOR_A_TYPE[1],
        hevc::FOR_A_TYPE[2],
        hevc::FOR_A_TYPE[3],
    ];

    type Input = Record;

    fn listed() -> impl Iterator<Item = Record> {
        let avc = avc::small().flat_map(damaged);
        let avc = avc.chain(avc::large().flat_map(around));
        let avc = avc.chain(avc::every_first_byte()).chain(avc::misnamed());
        let hevc = hevc::small().flat_map(damaged);
        let hevc = hevc.chain(hevc::large().flat_map(around));
        let hevc = hevc.chain(hevc::every_first_byte()).chain(hevc::misnamed());
        let avc = avc.map(|bytes| Record::new(Kind::Avc, bytes));
        avc.chain(hevc.map(|bytes| Record::new(Kind::Hevc, bytes)))
    }

    /// One in four is made of bytes only.
    fn random(rng: &mut Rng) -> Record {
        let kind = *rng.pick(&[Kind::Avc, Kind::Hevc]);
        let bytes = match (rng.one_in(4), kind) {
            (true, _) => random_bytes(rng),
            (false, Kind::Avc) => avc::random(rng),
            (false, Kind::Hevc) => hevc::random(rng),
        };
        Record::new(kind, bytes)
    }

    fn compare(record: &Record) -> Result<&'static str, Difference> {
        let bytes = &record.bytes;
        let verdicts = same(Verdicts::expected(bytes), Verdicts::of_port(bytes))?;
        let valid = match record.kind {
            Kind::Avc => verdicts.avc,
            Kind::Hevc => verdicts.hevc,
        };
        let class = record.class();
        let left_out = !valid && record.is_accepted_by_rust();
        assert_eq!(is_for_a_type(class), left_out, "{}", record.show());
        Ok(fitting(class, valid))
    }
}

/// Types that lists have, of AVC and of HEVC.
const TYPES: [[u8; 3]; 2] = [AVC_LISTS, [32, 33, 34]];

#[derive(Clone, Copy, Debug)]
pub enum Kind {
    Avc,
    Hevc,
}

impl Kind {
    /// The first byte of a set that names this type. No rule reads the bits of `free` that it takes.
    fn first_byte(self, nal_type: u8, free: u8) -> u8 {
        match self {
            Self::Avc => free & 0xE0 | nal_type,
            Self::Hevc => free & 0x81 | nal_type << 1,
        }
    }
}

/// Bytes, and the kind of record whose rule gives their class.
pub struct Record {
    kind: Kind,
    pub bytes: Vec<u8>,
}

impl Record {
    fn new(kind: Kind, bytes: Vec<u8>) -> Self {
        Self { kind, bytes }
    }

    pub fn class(&self) -> Class {
        match self.kind {
            Kind::Avc => avc::class(&self.bytes),
            Kind::Hevc => hevc::class(&self.bytes),
        }
    }

    fn is_accepted_by_rust(&self) -> bool {
        match self.kind {
            Kind::Avc => validate_avc_record(&self.bytes),
            Kind::Hevc => validate_hevc_record(&self.bytes),
        }
    }
}

/// Whether the records of a class are those that request N7 refuses, and the Rust does not.
pub fn is_for_a_type(class: Class) -> bool {
    let mut classes = avc::FOR_A_TYPE.iter().chain(&hevc::FOR_A_TYPE);
    class.is_err_and(|name| classes.any(|known| *known == name))
}

/// The verdict on an AVC record: the Rust's, but for what request N7 refuses.
pub fn avc_valid(record: &[u8]) -> bool {
    validate_avc_record(record) && of_their_lists(b"avc1", record)
}

/// The verdict on an HEVC record, likewise.
pub fn hevc_valid(record: &[u8]) -> bool {
    validate_hevc_record(record) && of_their_lists(b"hvc1", record)
}

impl Input for Record {
    fn smaller(&self) -> impl Iterator<Item = Self> {
        let smaller = self.bytes.smaller();
        smaller.map(|bytes| Self::new(self.kind, bytes))
    }

    fn show(&self) -> String {
        format!("as {:?}, {}", self.kind, self.bytes.show())
    }
}

/// What all validators say about the same bytes.
#[derive(Debug, PartialEq)]
struct Verdicts {
    avc: bool,
    hevc: bool,
    aac: bool,
    /// As a record of each codec of the Rust, in the order of their numbers: AVC, HEVC, others.
    as_codec: [bool; 3],
    /// The codec of the bytes, taken for a FourCC.
    codec: u8,
}

impl Verdicts {
    /// The Rust's, but for what request N7 refuses.
    fn expected(bytes: &[u8]) -> Self {
        let codecs = [
            (ConfigCodec::Avc, b"avc1"),
            (ConfigCodec::Hevc, b"hvc1"),
            (ConfigCodec::Opaque, b"av01"),
        ];
        Self {
            avc: avc_valid(bytes),
            hevc: hevc_valid(bytes),
            aac: validate_aac_config(bytes),
            as_codec: codecs.map(|(codec, fourcc)| {
                validate_config_record(codec, bytes) && of_their_lists(fourcc, bytes)
            }),
            codec: ConfigCodec::from_fourcc(bytes) as u8,
        }
    }

    fn of_port(bytes: &[u8]) -> Self {
        Self {
            avc: leaf::validate_avc_record(bytes),
            hevc: leaf::validate_hevc_record(bytes),
            aac: leaf::validate_aac_config(bytes),
            as_codec: [0, 1, 2].map(|codec| leaf::validate_config_record(codec, bytes)),
            codec: leaf::config_codec_from_fourcc(bytes),
        }
    }
}

/// A length, this first byte, and further ones.
fn set(first: u8, length: usize) -> Vec<u8> {
    let [.., high, low] = length.to_be_bytes();
    let further = (1..length).map(|byte| byte as u8);
    [high, low, first].into_iter().chain(further).collect()
}

/// Sets of these lengths that name this type, one after the other with other free bits.
fn sets(kind: Kind, nal_type: u8, lengths: &[usize]) -> Vec<u8> {
    let free = [0x60, 0xFF, 0x00, 0x81].into_iter().cycle();
    let sets = free.zip(lengths);
    sets.flat_map(|(free, &length)| set(kind.first_byte(nal_type, free), length))
        .collect()
}

/// Sets with these first bytes, of one byte and of two in turn.
fn sets_of_first_bytes(firsts: &[u8]) -> Vec<u8> {
    let sets = firsts.iter().zip([1, 2].into_iter().cycle());
    sets.flat_map(|(&first, length)| set(first, length))
        .collect()
}

/// This many sets, mostly short ones that name this type; one in a hundred is empty.
fn random_sets(rng: &mut Rng, kind: Kind, nal_type: u8, count: usize) -> Vec<u8> {
    let mut sets = vec![];
    for _ in 0..count {
        let length = match rng.below(2_000) {
            0 => 65_535 - rng.below(2),
            1..20 => 250 + rng.below(12),
            20..40 => 0,
            _ => 1 + rng.below(4),
        };
        let mut set = rng.bytes(length);
        if let Some(first) = set.first_mut() {
            *first = random_first_byte(rng, kind, nal_type);
        }
        sets.extend((length as u16).to_be_bytes());
        sets.extend(set);
    }
    sets
}

/// Nine in ten name the type. Of the others, most come close: another type that a list has, one
/// bit of the type or the whole byte off by one, the type where the other codec has it.
fn random_first_byte(rng: &mut Rng, kind: Kind, nal_type: u8) -> u8 {
    let free = rng.byte();
    let right = kind.first_byte(nal_type, free);
    if !rng.one_in(10) {
        return right;
    }
    match rng.below(6) {
        0 => kind.first_byte(*rng.pick(&TYPES[kind as usize]), free),
        1 => right ^ 1 << rng.below(8),
        2 => right.wrapping_add(1),
        3 => right.wrapping_sub(1),
        4 => match kind {
            Kind::Avc => Kind::Hevc.first_byte(nal_type, free),
            Kind::Hevc => free & 0xC0 | nal_type,
        },
        _ => rng.byte(),
    }
}

/// Why a row of sets cannot be read.
enum Fault {
    Empty,
    Cut,
}

/// What stands behind this many sets.
fn behind_sets(count: usize, mut rest: &[u8]) -> Result<&[u8], Fault> {
    for _ in 0..count {
        let [high, low, behind @ ..] = rest else {
            return Err(Fault::Cut);
        };
        let length = u16::from_be_bytes([*high, *low]).into();
        if length == 0 {
            return Err(Fault::Empty);
        }
        rest = behind.get(length..).ok_or(Fault::Cut)?;
    }
    Ok(rest)
}

/// Cut off at every byte, with each byte changed to every value, and with up to five bytes more.
pub fn damaged(record: Vec<u8>) -> impl Iterator<Item = Vec<u8>> {
    let longer = [0x00, 0x01, 0xFF].into_iter().flat_map({
        let record = record.clone();
        move |byte| {
            let record = record.clone();
            (1..=5).map(move |more| [&record[..], &vec![byte; more]].concat())
        }
    });
    let changed = (0..record.len()).flat_map({
        let record = record.clone();
        move |at| {
            let record = record.clone();
            (0..=u8::MAX).map(move |byte| {
                let mut changed = record.clone();
                changed[at] = byte;
                changed
            })
        }
    });
    layers::truncations(record).chain(changed).chain(longer)
}

/// Without the last byte, whole, and with one byte more.
pub fn around(record: Vec<u8>) -> [Vec<u8>; 3] {
    let cut = record[..record.len() - 1].to_vec();
    let longer = [&record[..], &[0x00]].concat();
    [cut, record, longer]
}

/// 0 to 64 bytes, most of them small; every other string begins with a 1.
pub fn random_bytes(rng: &mut Rng) -> Vec<u8> {
    let length = rng.below(65);
    let byte = || {
        let small = rng.below(4) as u8;
        if rng.one_in(3) { rng.byte() } else { small }
    };
    let mut bytes: Vec<u8> = iter::repeat_with(byte).take(length).collect();
    if let Some(first) = bytes.first_mut()
        && rng.one_in(2)
    {
        *first = 1;
    }
    bytes
}
