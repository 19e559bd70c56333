//! The sealed bytes of a frame, read from the words of docs/REQUIREMENTS.md, section 15, alone:
//! layers, containers, records and headers are read here once more.

use std::iter;

/// Why a byte is sealed.
#[derive(Clone, Copy, Debug, PartialEq)]
pub enum Seal {
    UnknownType,
    Layer,
    Body,
    /// Behind the header of a single frame.
    Audio,
    LegacyAudio,
    Video,
    LegacyVideo,
    LegacyAvc,
    AvcHead,
    AvcSet,
    AvcExtension,
    BehindAvc,
    HevcHead,
    HevcSet,
    BehindHevc,
    Opaque,
}

/// For each byte why it is sealed, or nothing if it is open.
pub type Seals = Vec<Option<Seal>>;

const AUDIO: u32 = 0;
const VIDEO: u32 = 1;

const MOST_LAYERS: usize = 32;
const MOST_TRACKS: usize = 4_096;

/// Of a payload as received.
pub fn of_payload(frame_type: u32, mask: u32, payload: &[u8]) -> Seals {
    match peel(frame_type, mask, payload) {
        Some(Peeled { mut seals, result }) if frame_type <= VIDEO => {
            seals.extend(&of_result(frame_type, &result)[1..]);
            seals
        }
        _ => of_result(frame_type, payload),
    }
}

/// Of a result, counted from its own byte 0.
pub fn of_result(frame_type: u32, result: &[u8]) -> Seals {
    read(frame_type, result).seals
}

/// How many records of a result are refused for nothing but the type of a set.
pub fn misnamed_records(frame_type: u32, result: &[u8]) -> usize {
    read(frame_type, result).misnamed
}

/// What is found in bytes that are read.
struct Found {
    seals: Seals,
    /// How many records are refused for nothing but a type.
    misnamed: usize,
}

impl Found {
    /// As many bytes, all open.
    fn open(length: usize) -> Self {
        vec![None; length].into()
    }
}

/// Without a record that is refused for a type.
impl From<Seals> for Found {
    fn from(seals: Seals) -> Self {
        Self { seals, misnamed: 0 }
    }
}

fn read(frame_type: u32, result: &[u8]) -> Found {
    let found = match frame_type {
        AUDIO | VIDEO if opens_container(frame_type, result) => container(frame_type, result),
        AUDIO => audio(result),
        VIDEO => video(result),
        2 | 3 => None,
        _ => Some(vec![Some(Seal::UnknownType); result.len()].into()),
    };
    found.unwrap_or_else(|| Found::open(result.len()))
}

/// Bytes that are read from the front. Whatever cannot be read refuses the whole.
struct Reader<'a> {
    rest: &'a [u8],
    seals: Seals,
    /// How many records were refused for a type.
    misnamed: usize,
}

impl<'a> Reader<'a> {
    fn new(bytes: &'a [u8]) -> Self {
        Self {
            rest: bytes,
            seals: vec![],
            misnamed: 0,
        }
    }

    fn take(&mut self, length: usize, seal: Option<Seal>) -> Option<&'a [u8]> {
        let (taken, rest) = self.rest.split_at_checked(length)?;
        self.rest = rest;
        self.seals.extend(iter::repeat_n(seal, length));
        Some(taken)
    }

    fn open(&mut self, length: usize) -> Option<&'a [u8]> {
        self.take(length, None)
    }

    fn sealed(&mut self, length: usize, seal: Seal) -> Option<()> {
        self.take(length, Some(seal))?;
        Some(())
    }

    /// Takes as many bytes as there are seals.
    fn sealed_as(&mut self, found: Found) {
        self.rest = &self.rest[found.seals.len()..];
        self.seals.extend(found.seals);
        self.misnamed += found.misnamed;
    }

    fn byte(&mut self) -> Option<u8> {
        Some(self.open(1)?[0])
    }

    /// Big-endian.
    fn number(&mut self, bytes: usize) -> Option<usize> {
        let digits = self.open(bytes)?.iter();
        Some(digits.fold(0, |number, byte| number * 256 + usize::from(*byte)))
    }

    fn fourcc(&mut self) -> Option<&'a [u8]> {
        self.open(4)
    }

    /// Each a length that is not 0 and as many bytes, of which the first one is open. Gives whether
    /// it is right in every set.
    fn sets(&mut self, count: usize, seal: Seal, is_right: impl Fn(u8) -> bool) -> Option<bool> {
        let mut right = true;
        for _ in 0..count {
            let length = self.number(2).filter(|length| *length > 0)?;
            right &= is_right(self.byte()?);
            self.sealed(length - 1, seal)?;
        }
        Some(right)
    }

    fn rest_sealed(mut self, seal: Seal) -> Found {
        self.seals
            .extend(iter::repeat_n(Some(seal), self.rest.len()));
        self.found()
    }

    /// A record is the rest.
    fn rest_recorded(mut self, frame_type: u32, fourcc: &[u8]) -> Found {
        self.sealed_as(record(frame_type, fourcc, self.rest));
        self.found()
    }

    fn found(self) -> Found {
        Found {
            seals: self.seals,
            misnamed: self.misnamed,
        }
    }
}

/// The seals of byte 0 and the layers, and the result.
struct Peeled {
    seals: Seals,
    result: Vec<u8>,
}

fn peel(frame_type: u32, mask: u32, payload: &[u8]) -> Option<Peeled> {
    let mut reader = Reader::new(payload);
    let first = reader.byte()?;
    let capable = mask & 0x04 != 0;
    let wrapped = first & 0x80 != 0 && first % 16 == 7;
    if !capable || !wrapped || frame_type == AUDIO && first / 16 != 9 {
        return None;
    }
    for _ in 0..MOST_LAYERS {
        let size = match reader.byte()? {
            255 => reader.number(2)?,
            size => size.into(),
        };
        let option = *reader.rest.get(size + 1)?;
        // Of type 0, the offset is open.
        let open = if option / 16 == 0 { 3.min(size + 1) } else { 0 };
        reader.open(open)?;
        reader.sealed(size + 1 - open, Seal::Layer)?;
        let next = reader.byte()? % 16;
        if next != 7 {
            let result = iter::once(first / 16 * 16 + next);
            return Some(Peeled {
                result: result.chain(reader.rest.iter().copied()).collect(),
                seals: reader.seals,
            });
        }
    }
    None
}

fn opens_container(frame_type: u32, result: &[u8]) -> bool {
    match result.first() {
        Some(0x95) if frame_type == AUDIO => true,
        Some(first) if frame_type == VIDEO => {
            first / 128 == 1 && first / 16 % 8 != 5 && first % 16 == 6
        }
        _ => false,
    }
}

/// Whether a container's tracks have the packet type of byte 0, that of the container.
pub fn names_itself(frame_type: u32, result: &[u8]) -> bool {
    match result {
        [first, second, ..] => opens_container(frame_type, result) && first % 16 == second % 16,
        _ => false,
    }
}

fn container(frame_type: u32, result: &[u8]) -> Option<Found> {
    if names_itself(frame_type, result) {
        return None;
    }
    let mut reader = Reader::new(result);
    reader.byte()?;
    let second = reader.byte()?;
    let (form, packet_type) = (second / 16, second % 16);
    let shared = match form {
        0 | 1 => Some(reader.fourcc()?),
        2 => None,
        _ => return None,
    };
    for _ in 0..MOST_TRACKS {
        let fourcc = match shared {
            Some(shared) => shared,
            None => reader.fourcc()?,
        };
        let _id = reader.byte()?;
        let length = match form {
            0 => reader.rest.len(),
            _ => reader.number(3)?,
        };
        let body = reader.rest.get(..length)?;
        reader.sealed_as(match packet_type {
            0 => record(frame_type, fourcc, body),
            _ => vec![Some(Seal::Body); length].into(),
        });
        if reader.rest.is_empty() {
            return Some(reader.found());
        }
    }
    None
}

/// A single frame; a start seals within its record alone.
fn audio(result: &[u8]) -> Option<Found> {
    let mut reader = Reader::new(result);
    let first = reader.byte()?;
    match first / 16 {
        9 => {
            let fourcc = reader.fourcc()?;
            match first % 16 {
                0 => Some(reader.rest_recorded(AUDIO, fourcc)),
                7 => None,
                _ => Some(reader.rest_sealed(Seal::Audio)),
            }
        }
        10 => {
            let packet_type = reader.byte()?;
            // The record of a start is one of AAC.
            (packet_type != 0).then(|| reader.rest_sealed(Seal::LegacyAudio))
        }
        12 | 13 | 15 => None,
        _ => Some(reader.rest_sealed(Seal::LegacyAudio)),
    }
}

fn video(result: &[u8]) -> Option<Found> {
    let mut reader = Reader::new(result);
    let first = reader.byte()?;
    if first < 0x80 {
        return legacy_video(reader, first / 16, first % 16);
    }
    let (frame_type, packet_type) = (first / 16 % 8, first % 16);
    if frame_type == 5 && packet_type != 4 || packet_type == 7 {
        return None;
    }
    let fourcc = reader.fourcc()?;
    match (packet_type, fourcc) {
        (0, _) => return Some(reader.rest_recorded(VIDEO, fourcc)),
        (1, b"avc1" | b"hvc1" | b"vvc1") => drop(reader.open(3)?),
        _ => {}
    }
    Some(reader.rest_sealed(Seal::Video))
}

fn legacy_video(mut reader: Reader, frame_type: u8, codec: u8) -> Option<Found> {
    if codec != 7 {
        return Some(reader.rest_sealed(Seal::LegacyVideo));
    }
    let packet_type = reader.byte()?;
    reader.open(3)?;
    if packet_type == 0 && frame_type != 5 {
        return Some(reader.rest_recorded(VIDEO, b"avc1"));
    }
    Some(reader.rest_sealed(Seal::LegacyAvc))
}

/// The record of a start. A refused one is open, and so is one of AAC.
fn record(frame_type: u32, fourcc: &[u8], record: &[u8]) -> Found {
    let read = match fourcc {
        b"mp4a" if frame_type == AUDIO => None,
        b"avc1" => avc(record),
        b"hvc1" => hevc(record),
        _ => Some((vec![Some(Seal::Opaque); record.len()], true)),
    };
    match read {
        Some((seals, true)) => seals.into(),
        Some((_, false)) => Found {
            misnamed: 1,
            ..Found::open(record.len())
        },
        None => Found::open(record.len()),
    }
}

/// With whether every set names the type of its list: in the low five bits of its first byte.
fn avc(record: &[u8]) -> Option<(Seals, bool)> {
    let names = |nal_type| move |first| first % 32 == nal_type;
    let mut reader = Reader::new(record);
    reader.byte().filter(|version| *version == 1)?;
    reader.sealed(4, Seal::AvcHead)?;
    let count = reader.byte().filter(|count| count % 32 > 0)? % 32;
    let mut right = reader.sets(count.into(), Seal::AvcSet, names(7))?;
    let count = reader.byte().filter(|count| *count > 0)?;
    right &= reader.sets(count.into(), Seal::AvcSet, names(8))?;
    if reader.rest.is_empty() {
        return Some((reader.seals, right));
    }
    reader.sealed(3, Seal::AvcExtension)?;
    let count = reader.byte()?;
    right &= reader.sets(count.into(), Seal::AvcExtension, names(13))?;
    Some((reader.rest_sealed(Seal::BehindAvc).seals, right))
}

/// With whether every set names the type of its array: in bits 1 to 6 of its first byte.
fn hevc(record: &[u8]) -> Option<(Seals, bool)> {
    let mut reader = Reader::new(record);
    reader.byte().filter(|version| *version == 1)?;
    reader.sealed(21, Seal::HevcHead)?;
    let (mut sequence, mut picture, mut right) = (false, false, true);
    for _ in 0..reader.byte()? {
        let array = reader.byte()? % 64;
        let count = reader.number(2)?;
        right &= reader.sets(count, Seal::HevcSet, |first| first / 2 % 64 == array)?;
        sequence |= array == 33 && count > 0;
        picture |= array == 34 && count > 0;
    }
    (sequence && picture).then(|| (reader.rest_sealed(Seal::BehindHevc).seals, right))
}
