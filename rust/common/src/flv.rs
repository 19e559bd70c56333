//! FLV files as request N3 has them (docs/REQUIREMENTS.md, section 23), read apart from the
//! definitions: what must stand at each place of a file, and what the writer puts there.

use std::iter;
use std::ops::Range;

use crate::requirement::{INPUT_CUT, NOT_FLV, UNKNOWN_FRAME_TYPE, WRONG_BACK_POINTER};
use crate::writing::{Arguments, LONGEST_BODY, METADATA, Reason, length, short};

/// What is written before the first tag: the header and a back-pointer.
pub const START: &[u8; 13] = b"FLV\x01\x05\x00\x00\x00\x09\x00\x00\x00\x00";

/// The lengths of the header, of a tag's head and of a back-pointer.
pub const HEADER: usize = 9;
pub const HEAD: usize = 11;
pub const BACK_POINTER: usize = 4;

/// The type bytes of frames, by the numbers of their frame types.
pub const TYPE_BYTES: [u8; 3] = [8, 9, 18];

/// The byte of the header that is not read.
const FLAGS: usize = 4;

/// What is found where certain bytes must stand.
enum Found {
    Them,
    /// The file ends before the last of them.
    End,
    /// Another byte, the first of them at this number.
    Other(usize),
}

/// Looks for bytes at a place; those that are `None` are not read.
fn look(file: &[u8], at: usize, wanted: &[Option<u8>]) -> Found {
    let Some(there) = file.get(at..).and_then(|rest| rest.get(..wanted.len())) else {
        return Found::End;
    };
    let mut pairs = wanted.iter().zip(there);
    let other = pairs.position(|(wanted, byte)| wanted.is_some_and(|wanted| wanted != *byte));
    other.map_or(Found::Them, Found::Other)
}

fn look_for_back_pointer(file: &[u8], at: usize, number: usize) -> Found {
    look(file, at, &(number as u32).to_be_bytes().map(Some))
}

/// Where the first tag begins.
pub fn start(file: &[u8]) -> Result<usize, Reason> {
    let mut header: Vec<Option<u8>> = START[..HEADER].iter().copied().map(Some).collect();
    header[FLAGS] = None;
    match look(file, 0, &header) {
        Found::Them => {}
        Found::End => return Err((INPUT_CUT, "it ends in the header")),
        Found::Other(..3) => return Err((NOT_FLV, "a wrong signature")),
        Found::Other(3) => return Err((NOT_FLV, "a wrong version")),
        Found::Other(_) => return Err((NOT_FLV, "a wrong data offset")),
    }
    match look_for_back_pointer(file, HEADER, 0) {
        Found::Them => Ok(START.len()),
        Found::End => Err((INPUT_CUT, "it ends in the first back-pointer")),
        Found::Other(_) => Err((WRONG_BACK_POINTER, "a wrong first back-pointer")),
    }
}

/// The front of a tag.
#[derive(Clone, Copy, Debug, PartialEq)]
pub struct Head {
    pub type_byte: u8,
    /// The length of the body.
    pub length: usize,
    pub timestamp: u32,
}

impl Head {
    /// The one that stands whole at this place.
    pub fn at(file: &[u8], at: usize) -> Option<Self> {
        let bytes = file.get(at..)?.first_chunk::<HEAD>()?;
        let [type_byte, a, b, c, high, middle, low, highest, ..] = *bytes;
        Some(Self {
            type_byte,
            length: u32::from_be_bytes([0, a, b, c]) as usize,
            timestamp: u32::from_be_bytes([highest, high, middle, low]),
        })
    }

    /// The frame type, if the tag is a frame and no other tag.
    pub fn frame_type(&self) -> Option<u32> {
        let number = TYPE_BYTES.iter().position(|byte| *byte == self.type_byte);
        number.map(|number| number as u32)
    }
}

/// A tag that stands whole in a file, with its back-pointer.
#[derive(Clone, Copy, Debug, PartialEq)]
pub struct Tag {
    pub head: Head,
    /// Where its body begins.
    pub start: usize,
    /// Where the next one begins.
    pub next: usize,
}

impl Tag {
    pub fn at(file: &[u8], at: usize) -> Result<Self, Reason> {
        let head = Head::at(file, at);
        let head = head.ok_or((INPUT_CUT, "it ends in a tag's head"))?;
        let is_frame = head.frame_type().is_some();
        let named = |number, of_frame, of_other| {
            let name = if is_frame { of_frame } else { of_other };
            Err((number, name))
        };
        let start = at + HEAD;
        let end = start + head.length;
        if end > file.len() {
            return named(
                INPUT_CUT,
                "it ends in a frame's body",
                "it ends in another tag's body",
            );
        }
        match look_for_back_pointer(file, end, HEAD + head.length) {
            Found::Them => Ok(Self {
                head,
                start,
                next: end + BACK_POINTER,
            }),
            Found::End => named(
                INPUT_CUT,
                "it ends in a frame's back-pointer",
                "it ends in another tag's back-pointer",
            ),
            Found::Other(_) => named(
                WRONG_BACK_POINTER,
                "a frame's wrong back-pointer",
                "another tag's wrong back-pointer",
            ),
        }
    }

    pub fn body(&self) -> Range<usize> {
        self.start..self.start + self.head.length
    }
}

/// The tags from a place on, frames and others. A refusal is the last item; where the file ends
/// behind a tag there is none.
pub fn tags(file: &[u8], at: usize) -> impl Iterator<Item = Result<Tag, Reason>> {
    let mut place = Some(at);
    iter::from_fn(move || {
        let tag = Tag::at(file, place.filter(|at| *at != file.len())?);
        place = tag.ok().map(|tag| tag.next);
        Some(tag)
    })
}

/// Of these, the frames and the refusal.
pub fn frames(file: &[u8], at: usize) -> impl Iterator<Item = Result<Tag, Reason>> {
    tags(file, at)
        .filter(|tag| tag.is_ok_and(|tag| tag.head.frame_type().is_some()) || tag.is_err())
}

/// The frames of a whole file and its refusal, that of its start among them.
pub fn whole(file: &[u8]) -> impl Iterator<Item = Result<Tag, Reason>> {
    let (at, refused) = match start(file) {
        Ok(at) => (at, None),
        Err(reason) => (file.len(), Some(Err(reason))),
    };
    refused.into_iter().chain(frames(file, at))
}

/// What stands in bodies from a place on, a body that is cut or refused among them.
pub fn bodies(file: &[u8], at: usize) -> Vec<Range<usize>> {
    let tags: Vec<Tag> = tags(file, at).flatten().collect();
    let reached = tags.last().map_or(at, |tag| tag.next);
    let last = Head::at(file, reached).map(|head| {
        let start = reached + HEAD;
        start..file.len().min(start + head.length)
    });
    tags.iter().map(Tag::body).chain(last).collect()
}

/// Every reason to refuse the start with an output of so many bytes.
pub fn start_reasons(room: usize) -> Vec<Reason> {
    let short = short(room, START.len() as u128);
    short.into_iter().collect()
}

/// The arguments of `hozgrim_flv_write_frame` before the output.
#[derive(Clone, Debug, Default, PartialEq)]
pub struct FrameArguments {
    pub frame_type: u32,
    pub timestamp: u32,
    pub body: Vec<u8>,
}

impl Arguments for FrameArguments {
    fn reasons(&self, room: usize) -> Vec<Reason> {
        let type_name = match self.frame_type {
            ..METADATA => None,
            METADATA => Some("metadata, which no tag holds"),
            _ => Some("a frame type above 3"),
        };
        let judged = [
            type_name.map(|name| (UNKNOWN_FRAME_TYPE, name)),
            length(
                self.body.len() > LONGEST_BODY,
                "a body over 16,777,215 bytes",
            ),
            short(room, self.length()),
        ];
        judged.into_iter().flatten().collect()
    }

    fn length(&self) -> u128 {
        (HEAD + self.body.len() + BACK_POINTER) as u128
    }

    fn written(&self) -> Vec<u8> {
        tag(
            TYPE_BYTES[self.frame_type as usize],
            self.timestamp,
            &self.body,
        )
    }
}

/// A tag as it is written.
pub fn tag(type_byte: u8, timestamp: u32, body: &[u8]) -> Vec<u8> {
    let [highest, times @ ..] = timestamp.to_be_bytes();
    let [_, lengths @ ..] = (body.len() as u32).to_be_bytes();
    let back_pointer = (HEAD + body.len()) as u32;
    let mut tag = Vec::with_capacity(HEAD + body.len() + BACK_POINTER);
    tag.push(type_byte);
    tag.extend(lengths);
    tag.extend(times);
    tag.push(highest);
    tag.extend([0; 3]);
    tag.extend(body);
    tag.extend(back_pointer.to_be_bytes());
    tag
}
