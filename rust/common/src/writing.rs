//! What docs/REQUIREMENTS.md asks of the writers, read apart from the definitions: which calls are
//! refused, why, and what the others write.

use crate::containers::{self, FORMS, Track, container};
use crate::layers::{Form, MODEX, layer};
use crate::naming::own_packet_type;
use crate::requirement::{
    BAD_LENGTH, BAD_VALUE, OUT_OF_BOUNDS, OUTPUT_TOO_SHORT, UNKNOWN_FRAME_TYPE,
};

/// The numbers of the frame types.
pub const AUDIO: u32 = 0;
pub const VIDEO: u32 = 1;
pub const SCRIPT: u32 = 2;
pub const METADATA: u32 = 3;

/// The numbers of the forms.
pub const ONE_TRACK: u32 = 0;
pub const MANY_TRACKS: u32 = 1;
pub const MANY_TRACKS_MANY_CODECS: u32 = 2;

/// The most tracks, and the most layers.
pub const MOST_TRACKS: usize = 4_096;
pub const MOST_LAYERS: usize = 32;

/// The longest body that a length is written for, and the most data bytes of a layer.
pub const LONGEST_BODY: usize = 16_777_215;
pub const MOST_DATA: usize = 65_536;

/// The most data bytes that are written with one size byte.
pub const SHORT_SIZE: usize = 255;

/// No output is longer than this, and one that need not be long is as long as that.
const MOST_ROOM: usize = 1 << 25;
const SHORT_ROOM: usize = 64;

/// The numbers of refusals in the order in which they are judged.
pub const ORDER: [i32; 5] = [
    UNKNOWN_FRAME_TYPE,
    OUT_OF_BOUNDS,
    BAD_LENGTH,
    BAD_VALUE,
    OUTPUT_TOO_SHORT,
];

/// A reason to refuse a call: the number of the refusal, and a name.
pub type Reason = (i32, &'static str);

/// A reason, if it holds.
pub(crate) type Judged = Option<Reason>;

pub(crate) fn unknown(frame_type: u32) -> Judged {
    (frame_type > METADATA).then_some((UNKNOWN_FRAME_TYPE, "a frame type above 3"))
}

fn out(holds: bool, name: &'static str) -> Judged {
    holds.then_some((OUT_OF_BOUNDS, name))
}

pub(crate) fn length(holds: bool, name: &'static str) -> Judged {
    holds.then_some((BAD_LENGTH, name))
}

fn value(holds: bool, name: &'static str) -> Judged {
    holds.then_some((BAD_VALUE, name))
}

pub(crate) fn short(room: usize, length: u128) -> Judged {
    ((room as u128) < length).then_some((OUTPUT_TOO_SHORT, "too short an output"))
}

/// The error of a call that there are these reasons to refuse.
pub fn error(reasons: &[Reason]) -> i32 {
    let holds = |number: &i32| reasons.iter().any(|(of, _)| of == number);
    ORDER.into_iter().find(holds).unwrap_or(0)
}

/// The arguments of a writer before the output.
pub trait Arguments: Clone {
    /// Every reason to refuse the call with an output of so many bytes.
    fn reasons(&self, room: usize) -> Vec<Reason>;

    /// How many bytes would be written, by what the columns have.
    fn length(&self) -> u128;

    /// What a call that is not refused writes.
    fn written(&self) -> Vec<u8>;

    /// The length of an output that is exactly long enough. A call that would write far more is
    /// refused before that is judged, so its output is short.
    fn exact_room(&self) -> usize {
        let length = usize::try_from(self.length());
        let length = length.ok().filter(|length| *length <= MOST_ROOM);
        length.unwrap_or(SHORT_ROOM)
    }
}

/// Parts of one lent string, in columns.
#[derive(Clone, Debug, Default, PartialEq)]
pub struct Parts {
    pub starts: Vec<usize>,
    pub lengths: Vec<usize>,
    pub lent: Vec<u8>,
}

impl Parts {
    /// Start and length of the first `count`, as far as both columns have them.
    pub fn places(&self, count: usize) -> impl Iterator<Item = (usize, usize)> {
        let starts = self.starts.iter().copied();
        starts.zip(self.lengths.iter().copied()).take(count)
    }

    /// The first `count`, none of which leaves what was lent.
    pub fn bytes(&self, count: usize) -> impl Iterator<Item = &[u8]> {
        let part = |(start, length)| &self.lent[start..start + length];
        self.places(count).map(part)
    }

    /// One more, behind all that is lent.
    pub fn push(&mut self, part: &[u8]) {
        self.starts.push(self.lent.len());
        self.lengths.push(part.len());
        self.lent.extend(part);
    }

    /// Whether a length among the first `count` is so.
    fn any_length(&self, count: usize, is: impl Fn(usize) -> bool) -> bool {
        let mut lengths = self.lengths.iter().take(count);
        lengths.any(|length| is(*length))
    }

    /// The sum over the lengths of the first `count`.
    fn sum(&self, count: usize, of: impl Fn(usize) -> u128) -> u128 {
        let lengths = self.lengths.iter().take(count);
        lengths.map(|length| of(*length)).sum()
    }

    /// What is out of bounds of so many.
    fn reasons(&self, count: usize) -> [Judged; 5] {
        let end = |(start, length): (usize, usize)| start.checked_add(length);
        let past = |place| end(place).is_some_and(|end| end > self.lent.len());
        let is_empty = |(_, length)| length == 0;
        let any = |is: &dyn Fn((usize, usize)) -> bool| self.places(count).any(is);
        let leaves = any(&|place| past(place) && !is_empty(place));
        let empty = any(&|place| past(place) && is_empty(place));
        let beyond = any(&|place| end(place).is_none());
        [
            out(self.starts.len() < count, "too few starts"),
            out(self.lengths.len() < count, "too few lengths"),
            out(leaves, "a part that leaves what was lent"),
            out(empty, "an empty part past the end"),
            out(beyond, "a part that ends at 2^64 or past it"),
        ]
    }
}

/// Of `hozgrim_write_container`.
#[derive(Clone, Debug, Default, PartialEq)]
pub struct ContainerArguments {
    pub frame_type: u32,
    pub video_frame_type: u32,
    pub form: u32,
    pub packet_type: u32,
    pub count: usize,
    pub ids: Vec<u8>,
    pub fourccs: Vec<u32>,
    pub bodies: Parts,
}

impl ContainerArguments {
    /// The tracks of a call that is not refused.
    pub fn tracks(&self) -> Vec<Track> {
        let heads = self.ids.iter().zip(&self.fourccs);
        let tracks = heads.zip(self.bodies.bytes(self.count));
        let track = |((id, fourcc), body): ((&u8, &u32), &[u8])| Track {
            id: *id,
            fourcc: fourcc.to_be_bytes(),
            body: body.to_vec(),
        };
        tracks.map(track).collect()
    }

    /// Whether the FourCCs of the tracks differ.
    pub fn unequal_fourccs(&self) -> bool {
        let mut fourccs = self.fourccs.iter().take(self.count);
        let first = fourccs.next();
        fourccs.any(|fourcc| Some(fourcc) != first)
    }

    /// Whether the form is one that has a length before each body.
    fn has_lengths(&self) -> bool {
        [MANY_TRACKS, MANY_TRACKS_MANY_CODECS].contains(&self.form)
    }

    fn out_of_bounds(&self) -> impl Iterator<Item = Judged> {
        let (form, count) = (self.form, self.count);
        let own = [
            out(form > MANY_TRACKS_MANY_CODECS, "a form above 2"),
            out(form <= MANY_TRACKS_MANY_CODECS && count == 0, "no track"),
            out(form == ONE_TRACK && count > 1, "two tracks in OneTrack"),
            out(
                self.has_lengths() && count > MOST_TRACKS,
                "over 4,096 tracks",
            ),
            out(self.ids.len() < count, "too few ids"),
            out(self.fourccs.len() < count, "too few FourCCs"),
        ];
        own.into_iter().chain(self.bodies.reasons(count))
    }

    fn bad_values(&self) -> [Judged; 7] {
        let video = self.frame_type == VIDEO;
        let unequal = self.form == MANY_TRACKS && self.unequal_fourccs();
        let own = own_packet_type(self.frame_type).map(u32::from) == Some(self.packet_type);
        [
            value(self.frame_type == SCRIPT, "a container of script data"),
            value(self.frame_type == METADATA, "a container of metadata"),
            value(unequal, "unequal FourCCs in ManyTracks"),
            value(
                video && (self.video_frame_type == 5 || self.video_frame_type > 7),
                "a video frame type of 5 or above 7",
            ),
            value(self.packet_type > 15, "a packet type above 15"),
            value(own && !video, "an audio container that names itself"),
            value(own && video, "a video container that names itself"),
        ]
    }
}

impl Arguments for ContainerArguments {
    fn reasons(&self, room: usize) -> Vec<Reason> {
        let is_long = |length| self.has_lengths() && length > LONGEST_BODY;
        let long = self.bodies.any_length(self.count, is_long);
        let judged = [
            unknown(self.frame_type),
            length(long, "a body over 16,777,215 bytes"),
            short(room, self.length()),
        ];
        let judged = judged.into_iter().chain(self.out_of_bounds());
        judged.chain(self.bad_values()).flatten().collect()
    }

    fn length(&self) -> u128 {
        let (head, track_head) = match self.form {
            ONE_TRACK => (6, 1),
            MANY_TRACKS => (6, 4),
            _ => (2, 8),
        };
        head + self
            .bodies
            .sum(self.count, |body| track_head + body as u128)
    }

    fn written(&self) -> Vec<u8> {
        let first = match self.frame_type {
            VIDEO => 0x86 | (self.video_frame_type as u8) << 4,
            _ => containers::AUDIO,
        };
        let form = FORMS[self.form as usize];
        container(first, form, self.packet_type as u8, &self.tracks())
    }
}

/// Of `hozgrim_write_modex`.
#[derive(Clone, Debug, Default, PartialEq)]
pub struct ModexArguments {
    pub frame_type: u32,
    pub count: usize,
    pub types: Vec<u8>,
    pub data: Parts,
    pub payload: Vec<u8>,
}

impl ModexArguments {
    /// Type and data of the layers of a call that is not refused, the outermost first.
    pub fn layers(&self) -> impl Iterator<Item = (u8, &[u8])> {
        let types = self.types.iter().copied();
        types.zip(self.data.bytes(self.count))
    }

    fn out_of_bounds(&self) -> impl Iterator<Item = Judged> {
        let own = [
            out(self.count == 0, "no layer"),
            out(self.count > MOST_LAYERS, "over 32 layers"),
            out(self.types.len() < self.count, "too few types"),
        ];
        own.into_iter().chain(self.data.reasons(self.count))
    }

    fn bad_values(&self) -> [Judged; 5] {
        let mut types = self.types.iter().take(self.count);
        let first = self.payload.first();
        let begins = |is: fn(u8) -> bool| first.is_some_and(|first| is(*first));
        let not_nine = self.frame_type == AUDIO && begins(|first| first >> 4 != 9);
        [
            value(types.any(|number| *number > 15), "a layer's type above 15"),
            value(first.is_none(), "an empty payload"),
            value(begins(|first| first & 0x80 == 0), "a payload without bit 7"),
            value(
                begins(|first| first & 0x0F == MODEX),
                "a payload of low nibble 7",
            ),
            value(not_nine, "an audio payload without high nibble 9"),
        ]
    }
}

impl Arguments for ModexArguments {
    fn reasons(&self, room: usize) -> Vec<Reason> {
        let any_length = |is: fn(usize) -> bool| self.data.any_length(self.count, is);
        let judged = [
            unknown(self.frame_type),
            length(any_length(|data| data == 0), "a layer without data"),
            length(
                any_length(|data| data > MOST_DATA),
                "over 65,536 data bytes",
            ),
            short(room, self.length()),
        ];
        let judged = judged.into_iter().chain(self.out_of_bounds());
        judged.chain(self.bad_values()).flatten().collect()
    }

    fn length(&self) -> u128 {
        let layer = |data: usize| (if data > SHORT_SIZE { 4 } else { 2 }) + data as u128;
        self.data.sum(self.count, layer) + self.payload.len() as u128
    }

    fn written(&self) -> Vec<u8> {
        let (first, behind) = self.payload.split_first().expect("it is not empty");
        let mut written = vec![first & 0xF0 | MODEX];
        for (number, (modex_type, data)) in self.layers().enumerate() {
            let last = number + 1 == self.count;
            let next = if last { first & 0x0F } else { MODEX };
            let form = if data.len() > SHORT_SIZE {
                Form::Long
            } else {
                Form::Short
            };
            written.extend(layer(form, data, modex_type << 4 | next));
        }
        written.extend(behind);
        written
    }
}
