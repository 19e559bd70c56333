//! Tracks in columns: containers walked into columns, and tracks read from columns, those that a walk
//! left and others. The Rust has no columns. It says which tracks a container has, and request N9
//! what the columns then hold, and what is read from any.

pub mod class;
pub mod examples;
pub mod lent;
pub mod reading;

use common::rng::Rng;
use hozgrim_sys::{ColumnsCall, ColumnsMut, ContainerCall, HozgrimColumns, HozgrimTrack};

use crate::containers::{Candidate, Tracks, by_number};
use crate::input::Input;
use crate::pass::Seen;
use crate::run::{Comparison, Difference, same};
use crate::writing::{fewer, lower_column, lower_number, smaller_bytes, take_out};

/// What every byte of an entry is before columns of a stored case are lent.
const FILLING: u8 = 0xA5;

/// Up to this one all numbers are asked for by walking.
const FEW: usize = 8;

pub struct Columns;

impl Comparison for Columns {
    const NAME: &'static str = "columns";

    const CLASSES: &'static [&'static str] = class::CLASSES;

    const SIDES: [&'static str; 2] = ["requirement", "port"];

    type Input = Asked;

    fn listed() -> impl Iterator<Item = Asked> {
        lent::listed()
    }

    fn random(rng: &mut Rng) -> Asked {
        lent::random(rng)
    }

    fn compare(asked: &Asked) -> Result<&'static str, Difference> {
        match asked {
            Asked::Walk(walk) => walk.compare(),
            Asked::Read(read) => read.compare(),
        }
    }
}

/// What is asked: a walk into columns, or a track read from columns.
#[derive(Clone)]
pub enum Asked {
    Walk(Walk),
    Read(Read),
}

impl Input for Asked {
    fn smaller(&self) -> impl Iterator<Item = Self> {
        let (walk, read) = match self {
            Self::Walk(walk) => (Some(walk), None),
            Self::Read(read) => (None, Some(read)),
        };
        let walks = walk.into_iter().flat_map(Walk::smaller).map(Self::Walk);
        let reads = read.into_iter().flat_map(Read::smaller).map(Self::Read);
        walks.chain(reads)
    }

    fn show(&self) -> String {
        match self {
            Self::Walk(walk) => walk.show(),
            Self::Read(read) => read.show(),
        }
    }
}

/// Columns: entry n of each belongs to track n.
#[derive(Clone, Debug, Default, PartialEq)]
pub struct Entries {
    pub ids: Vec<u8>,
    pub fourccs: Vec<u32>,
    pub starts: Vec<usize>,
    pub lengths: Vec<usize>,
}

impl Entries {
    /// Columns of these lengths, in the order ids, FourCCs, starts, lengths. No entry is like the
    /// next.
    fn numbered(lengths: [usize; 4]) -> Self {
        let number = |at: usize| (at + 1).wrapping_mul(0xA5B7_C9DB_EDFF_1223);
        let [ids, fourccs, starts, bodies] = lengths;
        Self {
            ids: (0..ids).map(|at| number(at) as u8).collect(),
            fourccs: (0..fourccs).map(|at| number(at) as u32).collect(),
            starts: (0..starts).map(number).collect(),
            lengths: (0..bodies).map(|at| !number(at)).collect(),
        }
    }

    /// Columns of these lengths, as those of the stored cases are lent.
    pub fn filled(lengths: [usize; 4]) -> Self {
        let [ids, fourccs, starts, bodies] = lengths;
        let place = usize::from_be_bytes([FILLING; 8]);
        Self {
            ids: vec![FILLING; ids],
            fourccs: vec![u32::from_be_bytes([FILLING; 4]); fourccs],
            starts: vec![place; starts],
            lengths: vec![place; bodies],
        }
    }

    /// How many entries each column has.
    pub fn rooms(&self) -> [usize; 4] {
        [
            self.ids.len(),
            self.fourccs.len(),
            self.starts.len(),
            self.lengths.len(),
        ]
    }

    /// The entries of this place.
    fn at(&self, place: usize) -> Places {
        (
            self.ids.get(place).copied(),
            self.fourccs.get(place).copied(),
            self.starts.get(place).copied(),
            self.lengths.get(place).copied(),
        )
    }

    /// With these entries in the place of those that each column has from `at` on.
    pub fn with(mut self, at: usize, others: &Self) -> Self {
        let places = |count| at..at + count;
        let [ids, fourccs, starts, lengths] = others.rooms().map(places);
        self.ids[ids].copy_from_slice(&others.ids);
        self.fourccs[fourccs].copy_from_slice(&others.fourccs);
        self.starts[starts].copy_from_slice(&others.starts);
        self.lengths[lengths].copy_from_slice(&others.lengths);
        self
    }

    /// The first place whose entries differ, with what both have there.
    fn first_difference(&self, other: &Self) -> [Option<(usize, Places)>; 2] {
        let most = self.rooms().into_iter().max().unwrap_or(0);
        let place = (0..most).find(|&place| self.at(place) != other.at(place));
        [self, other].map(|of| place.map(|place| (place, of.at(place))))
    }
}

/// An entry of each column, of those that have one.
type Places = (Option<u8>, Option<u32>, Option<usize>, Option<usize>);

/// Columns as they are lent. Each stands between two entries that are not.
struct Lent {
    memory: Entries,
    rooms: [usize; 4],
}

impl Lent {
    fn new(rooms: [usize; 4]) -> Self {
        Self {
            memory: Entries::numbered(rooms.map(|room| room + 2)),
            rooms,
        }
    }

    fn walk(&mut self, frame_type: u32, payload: &[u8]) -> HozgrimColumns {
        let [ids, fourccs, starts, lengths] = self.rooms;
        let columns = ColumnsMut {
            ids: &mut self.memory.ids[1..=ids],
            fourccs: &mut self.memory.fourccs[1..=fourccs],
            starts: &mut self.memory.starts[1..=starts],
            lengths: &mut self.memory.lengths[1..=lengths],
        };
        hozgrim_sys::walk_columns(frame_type, payload, columns)
    }

    /// The columns with this count and the payload, to be read from.
    fn call<'a>(&'a self, count: usize, frame_type: u32, payload: &'a [u8]) -> ColumnsCall<'a> {
        let [ids, fourccs, starts, lengths] = self.rooms;
        ColumnsCall {
            frame_type,
            count,
            ids: &self.memory.ids[1..=ids],
            fourccs: &self.memory.fourccs[1..=fourccs],
            starts: &self.memory.starts[1..=starts],
            lengths: &self.memory.lengths[1..=lengths],
            payload,
        }
    }
}

/// What the port answers to a walk into columns with so many entries each, what these then hold, and
/// each track that is read from them.
pub fn of_port(
    frame_type: u32,
    payload: &[u8],
    room: usize,
) -> (HozgrimColumns, Entries, Vec<HozgrimTrack>) {
    let mut lent = Lent::new([room; 4]);
    let answer = lent.walk(frame_type, payload);
    let call = lent.call(answer.count, frame_type, payload);
    let read = (0..=room).map(|number| hozgrim_sys::column_track(&call, number));
    let read = read.collect();
    (answer, lent.memory, read)
}

/// A payload that is walked into columns of these lengths, in the order ids, FourCCs, starts,
/// lengths.
#[derive(Clone)]
pub struct Walk {
    pub candidate: Candidate,
    pub rooms: [usize; 4],
}

impl Walk {
    fn compare(&self) -> Result<&'static str, Difference> {
        let Self { candidate, rooms } = self;
        let tracks = candidate.tracks();
        let (expected, written) = reading::walked(&tracks, candidate.payload.len(), *rooms);
        let mut lent = Lent::new(*rooms);
        let memory = Lent::new(*rooms).memory.with(1, &written);
        let answer = lent.walk(candidate.frame_type, &candidate.payload);
        let [asked, found] = memory.first_difference(&lent.memory);
        same((expected, asked), (answer, found))?;
        let call = lent.call(answer.count, candidate.frame_type, &candidate.payload);
        same_by_number(&call, &tracks, expected.error)?;
        if expected.error == 0 {
            same_written(&call)?;
        }
        Ok(class::of_walk(self, &tracks, &expected))
    }
}

/// Holds each track that is read from columns, as a walk left them, against the Rust's, and some of
/// them against those that the port finds by walking. After a refused walk nothing is read.
fn same_by_number(call: &ColumnsCall, tracks: &Tracks, error: i32) -> Result<(), Difference> {
    let read = |number| hozgrim_sys::column_track(call, number);
    if error != 0 {
        let refused = |_| reading::refused(call.frame_type, 0);
        let numbers = [0, 1, usize::MAX];
        same(by_number(&numbers, refused), by_number(&numbers, read))?;
        return Ok(());
    }
    let seen = Seen::new(call.frame_type, call.payload, 0);
    for number in 0..tracks.as_ref().map_or(0, Vec::len) {
        same((number, seen.track(number)), (number, read(number)))?;
    }
    let numbers = asked(call.count);
    let walked = |number| hozgrim_sys::track(call.frame_type, call.payload, number);
    let expected = by_number(&numbers, |number| seen.track(number));
    let by_walking = same(expected, by_number(&numbers, walked))?;
    same(by_walking, by_number(&numbers, read))?;
    Ok(())
}

/// The first numbers, those in the middle and at the end, and numbers beyond.
fn asked(count: usize) -> Vec<usize> {
    let mut numbers: Vec<usize> = (0..=FEW).collect();
    let far = [count / 2, count - 1, count, count + 1, 1 << 32, usize::MAX];
    numbers.extend(far);
    numbers.extend(count.checked_sub(2));
    numbers
}

/// Holds what is written from the columns, with the payload as bodies, against the payload.
fn same_written(call: &ColumnsCall) -> Result<(), Difference> {
    let [first, second, ..] = *call.payload else {
        panic!("a container has two bytes");
    };
    let head = ContainerCall {
        frame_type: call.frame_type,
        video_frame_type: u32::from(first) >> 4 & 7,
        form: u32::from(second) >> 4,
        packet_type: u32::from(second) & 0x0F,
        count: call.count,
        ids: call.ids,
        fourccs: call.fourccs,
        starts: call.starts,
        lengths: call.lengths,
        bodies: call.payload,
    };
    // No byte is right before it is written.
    let mut output: Vec<u8> = call.payload.iter().map(|byte| !byte).collect();
    let written = hozgrim_sys::write_container(&head, &mut output);
    let other = (0..output.len()).find(|&at| output[at] != call.payload[at]);
    let byte_of = |bytes: &[u8]| other.map(|at| (at, bytes[at]));
    let expected = (0, call.payload.len(), byte_of(call.payload));
    same(expected, (written.error, written.length, byte_of(&output)))?;
    Ok(())
}

impl Input for Walk {
    fn smaller(&self) -> impl Iterator<Item = Self> {
        let payloads = smaller_bytes(self, &self.candidate.payload, |walk| {
            &mut walk.candidate.payload
        });
        let rooms = lower_number(self, |walk| &mut walk.rooms[0])
            .chain(lower_number(self, |walk| &mut walk.rooms[1]))
            .chain(lower_number(self, |walk| &mut walk.rooms[2]))
            .chain(lower_number(self, |walk| &mut walk.rooms[3]));
        payloads
            .chain(lower_number(self, |walk| &mut walk.candidate.frame_type))
            .chain(rooms)
    }

    fn show(&self) -> String {
        let (rooms, candidate) = (self.rooms, self.candidate.show());
        format!("a walk, columns of {rooms:?}, {candidate}")
    }
}

/// The number of `Opus`.
const OPUS: u32 = 0x4F70_7573;

/// A track of this number, read from columns, with a count and a payload.
#[derive(Clone)]
pub struct Read {
    pub frame_type: u32,
    pub count: usize,
    pub columns: Entries,
    pub payload: Vec<u8>,
    pub number: usize,
}

impl Read {
    /// The first track of columns that have one, of `Opus` and of this place.
    pub fn first(frame_type: u32, payload: &[u8], start: usize, length: usize) -> Self {
        Self {
            frame_type,
            count: 1,
            columns: Entries {
                ids: vec![7],
                fourccs: vec![OPUS],
                starts: vec![start],
                lengths: vec![length],
            },
            payload: payload.to_vec(),
            number: 0,
        }
    }

    fn compare(&self) -> Result<&'static str, Difference> {
        let expected = self.asked();
        same(expected, self.of_port())?;
        Ok(class::of_read(self, &expected))
    }

    /// What the request asks for.
    pub fn asked(&self) -> HozgrimTrack {
        reading::read(self)
    }

    /// Behind each column stand entries that are not lent, of tracks that could be read.
    fn of_port(&self) -> HozgrimTrack {
        let Entries {
            mut ids,
            mut fourccs,
            mut starts,
            mut lengths,
        } = self.columns.clone();
        let rooms = self.columns.rooms();
        ids.extend([0; 2]);
        fourccs.extend([0; 2]);
        starts.extend([0; 2]);
        lengths.extend([0; 2]);
        let call = ColumnsCall {
            frame_type: self.frame_type,
            count: self.count,
            ids: &ids[..rooms[0]],
            fourccs: &fourccs[..rooms[1]],
            starts: &starts[..rooms[2]],
            lengths: &lengths[..rooms[3]],
            payload: &self.payload,
        };
        hozgrim_sys::column_track(&call, self.number)
    }
}

impl Input for Read {
    fn smaller(&self) -> impl Iterator<Item = Self> {
        let most = self.columns.rooms().into_iter().max().unwrap_or(0);
        let fewer = fewer(self, most, |read, part| {
            take_out(&mut read.columns.ids, &part);
            take_out(&mut read.columns.fourccs, &part);
            take_out(&mut read.columns.starts, &part);
            take_out(&mut read.columns.lengths, &part);
        });
        let numbers = lower_number(self, |read| &mut read.frame_type)
            .chain(lower_number(self, |read| &mut read.count))
            .chain(lower_number(self, |read| &mut read.number));
        let columns = lower_column(self, |read| &mut read.columns.ids)
            .chain(lower_column(self, |read| &mut read.columns.fourccs))
            .chain(lower_column(self, |read| &mut read.columns.starts))
            .chain(lower_column(self, |read| &mut read.columns.lengths));
        let payloads = smaller_bytes(self, &self.payload, |read| &mut read.payload);
        fewer.chain(numbers).chain(columns).chain(payloads)
    }

    fn show(&self) -> String {
        let Entries {
            ids,
            fourccs,
            starts,
            lengths,
        } = &self.columns;
        format!(
            "a reading, frame type {}, count {}, number {}, ids {ids:?}, FourCCs {fourccs:X?}, \
             starts {starts:?}, lengths {lengths:?}, payload of {}",
            self.frame_type,
            self.count,
            self.number,
            self.payload.show()
        )
    }
}
