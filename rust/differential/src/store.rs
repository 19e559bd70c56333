//! The store of one route: frames that are offered one after the other, and what a viewer that joins
//! late is sent, beside what the history says. The Rust has no store; of each frame it says what the
//! whole pass must give.

pub mod class;
pub mod frames;
pub mod history;

use common::rng::Rng;
use hozgrim_sys::{HozgrimLate, HozgrimLengths, HozgrimStored, StoreCall};

use crate::input::{Input, lower, parts, with_one_smaller};
use crate::pass::Frame;
use crate::run::{Comparison, Difference, same};
use history::{History, Offer};

/// What stands before and behind each buffer.
const GUARD: u8 = 0xA5;

/// The frames that are asked for a viewer that joins late: one more than there can be, and such as
/// are far beyond, also where their low bits are not.
const NUMBERS: [usize; 6] = [0, 1, 2, 3, 1 << 32, usize::MAX];

/// The slots, in the order of their kinds.
const NAMES: [&str; 3] = ["video", "audio", "keyframe"];

pub struct Store;

impl Comparison for Store {
    const NAME: &'static str = "store";

    const CLASSES: &'static [&'static str] = class::CLASSES;

    const SIDES: [&'static str; 2] = ["requirement", "port"];

    type Input = Sequence;

    fn listed() -> impl Iterator<Item = Sequence> {
        frames::listed()
    }

    fn random(rng: &mut Rng) -> Sequence {
        frames::random(rng)
    }

    fn compare(sequence: &Sequence) -> Result<&'static str, Difference> {
        let offers = sequence.offers();
        let whole = sequence.history(&offers);
        let mut lent = Lent::new(&sequence.slots);
        same((0, whole.first(0).state()), (0, lent.state()))?;
        for (frame, number) in sequence.frames.iter().zip(1..) {
            let history = whole.first(number);
            let answer = history.last_answer();
            same((number, answer), (number, Some(lent.offer(frame))))?;
            same((number, history.state()), (number, lent.state()))?;
        }
        Ok(class::class(&whole))
    }
}

/// A slot of the store: its buffer, and its length in the record, which may be past the buffer.
#[derive(Clone)]
pub struct Slot {
    pub buffer: Vec<u8>,
    pub length: usize,
}

impl Slot {
    /// What the slot holds, if it is not empty.
    pub fn held(&self) -> Option<&[u8]> {
        let held = self.buffer.get(..self.length);
        held.filter(|held| !held.is_empty())
    }

    /// The buffer between two bytes that are not lent.
    fn memory(&self) -> Vec<u8> {
        guarded(self.buffer.iter().copied())
    }
}

impl Input for Slot {
    fn smaller(&self) -> impl Iterator<Item = Self> {
        let lengths = lower(self.length as u64).map(|length| Self {
            length: length as usize,
            ..self.clone()
        });
        let buffers = self.buffer.smaller();
        let buffers = buffers.map(|buffer| Self { buffer, ..*self });
        lengths.chain(buffers)
    }

    fn show(&self) -> String {
        format!("length {} in {}", self.length, self.buffer.show())
    }
}

/// A store, and the frames that are offered to it.
#[derive(Clone)]
pub struct Sequence {
    /// Those of video header, audio header and keyframe.
    pub slots: [Slot; 3],
    pub frames: Vec<Frame>,
}

impl Sequence {
    /// What the whole pass gives for each frame, by the Rust.
    pub fn offers(&self) -> Vec<Offer<'_>> {
        self.frames.iter().map(Offer::new).collect()
    }

    pub fn history<'a>(&'a self, offers: &'a [Offer<'a>]) -> History<'a> {
        History {
            start: &self.slots,
            offers,
        }
    }
}

impl Input for Sequence {
    fn smaller(&self) -> impl Iterator<Item = Self> {
        let fewer = parts(self.frames.len()).map(|part| {
            let mut fewer = self.clone();
            fewer.frames.drain(part);
            fewer
        });
        let slots = with_one_smaller(&self.slots).map(|slots| Self {
            slots,
            frames: self.frames.clone(),
        });
        let frames = with_one_smaller(&self.frames).map(|frames| Self {
            frames,
            slots: self.slots.clone(),
        });
        fewer.chain(slots).chain(frames)
    }

    fn show(&self) -> String {
        let slots = NAMES.iter().zip(&self.slots);
        let slots = slots.map(|(name, slot)| format!("\n    {name} slot: {}", slot.show()));
        let frames = self.frames.iter().zip(1..);
        let frames =
            frames.map(|(frame, number)| format!("\n    frame {number}: {}", frame.show()));
        let lines: String = slots.chain(frames).collect();
        format!("{} frames{lines}", self.frames.len())
    }
}

/// What a call answers, and the output afterwards, between two bytes that were not lent.
#[derive(Debug, PartialEq)]
pub struct Answer {
    pub stored: HozgrimStored,
    pub output: Vec<u8>,
}

/// The store after a call, each buffer between two bytes that were not lent; and what is answered
/// for each frame that a viewer that joins late asks for, with its bytes.
#[derive(Debug, PartialEq)]
pub struct State<'a> {
    pub lengths: HozgrimLengths,
    pub buffers: [Vec<u8>; 3],
    pub late: [(HozgrimLate, &'a [u8]); NUMBERS.len()],
}

/// The store as it is lent to the port. Each buffer stands between two bytes that are not.
struct Lent {
    lengths: HozgrimLengths,
    buffers: [Vec<u8>; 3],
}

impl Lent {
    fn new(slots: &[Slot; 3]) -> Self {
        Self {
            lengths: record(slots.each_ref().map(|slot| slot.length)),
            buffers: slots.each_ref().map(Slot::memory),
        }
    }

    fn offer(&mut self, frame: &Frame) -> Answer {
        let Frame { lent, flag } = frame;
        let mut output = lent.memory();
        let call = StoreCall {
            frame_type: lent.frame_type,
            payload: &lent.payload,
            caps_ex_mask: lent.mask,
            route_has_video: *flag,
        };
        let buffers = self.buffers.each_mut().map(|memory| {
            let end = memory.len() - 1;
            &mut memory[1..end]
        });
        let output_lent = &mut output[1..=lent.room];
        let stored = hozgrim_sys::store_frame(&mut self.lengths, &call, output_lent, buffers);
        Answer { stored, output }
    }

    fn state(&self) -> State<'_> {
        let buffers = self.buffers.each_ref().map(|memory| lent_part(memory));
        let late = NUMBERS.map(|number| {
            let late = hozgrim_sys::late(self.lengths, buffers, number);
            let buffer = buffers.get((late.kind as usize).wrapping_sub(1));
            let bytes = buffer.and_then(|buffer| buffer.get(..late.length));
            (late, bytes.unwrap_or_default())
        });
        State {
            lengths: self.lengths,
            buffers: self.buffers.clone(),
            late,
        }
    }
}

fn record(lengths: [usize; 3]) -> HozgrimLengths {
    let [video, audio, keyframe] = lengths;
    HozgrimLengths {
        video,
        audio,
        keyframe,
    }
}

/// The bytes of a buffer between two that are not lent.
fn guarded(bytes: impl Iterator<Item = u8>) -> Vec<u8> {
    [GUARD].into_iter().chain(bytes).chain([GUARD]).collect()
}

/// All but the two bytes that are not lent.
pub fn lent_part(memory: &[u8]) -> &[u8] {
    &memory[1..memory.len() - 1]
}
