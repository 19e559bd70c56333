//! The whole pass without a copy: its report, where the result starts, and each byte of the payload
//! afterwards. Beside it runs the pass that copies.

pub mod class;
pub mod frames;

use std::borrow::Cow;

use common::rng::Rng;
use hozgrim_sys::{HozgrimPlaced, HozgrimReport};

use crate::input::Input;
use crate::modex;
use crate::pass::{Frame, Passed};
use crate::run::{Comparison, Difference, same};

/// What stands before and behind the payload, and fills the output beside it.
const FILLING: u8 = 0xA5;

pub struct PassInPlace;

impl Comparison for PassInPlace {
    const NAME: &'static str = "pass_in_place";

    const CLASSES: &'static [&'static str] = class::CLASSES;

    type Input = InPlace;

    fn listed() -> impl Iterator<Item = InPlace> {
        frames::listed()
    }

    fn random(rng: &mut Rng) -> InPlace {
        frames::random(rng)
    }

    fn compare(InPlace(frame): &InPlace) -> Result<&'static str, Difference> {
        let result = frame.lent.result();
        let result = result.as_ref();
        let passed = same(Passed::of_rust(frame, result), Passed::of_port(frame))?;
        let report = passed.report;
        let placed = Placed::of_rust(frame, report, result);
        let placed = same(placed, Placed::of_port(frame))?;
        // Of a refused frame there is none.
        let bytes = result.filter(|_| report.error == 0);
        let bytes = bytes.map_or(&[][..], |result| result);
        same([bytes; 2], [passed.result(), placed.result()])?;
        Ok(class::class(&frame.lent, result, &report))
    }
}

/// A frame whose payload is lent. The output is that of the pass that copies, and as long.
#[derive(Clone, PartialEq)]
pub struct InPlace(pub Frame);

impl InPlace {
    pub fn new(frame: Frame) -> Self {
        let Frame { lent, flag } = frame;
        Self(Frame {
            lent: modex::Frame {
                room: lent.payload.len(),
                filling: FILLING,
                ..lent
            },
            flag,
        })
    }
}

impl Input for InPlace {
    /// None of them has an output of another length.
    fn smaller(&self) -> impl Iterator<Item = Self> {
        let smaller = self.0.smaller();
        let smaller = smaller.filter(|frame| frame.lent.room == frame.lent.payload.len());
        smaller.map(Self)
    }

    fn show(&self) -> String {
        self.0.show()
    }
}

/// What the whole pass without a copy gives, and the payload afterwards, between two bytes that were
/// not lent.
#[derive(Debug, PartialEq)]
pub struct Placed {
    pub placed: HozgrimPlaced,
    pub memory: Vec<u8>,
}

impl Placed {
    /// Of a frame with this report, and this result of the Rust, of which all but byte 0 stands at
    /// the payload's end already.
    pub fn of_rust(frame: &Frame, report: HozgrimReport, result: Option<&Cow<'_, [u8]>>) -> Self {
        let mut memory = lent_memory(frame);
        let start = match (report.error, result) {
            (0, Some(Cow::Owned(result))) => {
                let start = frame.lent.payload.len() - result.len();
                memory[1 + start] = result[0];
                start
            }
            _ => 0,
        };
        Self {
            placed: HozgrimPlaced { report, start },
            memory,
        }
    }

    pub fn of_port(frame: &Frame) -> Self {
        let Frame { lent, flag } = frame;
        let mut memory = lent_memory(frame);
        let payload = &mut memory[1..=lent.payload.len()];
        let placed = hozgrim_sys::pass_in_place(lent.frame_type, payload, lent.mask, *flag);
        Self { placed, memory }
    }

    /// What the payload holds there afterwards.
    fn result(&self) -> &[u8] {
        let HozgrimPlaced { report, start } = self.placed;
        &self.memory[1 + start..][..report.result_length]
    }
}

/// The payload between two bytes that are not lent.
pub fn lent_memory(frame: &Frame) -> Vec<u8> {
    let modex::Frame {
        payload, filling, ..
    } = &frame.lent;
    [&[*filling], &payload[..], &[*filling]].concat()
}
