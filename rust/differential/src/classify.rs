//! `classify_cache_frame` and `DeliveryHint::classify`. A frame that would start a sequence, if a
//! set did not name another type than its list, is held against request N7.

mod class;
pub mod frames;

use common::requirement::UNKNOWN_FRAME_TYPE;
use common::rng::Rng;
use sheet_check::starts::{is_left_out, kind_and_hint};

use crate::containers::Candidate;
use crate::input::{Input, lower};
use crate::leaf::{self, LeafNumber};
use crate::run::{Comparison, Difference, same};

pub struct Classify;

impl Comparison for Classify {
    const NAME: &'static str = "classify";

    const CLASSES: &'static [&'static str] = class::CLASSES;

    type Input = Frame;

    fn listed() -> impl Iterator<Item = Frame> {
        frames::listed()
    }

    fn random(rng: &mut Rng) -> Frame {
        frames::random(rng)
    }

    fn compare(frame: &Frame) -> Result<&'static str, Difference> {
        let answers = same(Answers::expected(frame), Answers::of_port(frame))?;
        let (class, verdict) = class::class(frame);
        let expected = Answers::numbers(verdict.map(|(kind, hint)| (kind as u8, hint.to_u8())));
        assert_eq!(answers, expected, "{}, as \"{class}\"", frame.show());
        let left_out = class::is_for_a_type(class);
        assert_eq!(left_out, frame.is_left_out(), "{}", frame.show());
        Ok(class)
    }
}

/// A candidate with the number of its route flag.
#[derive(Clone)]
pub struct Frame {
    pub candidate: Candidate,
    pub flag: u32,
}

impl Frame {
    pub fn class(&self) -> &'static str {
        class::class(self).0
    }

    fn is_left_out(&self) -> bool {
        let known = self.candidate.known_type();
        known.is_some_and(|known| is_left_out(known, &self.candidate.payload))
    }
}

impl Input for Frame {
    fn smaller(&self) -> impl Iterator<Item = Self> {
        let candidates = self.candidate.smaller();
        let candidates = candidates.map(|candidate| Self { candidate, ..*self });
        let flags = lower(self.flag.into()).map(|flag| Self {
            flag: flag as u32,
            ..self.clone()
        });
        candidates.chain(flags)
    }

    fn show(&self) -> String {
        format!("route flag {}, {}", self.flag, self.candidate.show())
    }
}

/// What the functions answer.
#[derive(Debug, PartialEq)]
struct Answers {
    kind: LeafNumber,
    hint: LeafNumber,
}

impl Answers {
    fn expected(frame: &Frame) -> Self {
        let payload = &frame.candidate.payload[..];
        let known = frame.candidate.known_type();
        Self::numbers(known.map(|known| kind_and_hint(known, payload, frame.flag != 0)))
    }

    fn of_port(frame: &Frame) -> Self {
        let Candidate {
            frame_type,
            payload,
        } = &frame.candidate;
        Self {
            kind: leaf::classify_cache_frame(*frame_type, payload),
            hint: leaf::delivery_hint_classify(*frame_type, payload, frame.flag),
        }
    }

    /// The Rust has no frame type for a number above 3: docs/REQUIREMENTS.md decides.
    fn numbers(class: Option<(u8, u8)>) -> Self {
        let answer = |error, value| LeafNumber { error, value };
        match class {
            Some((kind, hint)) => Self {
                kind: answer(0, kind),
                hint: answer(0, hint),
            },
            None => Self {
                kind: answer(UNKNOWN_FRAME_TYPE, 0),
                hint: answer(UNKNOWN_FRAME_TYPE, 0),
            },
        }
    }
}
