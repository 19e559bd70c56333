//! What the history of a store says, read from the sentences of request N8 (docs/REQUIREMENTS.md,
//! section 23). Nothing is stepped: each answer looks back through the frames that were offered.

use common::requirement::SLOT_TOO_SHORT;
use hozgrim_sys::{HozgrimLate, HozgrimStored};

use super::{Answer, NUMBERS, Slot, State, guarded, record};
use crate::pass::{Frame, Passed};

/// The kinds that are kept, by their numbers.
pub const VIDEO_HEADER: u32 = 1;
pub const AUDIO_HEADER: u32 = 2;
pub const KEYFRAME: u32 = 3;

/// In the order in which a viewer that joins late is sent them.
pub const KINDS: [u32; 3] = [VIDEO_HEADER, AUDIO_HEADER, KEYFRAME];

/// A frame that was offered, and what the whole pass gives for it.
pub struct Offer<'a> {
    pub frame: &'a Frame,
    pub passed: Passed,
}

impl<'a> Offer<'a> {
    pub fn new(frame: &'a Frame) -> Self {
        let passed = Passed::of_rust(frame, frame.lent.result().as_ref());
        Self { frame, passed }
    }

    /// That of a refused frame is 0, as of one that is not kept.
    pub fn kind(&self) -> u32 {
        self.passed.report.kind
    }

    pub fn result(&self) -> &[u8] {
        self.passed.result()
    }
}

/// A store before the first frame, and the frames that were offered to it since.
#[derive(Clone, Copy)]
pub struct History<'a> {
    pub start: &'a [Slot; 3],
    pub offers: &'a [Offer<'a>],
}

impl<'a> History<'a> {
    /// When so many of the frames had been offered.
    pub fn first(&self, count: usize) -> Self {
        Self {
            offers: &self.offers[..count],
            ..*self
        }
    }

    pub fn slot(&self, kind: u32) -> &'a Slot {
        &self.start[kind as usize - 1]
    }

    /// The last frame that decides what the slot of a kind holds: a frame of that kind, and for the
    /// keyframe also a video header.
    fn deciding(&self, kind: u32) -> Option<&'a Offer<'a>> {
        let decides = |offer: &&Offer| {
            offer.kind() == kind || kind == KEYFRAME && offer.kind() == VIDEO_HEADER
        };
        self.offers.iter().rev().find(decides)
    }

    /// What a frame leaves in the slot of a kind: itself, if it is of the kind and no longer.
    fn left_by(&self, offer: &'a Offer<'a>, kind: u32) -> Option<&'a [u8]> {
        let fits = offer.result().len() <= self.slot(kind).buffer.len();
        (offer.kind() == kind && fits).then(|| offer.result())
    }

    /// What the slot of a kind holds, if it is not empty.
    pub fn held(&self, kind: u32) -> Option<&'a [u8]> {
        match self.deciding(kind) {
            Some(offer) => self.left_by(offer, kind),
            None => self.slot(kind).held(),
        }
    }

    /// The length of a slot in the record. One past its buffer stays as it is until a frame decides
    /// the slot.
    pub fn length(&self, kind: u32) -> usize {
        match self.deciding(kind) {
            Some(offer) => self.left_by(offer, kind).map_or(0, <[u8]>::len),
            None => self.slot(kind).length,
        }
    }

    /// A byte of a buffer: that of the last frame which was kept there and reaches so far.
    fn byte(&self, kind: u32, at: usize) -> u8 {
        let offers = self.offers.iter().rev();
        let mut kept = offers.filter_map(|offer| self.left_by(offer, kind));
        let written = kept.find_map(|result| result.get(at));
        *written.unwrap_or(&self.slot(kind).buffer[at])
    }

    /// What a viewer that joins late is sent, each frame with its kind.
    pub fn late(&self) -> Vec<(u32, &'a [u8])> {
        let held = |kind| Some((kind, self.held(kind)?));
        KINDS.into_iter().filter_map(held).collect()
    }

    pub fn state(&self) -> State<'a> {
        let sent = self.late();
        let late = NUMBERS.map(|number| {
            let (kind, bytes) = sent.get(number).copied().unwrap_or_default();
            let answer = HozgrimLate {
                count: sent.len(),
                length: bytes.len(),
                kind,
            };
            (answer, bytes)
        });
        State {
            lengths: record(KINDS.map(|kind| self.length(kind))),
            buffers: KINDS.map(|kind| {
                let places = 0..self.slot(kind).buffer.len();
                guarded(places.map(|at| self.byte(kind, at)))
            }),
            late,
        }
    }

    /// What the call for the last frame answers.
    pub fn last_answer(&self) -> Option<Answer> {
        let offer = self.offers.last()?;
        let Passed { report, memory } = &offer.passed;
        Some(Answer {
            stored: HozgrimStored {
                error: if self.is_too_long(offer) {
                    SLOT_TOO_SHORT
                } else {
                    report.error
                },
                report: *report,
            },
            output: memory.clone(),
        })
    }

    /// Whether the frame is of a kind that is kept, and longer than its slot.
    fn is_too_long(&self, offer: &Offer) -> bool {
        let kind = offer.kind();
        kind != 0 && offer.result().len() > self.slot(kind).buffer.len()
    }
}

#[cfg(test)]
mod tests {
    use super::*;
    use crate::store::frames::examples;
    use crate::store::lent_part;

    /// Of each example, by the words of the request: the error of the last call, the record
    /// afterwards, and the kinds that a viewer that joins then is sent.
    const LEFT: [(i32, [usize; 3], &[u32]); 22] = [
        (0, [6, 0, 0], &[1]),
        (0, [6, 0, 0], &[1]),
        (0, [6, 4, 1], &[1, 2, 3]),
        (-31, [0, 0, 0], &[]),
        (-22, [0, 0, 0], &[]),
        (-31, [0, 0, 0], &[]),
        (0, [6, 0, 0], &[1]),
        (0, [6, 0, 0], &[1]),
        (0, [6, 0, 0], &[1]),
        (-31, [0, 0, 0], &[]),
        (0, [6, 4, 0], &[1, 2]),
        (-31, [0, 0, 1], &[3]),
        (-31, [6, 4, 0], &[1, 2]),
        (-21, [6, 4, 1], &[1, 2, 3]),
        (0, [0, 0, 1], &[3]),
        (0, [6, 0, 0], &[1]),
        (0, [6, 4, 1], &[1, 2, 3]),
        (0, [0, 0, 1], &[3]),
        (0, [0, 4, 0], &[2]),
        (0, [6, 4, 0], &[1, 2]),
        (0, [6, 4, 0], &[1, 2]),
        (0, [0, 0, 0], &[]),
    ];

    /// Asks the whole history of an example, by its number.
    fn ask<T>(example: usize, question: impl FnOnce(History) -> T) -> T {
        let sequence = &examples()[example];
        let offers = sequence.offers();
        question(sequence.history(&offers))
    }

    #[test]
    fn what_the_examples_leave() {
        assert_eq!(examples().len(), LEFT.len());
        for (example, (error, lengths, kinds)) in LEFT.into_iter().enumerate() {
            ask(example, |history| {
                let answer = history.last_answer().expect("a frame was offered");
                assert_eq!(answer.stored.error, error, "{example}");
                assert_eq!(history.state().lengths, record(lengths), "{example}");
                let sent: Vec<u32> = history.late().iter().map(|(kind, _)| *kind).collect();
                assert_eq!(sent, kinds, "{example}");
            });
        }
    }

    #[test]
    fn bytes_that_are_kept() {
        let keyframe = |history: History| lent_part(&history.state().buffers[2]).to_vec();
        // Emptied as too short, emptied by a header, behind a shorter frame.
        assert_eq!(ask(5, keyframe), b"\x12");
        assert_eq!(ask(10, keyframe), b"\x12\xAA");
        assert_eq!(ask(14, keyframe), b"\x12\xAA");
        // What is never written is as it was, also where a frame is too long.
        assert_eq!(ask(0, keyframe), b"\xD0\xD1");
        let video = |history: History| lent_part(&history.state().buffers[0]).to_vec();
        assert_eq!(ask(3, video), b"\xB0\xB1\xB2\xB3\xB4");
    }

    #[test]
    fn a_frame_that_is_too_long_is_still_relayed() {
        ask(3, |history| {
            let Answer { stored, output } = history.last_answer().expect("a frame was offered");
            let report = stored.report;
            assert_eq!((report.error, report.kind, report.hint), (0, 1, 0));
            assert_eq!(lent_part(&output), b"\x90vp09\x00\xA5\xA5");
        });
    }

    #[test]
    fn numbers_of_a_late_viewer() {
        // A keyframe that was too long stands in no number.
        ask(12, |history| {
            let late = history.state().late;
            let answers = late.map(|(answer, _)| (answer.count, answer.kind, answer.length));
            assert_eq!(answers[..3], [(2, 1, 6), (2, 2, 4), (2, 0, 0)]);
            assert!(answers[3..].iter().all(|answer| *answer == (2, 0, 0)));
        });
    }

    #[test]
    fn lengths_past_their_buffers() {
        // Before the audio header the number stays, and nothing is sent.
        ask(18, |history| {
            let live = history.first(1).state();
            assert_eq!(live.lengths, record([0, 9, 0]));
            assert_eq!(live.late[0].0.count, 0);
        });
    }
}
