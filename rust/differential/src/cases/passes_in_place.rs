//! The stored frames of the whole pass without a copy, each with its answer.

use std::io;

use hozgrim_sys::HozgrimPlaced;

use super::passes::numbers;
use super::row;
use super::sample::{count, drawn, drawn_below, filled};
use crate::pass::frames::timed;
use crate::pass::{Frame, Pass};
use crate::pass_in_place::class::class;
use crate::pass_in_place::frames::examples;
use crate::pass_in_place::{InPlace, PassInPlace, Placed};
use crate::run::Comparison;

/// The byte that the program knows the operation by.
const PASS_IN_PLACE: u8 = b'Y';

/// Random frames are taken while fewer rows have their class, or while fewer have that of their
/// report.
const EACH: usize = 4;
const EACH_REPORT: usize = 2;

/// The payloads of those with many layers are shorter.
const LONG: usize = 240;

/// Classes of reports that need an output.
const TOO_SHORT: &str = "refused: output too short";

/// Prints the classes of the frames, and those that the whole pass has for their reports.
pub fn rows() -> io::Result<Vec<Vec<u8>>> {
    let stored = stored();
    let classes = stored.iter().map(|stored| stored.class);
    count("whole pass without a copy", PassInPlace::CLASSES, classes)?;
    let known = Pass::CLASSES.iter().copied();
    let known: Vec<_> = known
        .filter(|class| !class.starts_with(TOO_SHORT))
        .collect();
    let reports = stored.iter().map(|stored| stored.class_of_report);
    count("whole pass without a copy, by report", &known, reports)?;
    Ok(stored.iter().map(Stored::row).collect())
}

/// The examples of the requirement, and the frames by which the readings of request N6 are told
/// apart; then random ones, short ones first.
fn stored() -> Vec<Stored> {
    let listed = examples().chain(timed().map(InPlace::new));
    let type_and_length = |InPlace(frame): &InPlace| {
        let lent = &frame.lent;
        (lent.frame_type, lent.payload.len())
    };
    let random = || {
        let short = drawn::<PassInPlace>(type_and_length);
        let longer = drawn_below::<PassInPlace>(LONG, type_and_length);
        short.chain(longer).map(Stored::new)
    };
    let of_reports = filled(
        listed.map(Stored::new),
        random(),
        EACH_REPORT,
        |stored| stored.class_of_report,
        Stored::row,
    );
    let class = |stored: &Stored| stored.class;
    filled(of_reports.into_iter(), random(), EACH, class, Stored::row)
}

/// A frame with what the whole pass without a copy must give for it.
struct Stored {
    frame: Frame,
    placed: Placed,
    class: &'static str,
    class_of_report: &'static str,
}

impl Stored {
    fn new(InPlace(frame): InPlace) -> Self {
        let result = frame.lent.result();
        let result = result.as_ref();
        let (passed, class_of_report) = frame.expected(result);
        let placed = Placed::of_rust(&frame, passed.report, result);
        let class = class(&frame.lent, result, &passed.report);
        Self {
            placed,
            class,
            class_of_report,
            frame,
        }
    }

    /// Behind the payload stand the flag, the report, the start and the payload afterwards.
    fn row(&self) -> Vec<u8> {
        let Frame { lent, flag } = &self.frame;
        let HozgrimPlaced { report, start } = &self.placed.placed;
        let number = lent.frame_type as u8;
        let mut bytes = row(PASS_IN_PLACE, number, lent.mask, 0, &lent.payload);
        bytes.extend(flag.to_be_bytes());
        bytes.extend(numbers(report).map(u32::to_be_bytes).concat());
        bytes.extend((*start as u32).to_be_bytes());
        bytes.extend(&self.placed.memory[1..=lent.payload.len()]);
        bytes
    }
}
