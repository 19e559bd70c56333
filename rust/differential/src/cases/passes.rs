//! The stored frames of the whole pass, each with its answer.

use std::io;

use common::layers::wrap;
use common::nanoseconds;
use common::requirement::{BAD_OFFSET, OUTPUT_TOO_SHORT};
use hozgrim_sys::HozgrimReport;
use oracle::types::CAPS_EX_MASK_MODEX;

use super::list::peels;
use super::sample::{count, drawn, filled};
use super::{Case, FILLING, classify, containers, misnamed, row};
use crate::classify::{self as classification, Classify};
use crate::containers::Candidate;
use crate::modex::{self, Modex};
use crate::pass::frames::{alone, and_mended, timed};
use crate::pass::{Frame, Pass, Passed};
use crate::run::Comparison;

/// The byte that the program knows the operation by.
const WHOLE_PASS: u8 = b'W';

/// Random frames are taken while fewer rows have their class, or while fewer have that of their
/// result or of their time.
const EACH: usize = 32;
const EACH_RESULT: usize = 4;
const EACH_TIME: usize = 8;

/// The classes of reported times. In video without a time, the header is readable.
const TIMES: &[&str] = &[
    "no time",
    "an offset, audio",
    "an offset, Script",
    "an offset, Metadata",
    "an offset, no readable video header",
    "an offset, video without a time",
    "a time",
    "a time and an offset",
    "a negative time",
    "a negative time and an offset",
];

/// Prints the classes of the frames, of what is peeled off them where no offset is refused, and of
/// the results and times that are reported.
pub fn rows() -> io::Result<Vec<Vec<u8>>> {
    let stored = stored();
    let classes = stored.iter().map(|stored| stored.class);
    count("whole pass", Pass::CLASSES, classes)?;
    let judged = stored.iter().filter(|stored| stored.error() != BAD_OFFSET);
    let layers = judged.map(Stored::class_of_layers);
    count("whole pass, by layers", Modex::CLASSES, layers)?;
    let reported = stored.iter().filter(|stored| stored.is_reported());
    let results = reported.map(Stored::class_of_result);
    count("whole pass, by result", Classify::CLASSES, results)?;
    let accepted = stored.iter().filter(|stored| stored.is_accepted());
    let times = accepted.map(Stored::class_of_time);
    count("whole pass, by time", TIMES, times)?;
    Ok(stored.iter().map(Stored::row).collect())
}

fn stored() -> Vec<Stored> {
    let listed = listed().map(Stored::new);
    let random = || drawn::<Pass>(|frame| (frame.lent.frame_type, frame.lent.payload.len()));
    let random = || random().map(with_filling).map(Stored::new);
    let reported = random().filter(Stored::is_reported);
    let of_results = filled(
        listed,
        reported,
        EACH_RESULT,
        Stored::class_of_result,
        Stored::row,
    );
    let of_times = filled(
        of_results.into_iter(),
        random().filter(Stored::is_accepted),
        EACH_TIME,
        Stored::class_of_time,
        Stored::row,
    );
    let class = |stored: &Stored| stored.class;
    filled(of_times.into_iter(), random(), EACH, class, Stored::row)
}

/// The frames by which the readings of request N6 are told apart, and those of N7, behind layers;
/// those of other operations: of kind and hint, of peeling, also with offsets that are taken, and
/// of containers.
fn listed() -> impl Iterator<Item = Frame> {
    let classified = classify::frames().into_iter();
    let classified = classified.map(|case| {
        let flag = case.number;
        capable(case, flag)
    });
    let peeled = peels().into_iter().flat_map(|case| {
        and_mended(case.payload).map(move |payload| Frame {
            lent: modex::Frame {
                frame_type: case.frame_type as u32,
                mask: case.number,
                room: case.room,
                filling: FILLING,
                payload,
            },
            flag: 0,
        })
    });
    let containers = containers::containers().into_iter();
    let containers = containers.map(|case| capable(case, 1));
    timed()
        .chain(classified)
        .chain(layered())
        .chain(peeled)
        .chain(containers)
}

/// Behind two layers, without an offset and with one.
fn layered() -> impl Iterator<Item = Frame> {
    let enhanced = misnamed::frames().into_iter();
    let enhanced = enhanced.filter(|(_, payload)| payload[0] & 0x80 != 0);
    enhanced.flat_map(|(known, payload)| {
        [None, Some(1)].map(|offset| {
            let candidate = Candidate {
                frame_type: known as u32,
                payload: wrap(&payload, 2, offset),
            };
            alone(candidate, CAPS_EX_MASK_MODEX, 0)
        })
    })
}

fn capable(case: Case, flag: u32) -> Frame {
    let candidate = Candidate {
        frame_type: case.frame_type as u32,
        payload: case.payload,
    };
    alone(candidate, CAPS_EX_MASK_MODEX, flag)
}

fn with_filling(mut frame: Frame) -> Frame {
    frame.lent.filling = FILLING;
    frame
}

/// A frame with what the whole pass must give for it.
struct Stored {
    frame: Frame,
    passed: Passed,
    class: &'static str,
}

impl Stored {
    fn new(frame: Frame) -> Self {
        let (passed, class) = frame.expected(frame.lent.result().as_ref());
        Self {
            frame,
            passed,
            class,
        }
    }

    fn error(&self) -> i32 {
        self.passed.report.error
    }

    fn is_accepted(&self) -> bool {
        self.error() == 0
    }

    /// Also of a frame type above 3, which is a class of results.
    fn is_reported(&self) -> bool {
        ![OUTPUT_TOO_SHORT, BAD_OFFSET].contains(&self.error())
    }

    fn class_of_time(&self) -> &'static str {
        let report = &self.passed.report;
        let (milliseconds, offset) = nanoseconds::split(report.composition_time_ns);
        match (milliseconds.signum(), offset > 0) {
            (0, false) => "no time",
            (0, true) => match (self.frame.lent.frame_type, report.header_error) {
                (0, _) => "an offset, audio",
                (1, 0) => "an offset, video without a time",
                (1, _) => "an offset, no readable video header",
                (2, _) => "an offset, Script",
                _ => "an offset, Metadata",
            },
            (1, false) => "a time",
            (1, true) => "a time and an offset",
            (_, false) => "a negative time",
            (_, true) => "a negative time and an offset",
        }
    }

    fn class_of_layers(&self) -> &'static str {
        modex::class(&self.frame.lent, self.error())
    }

    fn class_of_result(&self) -> &'static str {
        let Frame { lent, flag } = &self.frame;
        let result = lent.result();
        let payload = result.map_or_else(|| lent.payload.clone(), |result| result.into_owned());
        let frame = classification::Frame {
            candidate: Candidate {
                frame_type: lent.frame_type,
                payload,
            },
            flag: *flag,
        };
        frame.class()
    }

    /// Behind the payload stand the flag, the report and the output.
    fn row(&self) -> Vec<u8> {
        let Frame { lent, flag } = &self.frame;
        let number = lent.frame_type as u8;
        let mut bytes = row(WHOLE_PASS, number, lent.mask, lent.room, &lent.payload);
        bytes.extend(flag.to_be_bytes());
        bytes.extend(numbers(&self.passed.report).map(u32::to_be_bytes).concat());
        bytes.extend(&self.passed.memory[1..=lent.room]);
        bytes
    }
}

/// The report's numbers in the order of the row; errors without their sign, the time as two.
pub fn numbers(report: &HozgrimReport) -> [u32; 20] {
    [
        report.error.unsigned_abs(),
        report.result_length as u32,
        report.header_error.unsigned_abs(),
        report.is_ex_header.into(),
        report.packet_type.into(),
        u32::from_be_bytes(report.fourcc),
        report.header_size as u32,
        report.frame_type.into(),
        (report.composition_time_ns >> 32) as u32,
        report.composition_time_ns as u32,
        report.audio_codec.into(),
        report.sample_rate.into(),
        report.sample_size.into(),
        report.channels.into(),
        report.aac_packet_type.into(),
        report.tracks as u32,
        report.records as u32,
        report.valid_records as u32,
        report.kind,
        report.hint,
    ]
}
