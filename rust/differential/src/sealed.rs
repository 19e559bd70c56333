//! Sealed bytes: two frames that differ in nothing else are treated alike. What is sealed is read
//! from docs/REQUIREMENTS.md, section 15; what is told of the two frames comes from the port, and
//! the Rust has no part.

mod bytes;
mod examples;

use bytes::{Seal, Seals, misnamed_records, names_itself, of_payload, of_result};

use common::requirement::BAD_OFFSET;
use common::rng::Rng;
use common::sets::class_of_refused_start;
use hozgrim_sys::HozgrimReport;

use crate::columns;
use crate::input::Input;
use crate::modex;
use crate::pass::{Frame, Passed, frames};
use crate::pass_in_place::{Placed, lent_memory};
use crate::run::{Comparison, Difference, same};

pub struct Sealed;

impl Comparison for Sealed {
    const NAME: &'static str = "sealed";

    /// By the last sealed byte. Bodies and single frames stand in pairs: alone, and behind layers.
    /// Records stand in fours: alone, behind layers, in a container, in a container behind layers;
    /// so they do where their heads are the last, since every set behind has one byte.
    const CLASSES: &'static [&'static str] = &[
        "nothing sealed",
        "nothing sealed, a container that names itself",
        "nothing sealed, a record refused for a type",
        "frame type above 3",
        "an offset refused, nothing sealed",
        "an offset refused, layers sealed",
        "an offset refused, more sealed",
        "layers alone",
        "layers alone, before a container that names itself",
        "layers alone, before a record refused for a type",
        "records, beside one refused for a type",
        "records, beside one refused for a type, behind layers",
        "legacy audio",
        "legacy video",
        "legacy AVC",
        "container bodies",
        "container bodies, behind layers",
        "audio",
        "audio, behind layers",
        "video",
        "video, behind layers",
        "AVC head",
        "AVC head, behind layers",
        "AVC head, in a container",
        "AVC head, in a container behind layers",
        "AVC sets",
        "AVC sets, behind layers",
        "AVC sets, in a container",
        "AVC sets, in a container behind layers",
        "AVC extension",
        "AVC extension, behind layers",
        "AVC extension, in a container",
        "AVC extension, in a container behind layers",
        "after AVC",
        "after AVC, behind layers",
        "after AVC, in a container",
        "after AVC, in a container behind layers",
        "HEVC head",
        "HEVC head, behind layers",
        "HEVC head, in a container",
        "HEVC head, in a container behind layers",
        "HEVC sets",
        "HEVC sets, behind layers",
        "HEVC sets, in a container",
        "HEVC sets, in a container behind layers",
        "after HEVC",
        "after HEVC, behind layers",
        "after HEVC, in a container",
        "after HEVC, in a container behind layers",
        "opaque",
        "opaque, behind layers",
        "opaque, in a container",
        "opaque, in a container behind layers",
    ];

    const SIDES: [&'static str; 2] = ["first frame", "second frame"];

    type Input = Pair;

    fn listed() -> impl Iterator<Item = Pair> {
        examples::checked()
            .chain(frames::timed())
            .chain(frames::classified())
            .chain(frames::recorded())
            .flat_map(pairs)
    }

    fn random(rng: &mut Rng) -> Pair {
        let frame = frames::random(rng);
        let rewriting = match rng.below(8) {
            0 => Rewriting::Filled(rng.byte()),
            1 => Rewriting::Filled(*rng.pick(&[0x00, 0xFF])),
            2..5 => Rewriting::Random(rng.number()),
            _ => near(rng, &frame),
        };
        Pair { frame, rewriting }
    }

    fn compare(pair: &Pair) -> Result<&'static str, Difference> {
        let seals = seals_of(&pair.frame);
        let frames = [&pair.frame, &pair.second(&seals)];
        let [first, second] = frames.map(Passed::of_port);
        let report = same(first.report, second.report)?;
        let number = pair.frame.lent.frame_type;
        let results = [&first, &second].map(|passed| &passed.memory[1..][..report.result_length]);
        let open = of_result(number, results[0]);
        let [first, second] = [&first, &second].map(|passed| open_bytes(&passed.memory, &open));
        same(first, second)?;
        for track in (0..=report.tracks).chain([usize::MAX]) {
            let [first, second] = results.map(|result| hozgrim_sys::track(number, result, track));
            same((track, first), (track, second))?;
        }
        let [first, second] = results.map(|result| columns::of_port(number, result, report.tracks));
        same(first, second)?;
        same(&seals, &seals_of(frames[1]))?;
        same_in_place(frames, &seals)?;
        let nested = names_itself(number, results[0]);
        if nested {
            // It is refused, and that is why nothing in it is sealed: the report, beside the port's,
            // as request N2 has it.
            let refused = HozgrimReport {
                tracks: 0,
                ..report
            };
            same(refused, report)?;
        }
        let misnamed = misnamed_records(number, results[0]);
        if misnamed > 0 {
            // They are refused, and that is why nothing in them is sealed: the report, beside the
            // port's, as request N7 has it.
            let (kind, hint) = class_of_refused_start(number, pair.frame.flag != 0);
            let refused = HozgrimReport {
                valid_records: report.valid_records.min(report.records - misnamed),
                kind: kind.into(),
                hint: hint.into(),
                ..report
            };
            same(refused, report)?;
        }
        if report.error == BAD_OFFSET {
            return Ok(class_of_refused(&seals));
        }
        let why = match (nested, misnamed) {
            (true, _) => Some(Open::Nested),
            (false, 1..) => Some(Open::Misnamed),
            (false, 0) => None,
        };
        Ok(class(&seals, report.tracks > 0, why))
    }
}

/// Why something is open that the Rust accepts.
#[derive(Clone, Copy, PartialEq)]
enum Open {
    /// A container that names itself.
    Nested,
    /// A record that is refused for a type.
    Misnamed,
}

/// A frame, and how its sealed bytes are rewritten to make another one.
#[derive(Clone)]
pub struct Pair {
    frame: Frame,
    rewriting: Rewriting,
}

#[derive(Clone, Copy)]
enum Rewriting {
    /// Every sealed byte becomes this one.
    Filled(u8),
    /// Every sealed byte becomes a random one of this seed.
    Random(u64),
    /// One byte, if it is sealed.
    One { at: usize, byte: u8 },
}

impl Pair {
    fn second(&self, seals: &Seals) -> Frame {
        let payload = &self.frame.lent.payload;
        let mut rng = match self.rewriting {
            Rewriting::Random(seed) => Rng::new(seed),
            _ => Rng::new(0),
        };
        let rewritten = |(at, old): (usize, &u8)| match (seals[at], self.rewriting) {
            (Some(_), Rewriting::Filled(byte)) => byte,
            (Some(_), Rewriting::Random(_)) => rng.byte(),
            (Some(_), Rewriting::One { at: one, byte }) if at == one => byte,
            _ => *old,
        };
        let payload = payload.iter().enumerate().map(rewritten).collect();
        Frame {
            lent: modex::Frame {
                payload,
                ..self.frame.lent
            },
            ..self.frame
        }
    }
}

impl Input for Pair {
    /// With smaller frames; then with one of the rewritten bytes alone.
    fn smaller(&self) -> impl Iterator<Item = Self> {
        let frames = self.frame.smaller();
        let frames = frames.map(|frame| Self { frame, ..*self });
        let second = self.second(&seals_of(&self.frame)).lent.payload;
        let single = matches!(self.rewriting, Rewriting::One { .. });
        let all = if single { vec![] } else { second };
        let ones = all.into_iter().enumerate().map(|(at, byte)| Self {
            rewriting: Rewriting::One { at, byte },
            ..self.clone()
        });
        frames.chain(ones)
    }

    fn show(&self) -> String {
        let second = self.second(&seals_of(&self.frame));
        let second = second.lent.payload.show();
        format!("{}; beside {second}", self.frame.show())
    }
}

/// Filled with two bytes, and random.
fn pairs(frame: Frame) -> impl Iterator<Item = Pair> {
    let rewritings = [
        Rewriting::Filled(0x00),
        Rewriting::Filled(0xFF),
        Rewriting::Random(1),
    ];
    // Without a sealed byte they are all the same.
    let different = if seals_of(&frame).iter().all(Option::is_none) {
        1
    } else {
        rewritings.len()
    };
    rewritings
        .into_iter()
        .take(different)
        .map(move |rewriting| Pair {
            frame: frame.clone(),
            rewriting,
        })
}

/// One sealed byte, changed a little. This can mend what is damaged, which other bytes seldom do:
/// if something refused were sealed, it would show.
fn near(rng: &mut Rng, frame: &Frame) -> Rewriting {
    let seals = seals_of(frame);
    let sealed: Vec<usize> = (0..seals.len()).filter(|at| seals[*at].is_some()).collect();
    if sealed.is_empty() {
        return Rewriting::Filled(0x00);
    }
    let at = *rng.pick(&sealed);
    let old = frame.lent.payload[at];
    let byte = *rng.pick(&[old.wrapping_add(1), old.wrapping_sub(1), 0x00, 0x01]);
    Rewriting::One { at, byte }
}

fn seals_of(frame: &Frame) -> Seals {
    let lent = &frame.lent;
    of_payload(lent.frame_type, lent.mask, &lent.payload)
}

/// Holds the pass without a copy of the two frames, which have the same sealed bytes, against each
/// other.
fn same_in_place(frames: [&Frame; 2], seals: &Seals) -> Result<(), Difference> {
    let placed = frames.map(Placed::of_port);
    let [first, second] = placed.each_ref().map(|placed| placed.placed);
    same(first, second)?;
    let afterwards = placed.each_ref().map(|placed| &placed.memory);
    let [first, second] = afterwards.map(|memory| open_bytes(memory, seals));
    same(first, second)?;
    for (frame, afterwards) in frames.into_iter().zip(afterwards) {
        // Of one frame: the sealed bytes as they were, beside the port's.
        let before = lent_memory(frame);
        same(
            sealed_bytes(&before, seals),
            sealed_bytes(afterwards, seals),
        )?;
    }
    Ok(())
}

/// The memory without the sealed bytes of the result or the payload, which stands behind one byte.
fn open_bytes(memory: &[u8], seals: &Seals) -> Vec<u8> {
    bytes_of(memory, seals, false)
}

/// The sealed bytes alone.
fn sealed_bytes(memory: &[u8], seals: &Seals) -> Vec<u8> {
    bytes_of(memory, seals, true)
}

/// Those that are sealed, or that are not.
fn bytes_of(memory: &[u8], seals: &Seals, wanted: bool) -> Vec<u8> {
    let lent = seals.iter().map(Option::is_some);
    let sealed = [false].into_iter().chain(lent);
    let sealed = sealed.chain(std::iter::repeat(false));
    let bytes = memory.iter().zip(sealed);
    let bytes = bytes.filter(|(_, sealed)| *sealed == wanted);
    bytes.map(|(byte, _)| *byte).collect()
}

/// Of a frame whose offset is refused.
fn class_of_refused(seals: &Seals) -> &'static str {
    match seals.iter().rev().find_map(|seal| *seal) {
        None => "an offset refused, nothing sealed",
        Some(Seal::Layer) => "an offset refused, layers sealed",
        Some(_) => "an offset refused, more sealed",
    }
}

/// Of a frame with an accepted container, or with something that is open.
fn class(seals: &Seals, container: bool, open: Option<Open>) -> &'static str {
    let layers = seals.contains(&Some(Seal::Layer));
    let of_open = match open {
        None => 0,
        Some(Open::Nested) => 1,
        Some(Open::Misnamed) => 2,
    };
    let (class, further) = match seals.iter().rev().find_map(|seal| *seal) {
        None => ("nothing sealed", of_open),
        Some(Seal::UnknownType) => ("frame type above 3", 0),
        Some(Seal::Layer) => ("layers alone", of_open),
        Some(Seal::LegacyAudio) => ("legacy audio", 0),
        Some(Seal::LegacyVideo) => ("legacy video", 0),
        Some(Seal::LegacyAvc) => ("legacy AVC", 0),
        Some(Seal::Body) => ("container bodies", layers.into()),
        Some(Seal::Audio) => ("audio", layers.into()),
        Some(Seal::Video) => ("video", layers.into()),
        Some(_) if open == Some(Open::Misnamed) => {
            ("records, beside one refused for a type", layers.into())
        }
        Some(record) => {
            let further = usize::from(layers) + 2 * usize::from(container);
            (record_class(record), further)
        }
    };
    let at = Sealed::CLASSES.iter().position(|known| *known == class);
    Sealed::CLASSES[at.expect("the class is listed") + further]
}

fn record_class(last: Seal) -> &'static str {
    match last {
        Seal::AvcHead => "AVC head",
        Seal::HevcHead => "HEVC head",
        Seal::AvcSet => "AVC sets",
        Seal::AvcExtension => "AVC extension",
        Seal::BehindAvc => "after AVC",
        Seal::HevcSet => "HEVC sets",
        Seal::BehindHevc => "after HEVC",
        Seal::Opaque => "opaque",
        _ => panic!("no record ends so: {last:?}"),
    }
}
