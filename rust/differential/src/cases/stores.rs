//! The stored frames that are offered to stores, each with its answer. The Rust has no store: what
//! is kept comes from the reading of the history that the port is held against. The frames of a
//! sequence stand in rows one behind the other, each with the store as the row before left it.

use std::collections::HashSet;
use std::io;

use super::list::random;
use super::passes::numbers;
use super::sample::count;
use super::{FILLING, row};
use crate::pass::Frame;
use crate::run::Comparison;
use crate::store::frames::examples;
use crate::store::history::{AUDIO_HEADER, History, KEYFRAME, VIDEO_HEADER};
use crate::store::{Answer, Sequence, State, Store, class, lent_part};

/// The byte that the program knows the operation by.
const STORE_FRAME: u8 = b'J';

/// As many random sequences are looked at that can stand in rows and are not long.
const DRAWN: usize = 40_000;

/// They have fewer frames, and shorter payloads, outputs and buffers.
const FEW: usize = 7;
const SHORT: usize = 24;

/// The class of sequences that have no row.
const NO_FRAME: &str = "no frame";

/// The classes of what a viewer is sent that joins behind the row's frame.
const LATE: &[&str] = &[
    "nothing",
    "video header",
    "audio header",
    "keyframe",
    "video header and audio header",
    "video header and keyframe",
    "audio header and keyframe",
    "all three",
];

/// Prints the classes of the frames, with the stores that they are offered to, and of what a viewer
/// that joins late is sent afterwards.
pub fn rows() -> io::Result<Vec<Vec<u8>>> {
    let rows: Vec<Row> = stored().iter().flat_map(rows_of).collect();
    let classes = rows.iter().map(|row| row.class);
    count("store", &known_classes(), classes)?;
    let late = rows.iter().map(|row| row.late);
    count("store, by late viewer", LATE, late)?;
    Ok(rows.into_iter().map(|row| row.bytes).collect())
}

fn known_classes() -> Vec<&'static str> {
    let known = Store::CLASSES.iter().copied();
    known.filter(|class| !class.starts_with(NO_FRAME)).collect()
}

/// The examples; then of random ones always that which has the most classes of which no row is,
/// until each class has one.
fn stored() -> Vec<Sequence> {
    let mut stored: Vec<Sequence> = examples().into_iter().map(storable).collect();
    let mut missing: HashSet<_> = known_classes().into_iter().collect();
    for sequence in &stored {
        missing = &missing - &classes_of(sequence);
    }
    let drawn = drawn().map(|sequence| (classes_of(&sequence), sequence));
    let drawn: Vec<_> = drawn.collect();
    loop {
        let new = |classes: &HashSet<_>| classes.intersection(&missing).count();
        let best = drawn.iter().max_by_key(|(classes, _)| new(classes));
        let Some((classes, sequence)) = best.filter(|(classes, _)| new(classes) > 0) else {
            return stored;
        };
        missing = &missing - classes;
        stored.push(sequence.clone());
    }
}

fn drawn() -> impl Iterator<Item = Sequence> {
    let is_short = |frame: &Frame| {
        let lent = &frame.lent;
        let storable = lent.frame_type <= u8::MAX.into();
        storable && lent.payload.len().max(lent.room) < SHORT
    };
    let fits = move |sequence: &Sequence| {
        let Sequence { slots, frames } = sequence;
        let short = slots.iter().all(|slot| slot.buffer.len() < SHORT);
        short && frames.len() < FEW && frames.iter().all(is_short)
    };
    random(Store::random).filter(fits).take(DRAWN).map(storable)
}

/// With the filling of an output in a row, and lengths that a number of a row has: one past its
/// buffer stays so.
fn storable(mut sequence: Sequence) -> Sequence {
    for frame in &mut sequence.frames {
        frame.lent.filling = FILLING;
    }
    for slot in &mut sequence.slots {
        slot.length = slot.length.min(u32::MAX as usize);
    }
    sequence
}

fn classes_of(sequence: &Sequence) -> HashSet<&'static str> {
    let offers = sequence.offers();
    let whole = sequence.history(&offers);
    let counts = 1..=offers.len();
    counts
        .map(|count| class::class(&whole.first(count)))
        .collect()
}

/// A frame of a sequence with its answer.
struct Row {
    bytes: Vec<u8>,
    class: &'static str,
    late: &'static str,
}

fn rows_of(sequence: &Sequence) -> Vec<Row> {
    let offers = sequence.offers();
    let whole = sequence.history(&offers);
    let numbered = sequence.frames.iter().zip(1..);
    let row = |(frame, number)| {
        let after = whole.first(number);
        Row {
            bytes: bytes(frame, &whole.first(number - 1), &after),
            class: class::class(&after),
            late: class_of_late(&after),
        }
    };
    numbered.map(row).collect()
}

fn class_of_late(history: &History) -> &'static str {
    let held = |kind| history.held(kind).is_some();
    match [VIDEO_HEADER, AUDIO_HEADER, KEYFRAME].map(held) {
        [false, false, false] => "nothing",
        [true, false, false] => "video header",
        [false, true, false] => "audio header",
        [false, false, true] => "keyframe",
        [true, true, false] => "video header and audio header",
        [true, false, true] => "video header and keyframe",
        [false, true, true] => "audio header and keyframe",
        [true, true, true] => "all three",
    }
}

/// Behind the payload stand the flag, the lengths of the buffers, the record and the buffers before;
/// then error, report, the record afterwards, what is asked for a viewer that joins late, the output
/// and the buffers afterwards.
fn bytes(frame: &Frame, before: &History, after: &History) -> Vec<u8> {
    let Frame { lent, flag } = frame;
    let Answer { stored, output } = after.last_answer().expect("a frame was offered");
    let (before, after) = (before.state(), after.state());
    let number = lent.frame_type as u8;
    let mut bytes = row(STORE_FRAME, number, lent.mask, lent.room, &lent.payload);
    bytes.extend(flag.to_be_bytes());
    for buffer in &before.buffers {
        bytes.extend((lent_part(buffer).len() as u32).to_be_bytes());
    }
    bytes.extend(record_of(&before));
    bytes.extend(buffers_of(&before));
    bytes.extend(stored.error.unsigned_abs().to_be_bytes());
    bytes.extend(numbers(&stored.report).map(u32::to_be_bytes).concat());
    bytes.extend(record_of(&after));
    bytes.extend(late_of(&after));
    bytes.extend(lent_part(&output));
    bytes.extend(buffers_of(&after));
    bytes
}

fn record_of(state: &State) -> Vec<u8> {
    let lengths = &state.lengths;
    let lengths = [lengths.video, lengths.audio, lengths.keyframe];
    lengths.map(|length| (length as u32).to_be_bytes()).concat()
}

fn buffers_of(state: &State) -> Vec<u8> {
    state
        .buffers
        .each_ref()
        .map(|buffer| lent_part(buffer))
        .concat()
}

/// The count, then kind and length of the frames of number 0 to 3.
fn late_of(state: &State) -> Vec<u8> {
    let answers = state.late.map(|(answer, _)| answer);
    let mut numbers = vec![answers[0].count as u32];
    for answer in &answers[..4] {
        numbers.extend([answer.kind, answer.length as u32]);
    }
    numbers.into_iter().flat_map(u32::to_be_bytes).collect()
}
