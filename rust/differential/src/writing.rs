//! What the comparisons of the writers share: calls with their outputs, held against what
//! docs/REQUIREMENTS.md asks for.

use std::ops::Range;

use common::calls::Change;
use common::requirement::{
    BAD_LENGTH, BAD_VALUE, OUT_OF_BOUNDS, OUTPUT_TOO_SHORT, UNKNOWN_FRAME_TYPE,
};
use common::rng::Rng;
use common::writing::{Arguments, ORDER, Reason, error};
use hozgrim_sys::HozgrimWritten;

use crate::input::{Input, lower, parts};
use crate::run::{Difference, same};

/// How many entries of a column are made smaller, and how often a string that is longer than this.
const FEW_ENTRIES: usize = 16;
const LONG: usize = 65_536;
const FEW_TRIES: usize = 16;

/// The arguments of a writer as an input.
pub trait Writer: Arguments + Input {
    /// The class of a call that is not refused.
    fn written_class(&self) -> &'static str;
}

/// A call and the length of its output.
#[derive(Clone)]
pub struct Lent<A> {
    pub arguments: A,
    pub room: usize,
}

impl<A: Writer> Lent<A> {
    /// With an output that is exactly long enough.
    pub fn exact(arguments: A) -> Self {
        let room = arguments.exact_room();
        Self { arguments, room }
    }

    /// With outputs that are exactly long enough, longer, shorter, and empty.
    pub fn around(arguments: A) -> [Self; 4] {
        let room = arguments.exact_room();
        [room, room + 9, room.saturating_sub(1), 0].map(|room| Self {
            arguments: arguments.clone(),
            room,
        })
    }

    /// Mostly with an output that is long enough.
    pub fn random(rng: &mut Rng, arguments: A) -> Self {
        let room = arguments.exact_room();
        let room = match rng.below(8) {
            0 => rng.below(room + 1),
            1..4 => room,
            _ => room + rng.below(20),
        };
        Self { arguments, room }
    }

    fn reasons(&self) -> Vec<Reason> {
        self.arguments.reasons(self.room)
    }

    /// What is written if nothing refuses it, once answer and output are as they must be.
    pub fn same_as_asked(
        &self,
        call: impl FnOnce(&mut [u8]) -> HozgrimWritten,
    ) -> Result<Option<Vec<u8>>, Difference> {
        let error = error(&self.reasons());
        let written = (error == 0).then(|| self.arguments.written());
        let bytes = written.as_deref().unwrap_or_default();
        let mut expected = self.memory();
        expected[1..=bytes.len()].copy_from_slice(bytes);
        let mut memory = self.memory();
        let answer = call(&mut memory[1..=self.room]);
        // The first byte that differs, by its place behind the one that was not lent.
        let other = (0..memory.len()).find(|&at| memory[at] != expected[at]);
        let byte_of = |memory: &[u8]| other.map(|at| (at, memory[at]));
        let length = bytes.len();
        same(
            (HozgrimWritten { error, length }, byte_of(&expected)),
            (answer, byte_of(&memory)),
        )?;
        Ok(written)
    }

    /// The output between two bytes that are not lent, no byte like the next.
    fn memory(&self) -> Vec<u8> {
        (0..self.room + 2).map(|at| (37 * at + 11) as u8).collect()
    }

    /// The class of a call: that of what is written, or of the reasons to refuse it.
    pub fn class(&self) -> &'static str {
        match self.reasons()[..] {
            [] => self.arguments.written_class(),
            [(_, name)] => name,
            ref several => class_of_several(several),
        }
    }
}

/// The class stays, so that it names the difference. Beside a smaller call the output is as long, or
/// shorter by as much as is written.
impl<A: Writer> Input for Lent<A> {
    fn smaller(&self) -> impl Iterator<Item = Self> {
        let spare = self.room as i128 - self.arguments.length() as i128;
        let arguments = self.arguments.smaller().flat_map(move |arguments| {
            let room = arguments.length() as i128 + spare;
            let rooms = [self.room, room.clamp(0, self.room as i128) as usize];
            rooms.map(|room| Self {
                arguments: arguments.clone(),
                room,
            })
        });
        let rooms = lower(self.room as u64).map(|room| Self {
            arguments: self.arguments.clone(),
            room: room as usize,
        });
        let class = self.class();
        let smaller = arguments.chain(rooms);
        smaller.filter(move |smaller| smaller.class() == class)
    }

    fn show(&self) -> String {
        let (class, call) = (self.class(), self.arguments.show());
        format!("\"{class}\", output of {}, {call}", self.room)
    }
}

/// The classes of calls that there is more than one reason to refuse: by the first two numbers, or
/// by the one that all of them have.
const SEVERAL: [(i32, Option<i32>, &str); 13] = [
    (OUT_OF_BOUNDS, None, "several reasons of -26"),
    (BAD_LENGTH, None, "several reasons of -27"),
    (BAD_VALUE, None, "several reasons of -28"),
    (UNKNOWN_FRAME_TYPE, Some(OUT_OF_BOUNDS), "-21 before -26"),
    (UNKNOWN_FRAME_TYPE, Some(BAD_LENGTH), "-21 before -27"),
    (UNKNOWN_FRAME_TYPE, Some(BAD_VALUE), "-21 before -28"),
    (UNKNOWN_FRAME_TYPE, Some(OUTPUT_TOO_SHORT), "-21 before -22"),
    (OUT_OF_BOUNDS, Some(BAD_LENGTH), "-26 before -27"),
    (OUT_OF_BOUNDS, Some(BAD_VALUE), "-26 before -28"),
    (OUT_OF_BOUNDS, Some(OUTPUT_TOO_SHORT), "-26 before -22"),
    (BAD_LENGTH, Some(BAD_VALUE), "-27 before -28"),
    (BAD_LENGTH, Some(OUTPUT_TOO_SHORT), "-27 before -22"),
    (BAD_VALUE, Some(OUTPUT_TOO_SHORT), "-28 before -22"),
];

fn class_of_several(reasons: &[Reason]) -> &'static str {
    let holds = |number: &i32| reasons.iter().any(|(of, _)| of == number);
    let mut numbers = ORDER.into_iter().filter(holds);
    let (first, second) = (numbers.next(), numbers.next());
    let known = SEVERAL
        .iter()
        .find(|row| (Some(row.0), row.1) == (first, second));
    known.expect("the class is listed").2
}

/// Each call with each change; then with each two of them.
pub fn changed<A: Arguments>(
    calls: Vec<A>,
    changes: fn() -> Vec<Change<A>>,
) -> impl Iterator<Item = A> {
    let once = move |call: &A| -> Vec<A> {
        let changed = changes().into_iter().map(|change| {
            let mut call = call.clone();
            change(&mut call);
            call
        });
        changed.collect()
    };
    let all: Vec<A> = calls.iter().flat_map(once).collect();
    let twice = all.clone().into_iter().flat_map(move |call| once(&call));
    all.into_iter().chain(twice)
}

/// Calls without a part of their tracks or layers, of which there are so many.
pub fn fewer<A: Clone>(
    call: &A,
    count: usize,
    remove: fn(&mut A, Range<usize>),
) -> impl Iterator<Item = A> {
    parts(count).map(move |part| {
        let mut call = call.clone();
        remove(&mut call, part);
        call
    })
}

/// Takes out as much of a part as a column has.
pub fn take_out<T>(column: &mut Vec<T>, part: &Range<usize>) {
    let length = column.len();
    column.drain(part.start.min(length)..part.end.min(length));
}

/// A number of some size.
pub trait Number: Copy + TryInto<u64> + TryFrom<u64> {}

impl<N: Copy + TryInto<u64> + TryFrom<u64>> Number for N {}

fn lower_numbers<N: Number>(number: N) -> impl Iterator<Item = N> {
    let number = number.try_into().ok().expect("64 bits hold it");
    lower(number).filter_map(|lower| N::try_from(lower).ok())
}

/// Calls in which one number is lower.
pub fn lower_number<A: Clone, N: Number>(
    call: &A,
    number: fn(&mut A) -> &mut N,
) -> impl Iterator<Item = A> {
    lower_numbers(*number(&mut call.clone())).map(move |lower| {
        let mut call = call.clone();
        *number(&mut call) = lower;
        call
    })
}

/// Calls in which one of the first numbers of a column is lower, or the last one is missing.
pub fn lower_column<A: Clone, N: Number>(
    call: &A,
    column: fn(&mut A) -> &mut Vec<N>,
) -> impl Iterator<Item = A> {
    let numbers = column(&mut call.clone()).clone();
    let shorter = (0..numbers.len()).last().map(|last| {
        let mut call = call.clone();
        column(&mut call).truncate(last);
        call
    });
    let numbers = numbers.into_iter().enumerate().take(FEW_ENTRIES);
    let lower = numbers.flat_map(move |(at, number)| {
        lower_numbers(number).map(move |lower| {
            let mut call = call.clone();
            column(&mut call)[at] = lower;
            call
        })
    });
    shorter.into_iter().chain(lower)
}

/// Calls in which these bytes are smaller.
pub fn smaller_bytes<A: Clone>(
    call: &A,
    bytes: &Vec<u8>,
    place: fn(&mut A) -> &mut Vec<u8>,
) -> impl Iterator<Item = A> {
    let tries = if bytes.len() > LONG {
        FEW_TRIES
    } else {
        usize::MAX
    };
    bytes.smaller().take(tries).map(move |smaller| {
        let mut call = call.clone();
        *place(&mut call) = smaller;
        call
    })
}
