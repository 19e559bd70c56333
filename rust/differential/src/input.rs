//! The inputs of a comparison.

use std::iter;
use std::ops::Range;

/// A string of more bytes is made smaller by as many tries only, so that the search ends soon.
const LONG: usize = 1_000;
const TRIES: usize = 1_000;

pub trait Input: Sized {
    /// Smaller inputs that may show the same difference. No chain of them is endless.
    fn smaller(&self) -> impl Iterator<Item = Self>;

    fn show(&self) -> String;
}

impl Input for Vec<u8> {
    fn smaller(&self) -> impl Iterator<Item = Self> {
        let tries = if self.len() > LONG { TRIES } else { usize::MAX };
        let smaller = without_a_part(self).chain(with_a_byte_lowered(self));
        smaller.take(tries)
    }

    fn show(&self) -> String {
        let bytes: String = self.iter().map(|byte| format!(" {byte:02X}")).collect();
        format!("{} bytes:{bytes}", self.len())
    }
}

impl Input for u8 {
    fn smaller(&self) -> impl Iterator<Item = Self> {
        lower((*self).into()).map(|lower| lower as u8)
    }

    fn show(&self) -> String {
        self.to_string()
    }
}

impl Input for i64 {
    /// Nearer to 0; of a negative number its magnitude, too.
    fn smaller(&self) -> impl Iterator<Item = Self> {
        let sign = self.signum();
        let lower = lower(self.unsigned_abs()).map(move |lower| sign * lower as i64);
        let positive = self.checked_neg().filter(|positive| *positive > 0);
        positive.into_iter().chain(lower)
    }

    fn show(&self) -> String {
        self.to_string()
    }
}

/// The number with one of its bits cleared, the highest one first; then one less.
pub fn lower(number: u64) -> impl Iterator<Item = u64> {
    let bits = (0..u64::BITS).rev().map(|bit| 1 << bit);
    let cleared = bits.map(move |bit: u64| number & !bit);
    let lower = cleared.chain([number.saturating_sub(1)]);
    lower.filter(move |lower| *lower < number)
}

fn without_a_part(bytes: &[u8]) -> impl Iterator<Item = Vec<u8>> {
    parts(bytes.len()).map(|part| [&bytes[..part.start], &bytes[part.end..]].concat())
}

/// Parts of so many, long ones first.
pub fn parts(count: usize) -> impl Iterator<Item = Range<usize>> {
    let halvings = iter::successors(Some(count), |length| Some(length / 2));
    let lengths = halvings.take_while(|length| *length > 0);
    lengths.flat_map(move |length| {
        let starts = (0..=count - length).step_by(length);
        starts.map(move |start| start..start + length)
    })
}

/// Each of several inputs made smaller, beside the others as they are.
pub fn with_one_smaller<'a, I, A>(inputs: &'a A) -> impl Iterator<Item = A>
where
    I: Input + 'a,
    A: AsRef<[I]> + AsMut<[I]> + Clone,
{
    let places = inputs.as_ref().iter().enumerate();
    places.flat_map(move |(at, input)| {
        input.smaller().map(move |smaller| {
            let mut others = inputs.clone();
            others.as_mut()[at] = smaller;
            others
        })
    })
}

/// To 0, to its half, by 1.
fn with_a_byte_lowered(bytes: &[u8]) -> impl Iterator<Item = Vec<u8>> {
    let high = (0..bytes.len()).filter(|&at| bytes[at] > 0);
    high.flat_map(move |at| {
        [0, bytes[at] / 2, bytes[at] - 1].map(|lower| {
            let mut lowered = bytes.to_vec();
            lowered[at] = lower;
            lowered
        })
    })
}
