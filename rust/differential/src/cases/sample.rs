//! How the rows that carry their answer are chosen and counted.

use std::collections::{HashMap, HashSet};
use std::io;

use common::say;

use super::list::random;
use crate::run::{Comparison, Tally};

/// As many random inputs are looked at.
const DRAWN: usize = 500_000;

/// Their payloads are shorter.
const SHORT: usize = 56;

/// The random inputs of a comparison that can stand in a row and are not long.
pub fn drawn<C: Comparison>(
    type_and_length: impl Fn(&C::Input) -> (u32, usize),
) -> impl Iterator<Item = C::Input> {
    drawn_below::<C>(SHORT, type_and_length)
}

/// Those with payloads of fewer bytes.
pub fn drawn_below<C: Comparison>(
    bytes: usize,
    type_and_length: impl Fn(&C::Input) -> (u32, usize),
) -> impl Iterator<Item = C::Input> {
    random(C::random).take(DRAWN).filter(move |input| {
        let (frame_type, length) = type_and_length(input);
        frame_type <= u8::MAX.into() && length < bytes
    })
}

/// The inputs, and random ones for each class that has fewer than `each`. No row stands twice.
pub fn filled<T>(
    inputs: impl Iterator<Item = T>,
    random: impl Iterator<Item = T>,
    each: usize,
    class: impl Fn(&T) -> &'static str,
    row: impl Fn(&T) -> Vec<u8>,
) -> Vec<T> {
    let mut counts: HashMap<_, usize> = HashMap::new();
    let mut known = HashSet::new();
    let mut filled = vec![];
    let inputs = inputs.map(|input| (input, usize::MAX));
    for (input, most) in inputs.chain(random.map(|input| (input, each))) {
        let count = counts.entry(class(&input)).or_default();
        if *count < most && known.insert(row(&input)) {
            *count += 1;
            filled.push(input);
        }
    }
    filled
}

/// Prints how many inputs each class has. None may be empty.
pub fn count(
    title: &str,
    classes: &[&'static str],
    inputs: impl Iterator<Item = &'static str>,
) -> io::Result<()> {
    let mut tally = Tally::new(classes);
    inputs.for_each(|class| tally.count(class));
    say!("{title}:");
    tally.print();
    match tally.empty_classes().next() {
        Some(class) => Err(io::Error::other(format!("no row of the class \"{class}\""))),
        None => Ok(()),
    }
}
