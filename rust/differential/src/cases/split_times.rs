//! The stored rows of times that are split. The Rust has none; the answers come from the reading of
//! request N6 (docs/REQUIREMENTS.md, section 23) that the port is held against.

use std::collections::BTreeSet;
use std::io;

use hozgrim_sys::HozgrimSplitTime;

use super::list::random;
use super::row;
use super::sample::count;
use crate::run::Comparison;
use crate::split_time::{SplitTime, asked, class, edges};

/// The byte that the program knows the operation by.
const SPLIT_TIME: u8 = b'I';

/// How many random times there are.
const RANDOM: usize = 24;

/// The rows, with the lines that are printed for them. Prints the classes of the times. No row
/// stands twice.
pub fn rows() -> io::Result<Vec<(Vec<u8>, String)>> {
    let times = stored();
    count(
        "split times",
        SplitTime::CLASSES,
        times.iter().copied().map(class),
    )?;
    let rows = times.into_iter().map(|time| (row_of(time), line(time)));
    Ok(rows.collect())
}

/// The payload is the time.
fn row_of(time: i64) -> Vec<u8> {
    row(SPLIT_TIME, 0, 0, 0, &time.to_be_bytes())
}

fn line(time: i64) -> String {
    let HozgrimSplitTime {
        milliseconds,
        offset,
    } = asked(time);
    format!("split_time {milliseconds} {offset}")
}

/// The edges with their neighbours, and random ones, from the lowest on.
fn stored() -> BTreeSet<i64> {
    let near = |place: i64| {
        [-1, 0, 1]
            .into_iter()
            .filter_map(move |step| place.checked_add(step))
    };
    let listed = edges().into_iter().flat_map(near);
    listed
        .chain(random(SplitTime::random).take(RANDOM))
        .collect()
}
