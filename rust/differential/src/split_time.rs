//! `hozgrim_split_time` beside a reading of the request: the Rust has no such times.

use std::ops::RangeInclusive;

use common::nanoseconds::{MILLISECOND, split};
use common::rng::Rng;
use hozgrim_sys::HozgrimSplitTime;

use crate::run::{Comparison, Difference, same};

/// The times that a report can have.
const REPORTED: RangeInclusive<i64> = -8_388_608_000_000..=8_388_607_999_999;

/// As many times around each of those that are listed are tried.
const NEAR: i64 = 2;

pub struct SplitTime;

impl Comparison for SplitTime {
    const NAME: &'static str = "split_time";

    /// In fours from "positive" on: with an offset and without, that a report can have and others.
    const CLASSES: &'static [&'static str] = &[
        "0",
        "positive",
        "positive, whole milliseconds",
        "positive, in no report",
        "positive, whole milliseconds, in no report",
        "negative",
        "negative, whole milliseconds",
        "negative, in no report",
        "negative, whole milliseconds, in no report",
    ];

    const SIDES: [&'static str; 2] = ["requirement", "port"];

    type Input = i64;

    /// Around powers of two and the edges; every one within two milliseconds of 0.
    fn listed() -> impl Iterator<Item = i64> {
        let powers = (0..i64::BITS - 1).flat_map(|bit| [1 << bit, -1 << bit]);
        let near = edges().into_iter().chain(powers).flat_map(|place| {
            let near = move |step| place.checked_add(step);
            (-NEAR..=NEAR).filter_map(near)
        });
        near.chain(-2 * MILLISECOND..=2 * MILLISECOND)
    }

    /// Any one, whole milliseconds, and one that a report can have.
    fn random(rng: &mut Rng) -> i64 {
        let any = rng.number().cast_signed();
        match rng.below(4) {
            0 => any,
            1 => any / MILLISECOND * MILLISECOND,
            2 => any % REPORTED.end(),
            _ => any % REPORTED.end() / MILLISECOND * MILLISECOND,
        }
    }

    fn compare(time: &i64) -> Result<&'static str, Difference> {
        let asked = asked(*time);
        same(asked, hozgrim_sys::split_time(*time))?;
        let sum = i128::from(asked.milliseconds) * i128::from(MILLISECOND);
        assert_eq!(sum + i128::from(asked.offset), (*time).into());
        Ok(class(*time))
    }
}

/// What must be answered, by the reading.
pub fn asked(time: i64) -> HozgrimSplitTime {
    let (milliseconds, offset) = split(time);
    HozgrimSplitTime {
        milliseconds,
        offset,
    }
}

/// Of few and of many milliseconds, of either sign; both ends of a report's times and of all.
pub fn edges() -> Vec<i64> {
    let mut edges = vec![0, *REPORTED.start(), *REPORTED.end(), i64::MIN, i64::MAX];
    for milliseconds in [1, 2, 1_000, 8_388_607, 8_388_608, 9_223_372_036_854] {
        edges.extend([milliseconds * MILLISECOND, -milliseconds * MILLISECOND]);
    }
    edges
}

pub fn class(time: i64) -> &'static str {
    let first = match time.signum() {
        0 => return "0",
        1 => 1,
        _ => 5,
    };
    let whole = usize::from(time % MILLISECOND == 0);
    let further = 2 * usize::from(!REPORTED.contains(&time));
    SplitTime::CLASSES[first + whole + further]
}
