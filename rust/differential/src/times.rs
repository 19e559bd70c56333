//! `exvideo_parse` on every composition time, and what the whole pass reports for it.

use common::nanoseconds::time;
use common::rng::Rng;
use hozgrim_sys::HozgrimSplitTime;

use crate::exvideo::same_header;
use crate::run::{Comparison, Difference, same};

/// What stands before a time: in a legacy AVC header, and in the enhanced ones.
const LEGACY: &[u8] = b"\x17\x01";
const AVC: &[u8] = b"\x91avc1";
const HEVC: &[u8] = b"\x91hvc1";
const VVC: &[u8] = b"\x91vvc1";

/// How many times there are.
const TIMES: u32 = 1 << 24;

/// No payload is longer.
const LONGEST: usize = 16;

pub struct Times;

impl Comparison for Times {
    const NAME: &'static str = "times";

    const CLASSES: &'static [&'static str] = &[
        "legacy, not negative",
        "legacy, negative",
        "enhanced, not negative",
        "enhanced, negative",
    ];

    type Input = Vec<u8>;

    /// Every time in a legacy AVC header and with each FourCC that has one.
    fn listed() -> impl Iterator<Item = Vec<u8>> {
        let fronts = [LEGACY, AVC, HEVC, VVC];
        fronts
            .into_iter()
            .flat_map(|front| (0..TIMES).map(|time| timed(front.to_vec(), time)))
    }

    /// Any byte 0 of a timed header, any AVC packet type, and up to three bytes behind the time.
    fn random(rng: &mut Rng) -> Vec<u8> {
        let mut front = rng.pick(&[LEGACY, AVC, HEVC, VVC]).to_vec();
        if front[0] & 0x80 == 0 {
            front = vec![rng.byte() & 0x70 | 0x07, rng.byte()];
        } else {
            front[0] = *rng.pick(&[0x81, 0x91, 0xA1, 0xB1, 0xC1, 0xE1, 0xF1]);
        }
        let mut payload = timed(front, rng.number() as u32 % TIMES);
        let more = rng.below(4);
        payload.extend(rng.bytes(more));
        payload
    }

    /// An untimed header is not counted: only the search for a smaller input meets one.
    fn compare(payload: &Vec<u8>) -> Result<&'static str, Difference> {
        let header = same_header(payload)?;
        if header.error == 0 {
            same_time(payload, header.composition_time)?;
        }
        let negative = header.composition_time >> 31 == 1;
        Ok(match (header.header_size, header.is_ex_header, negative) {
            (5, 0, false) => "legacy, not negative",
            (5, 0, true) => "legacy, negative",
            (8, 1, false) => "enhanced, not negative",
            (8, 1, true) => "enhanced, negative",
            _ => "untimed",
        })
    }
}

/// Holds the report's time against the header's number, and its parts: the milliseconds have this
/// number as their low 32 bits.
fn same_time(payload: &[u8], number: u32) -> Result<(), Difference> {
    let mut output = [0; LONGEST];
    let report = hozgrim_sys::pass(1, payload, 0, 0, &mut output[..payload.len()]);
    let milliseconds = number.cast_signed();
    let found = report.composition_time_ns;
    same(time(milliseconds, 0), found)?;
    let parts = HozgrimSplitTime {
        milliseconds: milliseconds.into(),
        offset: 0,
    };
    same(parts, hozgrim_sys::split_time(found))?;
    Ok(())
}

fn timed(mut front: Vec<u8>, time: u32) -> Vec<u8> {
    front.extend(&time.to_be_bytes()[1..]);
    front
}
