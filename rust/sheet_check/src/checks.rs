//! The checks of the sheets.

mod calls;
mod failures;
mod flv;
mod large;
mod refusals;

use common::layers::Form::{Long, Short};
use common::layers::{self, chain, mend_offsets};
use common::strings;
use sheet_check::frames::{self, Frame, listed};
use sheet_check::reading::LONGEST;

use crate::program::{Feed, Program, Programs};
use crate::trial::{Failure, Trial};

/// Makes its runs with a seed, and gives a remark on them.
type Run = fn(&mut Trial, u64) -> Result<String, Failure>;

#[derive(Clone, Copy)]
pub struct Check {
    /// The program that it is about.
    pub of: fn(&Programs) -> &Program,
    pub run: Run,
}

const fn of_sheet(run: Run) -> Check {
    Check {
        of: |programs| &programs.sheet,
        run,
    }
}

const fn of_flv_sheet(run: Run) -> Check {
    Check {
        of: |programs| &programs.flv_sheet,
        run,
    }
}

pub const CHECKS: &[(&str, Check)] = &[
    ("cuts", of_sheet(cuts)),
    ("refusals", of_sheet(refusals::check)),
    ("lengths", of_sheet(lengths)),
    ("pieces", of_sheet(pieces)),
    ("failures", of_sheet(failures::of_sheet)),
    ("calls", of_sheet(calls::of_sheet)),
    ("short", of_sheet(short)),
    ("large", of_sheet(large::check)),
    ("flv_cuts", of_flv_sheet(flv::cuts)),
    ("flv_refusals", of_flv_sheet(flv::refusals::check)),
    ("flv_lengths", of_flv_sheet(flv::lengths)),
    ("flv_others", of_flv_sheet(flv::others::check)),
    ("flv_random", of_flv_sheet(flv::random)),
    ("flv_pieces", of_flv_sheet(flv::pieces)),
    ("flv_written", of_flv_sheet(flv::written::check)),
    ("flv_failures", of_flv_sheet(failures::of_flv_sheet)),
    ("flv_calls", of_flv_sheet(calls::of_flv_sheet)),
    ("flv_memory", of_flv_sheet(flv::memory)),
    ("flv_short", of_flv_sheet(flv::short)),
    ("flv_large", of_flv_sheet(flv::large::check)),
];

/// The listed frames, cut at every byte and whole.
fn cuts(trial: &mut Trial, _: u64) -> Result<String, Failure> {
    for input in layers::truncations(frames::bytes(&listed())) {
        trial.compare("an input cut at any byte", &input, Feed::File)?;
    }
    Ok(String::new())
}

/// Every payload of 0 to 2 bytes in each type.
fn short(trial: &mut Trial, _: u64) -> Result<String, Failure> {
    let payloads = strings::up_to_two_bytes();
    let input: Vec<u8> = payloads.flat_map(in_each_type).collect();
    trial.compare("payloads of 0 to 2 bytes", &input, Feed::File)?;
    Ok(String::new())
}

/// The input of a payload in each type.
fn in_each_type(payload: Vec<u8>) -> Vec<u8> {
    frames::bytes(&[0, 1, 2, 3].map(|frame_type| Frame::new(frame_type, &payload)))
}

/// Long payloads, and short ones behind them.
fn lengths(trial: &mut Trial, _: u64) -> Result<String, Failure> {
    trial.compare("long payloads", &long(in_each_type), Feed::File)?;
    Ok(String::new())
}

/// Payloads of lengths around each limit, with as many tracks and layers as there may be, and one
/// more. Behind each stand starts without a record, where an earlier payload may have had one.
fn long(in_each_type: fn(Vec<u8>) -> Vec<u8>) -> Vec<u8> {
    let zeros = [255, 256, 257, LONGEST - 1, LONGEST].map(|length| vec![0; length]);
    let tracks = [4_096, 4_097].map(|count| {
        let tracks = b"\x07\x00\x00\x00".repeat(count);
        [b"\x95\x10Opus", &tracks[..]].concat()
    });
    let track = [b"\x96\x03avc1\x00", &[0xAA; LONGEST - 7][..]].concat();
    let layers = [32, 33].map(|count| {
        let mut layers = chain(&vec![(Short, 3); count], 1);
        mend_offsets(&mut layers);
        layers
    });
    let mut layer = chain(&[(Long, 30_000)], 0);
    layer.extend(b"Opus");
    layer.resize(LONGEST, 0xAA);
    let payloads = zeros.into_iter().chain(tracks).chain(layers);
    let payloads = payloads.chain([track, layer]);
    let starts: [&[u8]; 2] = [b"\xAF\x00", b"\x17\x00\x00\x00\x00"];
    let starts = starts.map(|start| in_each_type(start.to_vec())).concat();
    payloads
        .flat_map(|payload| [in_each_type(payload), starts.clone()].concat())
        .collect()
}

/// Inputs that come through a pipe in small pieces.
fn pieces(trial: &mut Trial, _: u64) -> Result<String, Failure> {
    let middling = Frame::new(1, &[0x27; 3_000]);
    let input = frames::bytes(&[listed(), vec![middling], listed()].concat());
    for size in [1, 3, 7] {
        let what = format!("pieces of {size} bytes");
        trial.compare(&what, &input, Feed::Pieces(size))?;
    }
    trial.compare(
        "pieces of 5,000 bytes",
        &long(in_each_type),
        Feed::Pieces(5_000),
    )?;
    Ok(String::new())
}
