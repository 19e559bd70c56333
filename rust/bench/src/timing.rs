//! Takes times: sides in turn, in short batches of calls, with the median over the batches.

use std::hint::black_box;
use std::time::{Duration, Instant};

use crate::buffers::Buffers;
use crate::frames::Frame;
use crate::sides::Side;

/// How long a measurement takes.
#[derive(Clone, Copy)]
pub struct Plan {
    /// The least time of a batch, so that reading the clock costs little beside it.
    pub batch: Duration,
    pub measurement: Duration,
    /// How many bytes the recording has that programs read.
    pub recording: usize,
}

impl Plan {
    pub const FULL: Self = Self {
        batch: Duration::from_micros(40),
        measurement: Duration::from_millis(1_000),
        recording: 1_000_000_000,
    };

    pub const QUICK: Self = Self {
        batch: Duration::from_micros(5),
        measurement: Duration::from_millis(10),
        recording: 20_000_000,
    };
}

/// So many rounds are made at least.
const LEAST_ROUNDS: usize = 5;

/// Makes so many calls, and says how long they took.
pub type Batch<W = Frame> = fn(&W, &mut Buffers, usize) -> Duration;

pub fn batch<S: Side<W>, W>(work: &W, buffers: &mut Buffers, calls: usize) -> Duration {
    let start = Instant::now();
    for _ in 0..calls {
        let (payload, output) = buffers.take();
        S::run(black_box(work), payload, output);
    }
    start.elapsed()
}

/// What one call costs, in nanoseconds.
#[derive(Clone, Copy)]
pub struct Cost {
    pub median: f64,
    /// What lies between the quartiles, as a part of the median.
    pub spread: f64,
}

impl Cost {
    fn of(mut samples: Vec<f64>) -> Self {
        samples.sort_by(f64::total_cmp);
        let at = |quarters: usize| samples[(samples.len() - 1) * quarters / 4];
        Self {
            median: at(2),
            spread: (at(3) - at(1)) / at(2),
        }
    }
}

/// What each side costs. The sides take turns, so that a slow moment of the machine hits all of
/// them.
pub fn measure<W, const N: usize>(
    plan: Plan,
    work: &W,
    mut buffers: Buffers,
    sides: [Batch<W>; N],
) -> [Cost; N] {
    let calls = sides.map(|side| calls_in_batch(plan, work, &mut buffers, side));
    let mut samples = [const { vec![] }; N];
    let start = Instant::now();
    for round in 0.. {
        if round >= LEAST_ROUNDS && start.elapsed() >= plan.measurement {
            break;
        }
        for turn in 0..N {
            let side = (round + turn) % N;
            let time = sides[side](work, &mut buffers, calls[side]);
            samples[side].push(time.as_nanos() as f64 / calls[side] as f64);
        }
    }
    samples.map(Cost::of)
}

/// How many calls fill a batch.
fn calls_in_batch<W>(plan: Plan, work: &W, buffers: &mut Buffers, side: Batch<W>) -> usize {
    let mut calls = 1;
    while side(work, buffers, calls) < plan.batch {
        calls *= 2;
    }
    calls
}
