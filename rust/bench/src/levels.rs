//! Levels of G.711 frames, beside a plain loop over a table and a bare read of the samples.

use std::array;
use std::hint::black_box;

use common::rng::Rng;
use oracle::types::FrameType;

use crate::buffers::{Buffers, State};
use crate::page::{grouped, nanoseconds, ratio};
use crate::port::{HozgrimLevel, level};
use crate::sides::Side;
use crate::targets::Measured;
use crate::timing::{Batch, Plan, batch, measure};

/// How many samples the frames have; 160 are 20 milliseconds of a telephone line.
const SAMPLES: [usize; 4] = [160, 1_000, 16_384, 1_000_000];

/// An audio frame, and the magnitude of each code by its law.
pub struct Sound {
    name: String,
    payload: Vec<u8>,
    magnitudes: [u16; 256],
}

impl Sound {
    /// The port must say of each code alone, and of the frame, what the table does.
    fn new(law: &str, first: u8, magnitude: fn(u8) -> u16, samples: usize) -> Self {
        let sound = Self {
            name: format!("{law}, {} samples", grouped(samples)),
            payload: [&[first], &Rng::new(1).bytes(samples)[..]].concat(),
            magnitudes: array::from_fn(|code| magnitude(code as u8)),
        };
        (0..=255).for_each(|code| sound.agree(&[first, code]));
        sound.agree(&sound.payload);
        sound
    }

    /// Of each length and both laws.
    pub fn all() -> Vec<Self> {
        let both = |samples| {
            [
                Self::new("A-law", 0x72, a_law, samples),
                Self::new("mu-law", 0x82, mu_law, samples),
            ]
        };
        SAMPLES.into_iter().flat_map(both).collect()
    }

    fn agree(&self, payload: &[u8]) {
        let answer = by_port(payload);
        let by_table = self.by_table(payload).into();
        assert_eq!((answer.error, answer.level), (0, by_table), "{}", self.name);
    }

    fn by_table(&self, payload: &[u8]) -> u16 {
        let codes = payload[1..].iter();
        let magnitudes = codes.map(|code| self.magnitudes[usize::from(*code)]);
        magnitudes.fold(0, u16::max)
    }

    pub fn measured(&self, plan: Plan, state: State) -> Row {
        let sides: [Batch<Self>; 3] = [batch::<Port, _>, batch::<Table, _>, batch::<Read, _>];
        let buffers = Buffers::with_room(&self.payload, 0, state);
        let costs = measure(plan, self, buffers, sides);
        let [port, table, read] = costs.map(|cost| cost.median);
        Row {
            name: self.name.clone(),
            state,
            samples: self.payload.len() - 1,
            port,
            table,
            read,
        }
    }
}

/// The magnitude of a code by the shifts of the usual decoders, whose 16-bit values are 8 times as
/// large.
fn a_law(code: u8) -> u16 {
    let (segment, step) = parts(code ^ 0x55);
    let value = match segment {
        0 => (step << 4) + 0x08,
        _ => ((step << 4) + 0x108) << (segment - 1),
    };
    value / 8
}

/// The same for mu-law, where they are 4 times as large.
fn mu_law(code: u8) -> u16 {
    let (segment, step) = parts(!code);
    let value = (((step << 3) + 0x84) << segment) - 0x84;
    value / 4
}

fn parts(code: u8) -> (u16, u16) {
    (u16::from(code >> 4 & 7), u16::from(code & 15))
}

fn by_port(payload: &[u8]) -> HozgrimLevel {
    level(FrameType::Audio as u32, payload)
}

/// The port's level.
struct Port;

impl Side<Sound> for Port {
    fn run(_: &Sound, payload: &mut [u8], _: &mut [u8]) {
        black_box(&by_port(payload));
    }
}

/// The largest magnitude by a table, in plain Rust.
struct Table;

impl Side<Sound> for Table {
    fn run(sound: &Sound, payload: &mut [u8], _: &mut [u8]) {
        black_box(sound.by_table(payload));
    }
}

/// The largest byte: every sample is read, and no magnitude is looked up.
struct Read;

impl Side<Sound> for Read {
    fn run(_: &Sound, payload: &mut [u8], _: &mut [u8]) {
        black_box(payload[1..].iter().copied().fold(0, u8::max));
    }
}

/// What a frame's level costs by each side, in nanoseconds.
pub struct Row {
    name: String,
    state: State,
    pub samples: usize,
    port: f64,
    table: f64,
    read: f64,
}

impl Row {
    /// The heads of `cells`.
    pub const HEADS: [&str; 8] = [
        "frame",
        "port",
        "GB/s",
        "table",
        "GB/s",
        "bare read",
        "GB/s",
        "port/table",
    ];

    /// Gigabytes of samples a second, by the port.
    pub fn speed(&self) -> f64 {
        self.speed_in(self.port)
    }

    fn speed_in(&self, time: f64) -> f64 {
        self.samples as f64 / time
    }

    pub fn cells(&self) -> Vec<String> {
        vec![
            self.name.clone(),
            nanoseconds(self.port),
            ratio(self.speed()),
            nanoseconds(self.table),
            ratio(self.speed_in(self.table)),
            nanoseconds(self.read),
            ratio(self.speed_in(self.read)),
            ratio(self.port / self.table),
        ]
    }
}

impl Measured for Row {
    fn name(&self) -> &str {
        &self.name
    }

    fn state(&self) -> State {
        self.state
    }
}
