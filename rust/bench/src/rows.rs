//! What the sides of the whole pass cost on a frame: a row of a table.

use crate::agreement::agreed_report;
use crate::buffers::{Buffers, State};
use crate::frames::Frame;
use crate::page::{nanoseconds, ratio};
use crate::plot::Mark;
use crate::sides::{BareCopy, InPlace, Original, Port, WithoutCopy};
use crate::targets::Measured;
use crate::timing::{Batch, Cost, Plan, batch, measure};

/// The sides, by the names that the command line has for them.
pub const SIDES: [(&str, Batch); 5] = [
    ("original", batch::<Original, _>),
    ("without-copy", batch::<WithoutCopy, _>),
    ("port", batch::<Port, _>),
    ("in-place", batch::<InPlace, _>),
    ("copy", batch::<BareCopy, _>),
];

pub struct Row {
    pub name: String,
    pub state: State,
    pub bytes: usize,
    /// Of an accepted container.
    pub tracks: usize,
    pub original: Cost,
    pub without_copy: Cost,
    pub port: Cost,
    pub in_place: Cost,
    pub copy: Cost,
}

impl Row {
    /// The heads of `cells`.
    pub const HEADS: [&str; 5] = [
        "original",
        "port",
        "original/port",
        "bare copy",
        "port/copy",
    ];

    pub fn measured(plan: Plan, frame: &Frame, state: State) -> Self {
        let tracks = agreed_report(frame).tracks;
        let batches = SIDES.map(|(_, batch)| batch);
        let buffers = Buffers::new(&frame.payload, state);
        let [original, without_copy, port, in_place, copy] = measure(plan, frame, buffers, batches);
        Self {
            name: frame.name.clone(),
            state,
            bytes: frame.payload.len(),
            tracks,
            original,
            without_copy,
            port,
            in_place,
            copy,
        }
    }

    /// How many times as fast as the original the port is.
    pub fn gain(&self) -> f64 {
        self.original.median / self.port.median
    }

    /// How many times as fast as the original, where it need not keep what is not peeled, the port
    /// is in place.
    pub fn gain_in_place(&self) -> f64 {
        self.without_copy.median / self.in_place.median
    }

    /// How many bare copies the port costs.
    pub fn copies(&self) -> f64 {
        self.port.median / self.copy.median
    }

    pub fn cells(&self) -> [String; 5] {
        [
            nanoseconds(self.original.median),
            nanoseconds(self.port.median),
            ratio(self.gain()),
            nanoseconds(self.copy.median),
            ratio(self.copies()),
        ]
    }

    /// The heads of `cells_in_place`.
    pub const HEADS_IN_PLACE: [&str; 3] = ["no copy", "in place", "no copy/in place"];

    pub fn cells_in_place(&self) -> [String; 3] {
        [
            nanoseconds(self.without_copy.median),
            nanoseconds(self.in_place.median),
            ratio(self.gain_in_place()),
        ]
    }

    pub fn marks(&self) -> [Mark; 3] {
        let sides = [('o', self.original), ('p', self.port), ('c', self.copy)];
        sides.map(|(mark, cost)| (mark, cost.median))
    }

    pub fn spread(&self) -> f64 {
        self.original.spread.max(self.port.spread)
    }
}

impl Measured for Row {
    fn name(&self) -> &str {
        &self.name
    }

    fn state(&self) -> State {
        self.state
    }
}
