//! The targets, held against the rows of a run. Nothing fails where one is missed.

use crate::buffers::State;
use crate::columns;
use crate::frames::MOST_TRACKS;
use crate::levels;
use crate::page::{Page, ratio};
use crate::rows::Row;
use crate::store;
use crate::uplink;

/// A row that a target can be about.
pub trait Measured {
    fn name(&self) -> &str;
    fn state(&self) -> State;
}

pub struct Target<R> {
    text: &'static str,
    /// Which rows it is about.
    about: fn(&R) -> bool,
    figure: fn(&R) -> f64,
    limit: Limit,
}

enum Limit {
    AtLeast(f64),
    AtMost(f64),
}

/// Of the whole pass.
pub const SHAPES: [Target<Row>; 6] = [
    Target {
        text: "every shape: original/port at least 1",
        about: |_| true,
        figure: Row::gain,
        limit: Limit::AtLeast(1.0),
    },
    Target {
        text: "containers of 8 tracks and more: original/port at least 2",
        about: |row| row.tracks >= 8,
        figure: Row::gain,
        limit: Limit::AtLeast(2.0),
    },
    Target {
        text: "keyframe of 40,000 B: port/copy at most 1.1",
        about: |row| row.bytes == 40_000,
        figure: Row::copies,
        limit: Limit::AtMost(1.1),
    },
    Target {
        text: "every shape: no copy/in place at least 1",
        about: |_| true,
        figure: Row::gain_in_place,
        limit: Limit::AtLeast(1.0),
    },
    Target {
        text: "containers of 8 tracks and more: no copy/in place at least 3",
        about: |row| row.tracks >= 8,
        figure: Row::gain_in_place,
        limit: Limit::AtLeast(3.0),
    },
    Target {
        text: "keyframe of 40,000 B: in place/no copy at most 1.2",
        about: |row| row.bytes == 40_000,
        figure: |row| 1.0 / row.gain_in_place(),
        limit: Limit::AtMost(1.2),
    },
];

pub const LEVELS: [Target<levels::Row>; 1] = [Target {
    text: "16,384 samples and more: at least 1 GB/s",
    about: |row| row.samples >= 16_384,
    figure: levels::Row::speed,
    limit: Limit::AtLeast(1.0),
}];

pub const COLUMNS: [Target<columns::Row>; 2] = [
    Target {
        text: "all of 4,096 tracks, in columns: visit/gone through at least 1",
        about: |row| row.tracks == MOST_TRACKS,
        figure: columns::Row::gain,
        limit: Limit::AtLeast(1.0),
    },
    Target {
        text: "all of 4,096 tracks, by the package: visit/iterated at least 1",
        about: |row| row.tracks == MOST_TRACKS,
        figure: columns::Row::gain_by_package,
        limit: Limit::AtLeast(1.0),
    },
];

pub const STORE: [Target<store::Row>; 1] = [Target {
    text: "frames that are not kept: store at most 5 ns more than pass",
    about: |row| !row.is_kept,
    figure: store::Row::more,
    limit: Limit::AtMost(5.0),
}];

pub const UPLINK: [Target<uplink::Row>; 1] = [Target {
    text: "every call: port at most 5 ns more than plain Rust",
    about: |_| true,
    figure: uplink::Row::more,
    limit: Limit::AtMost(5.0),
}];

/// A line for each target and each state of the buffers.
pub fn print<R: Measured>(page: Page, title: &str, targets: &[Target<R>], states: &[Vec<R>]) {
    let lines = |target| states.iter().map(move |rows| Target::cells(target, rows));
    let table: Vec<_> = targets.iter().flat_map(lines).collect();
    page.section(title);
    page.table(&["target", "buffers", "met by", "worst", "at"], &table);
}

impl<R: Measured> Target<R> {
    fn cells(&self, rows: &[R]) -> Vec<String> {
        let about = || rows.iter().filter(|row| (self.about)(row));
        let margin = |row: &&R| self.margin(row);
        let met = about().filter(|row| self.margin(row) >= 0.0).count();
        let worst = about().min_by(|a, b| margin(a).total_cmp(&margin(b)));
        let worst = worst.expect("some shape is meant");
        vec![
            self.text.into(),
            worst.state().name().into(),
            format!("{met} of {}", about().count()),
            ratio((self.figure)(worst)),
            worst.name().into(),
        ]
    }

    /// How far a row is on the right side of the limit.
    fn margin(&self, row: &R) -> f64 {
        let figure = (self.figure)(row);
        match self.limit {
            Limit::AtLeast(limit) => figure - limit,
            Limit::AtMost(limit) => limit - figure,
        }
    }
}
