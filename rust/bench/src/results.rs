//! The measurements of a run, and the tables and plots that show them.

use common::containers::Form;
use common::progress::Progress;

use crate::buffers::State;
use crate::columns::{self, Walked};
use crate::frames::{self, Frame, MOST_TRACKS};
use crate::levels::{self, Sound};
use crate::page::{Page, grouped, nanoseconds};
use crate::plot::plot;
use crate::recording::Recording;
use crate::rows::Row;
use crate::store::{self, Offered};
use crate::timing::Plan;
use crate::uplink::{self, History};
use crate::writing::Writing;

const LENGTHS: [usize; 8] = [64, 256, 1_024, 4_096, 16_384, 65_536, 262_144, 1_048_576];

const TRACKS: [usize; 9] = [1, 2, 4, 8, 16, 64, 256, 1_024, MOST_TRACKS];

/// The containers that are written: the form, the number of tracks, and the length of each body.
const WRITTEN: [(Form, usize, usize); 6] = [
    (Form::OneTrack, 1, 40_000),
    (Form::ManyTracks, 8, 40_000),
    (Form::ManyTracks, 64, 40_000),
    (Form::ManyTracks, MOST_TRACKS, 10),
    (Form::ManyTracksManyCodecs, MOST_TRACKS, 10),
    (Form::ManyTracks, MOST_TRACKS, 1_000),
];

pub struct Run {
    page: Page,
    plan: Plan,
    done: u64,
    progress: Progress,
}

impl Run {
    pub fn new(page: Page, plan: Plan) -> Self {
        let recordings = Recording::read().len() + Recording::written().len();
        let frames = frames::shapes().len() + LENGTHS.len() + Sound::all().len();
        let in_both = frames + Offered::all().len() + WRITTEN.len() + recordings;
        let warm = 2 * TRACKS.len() + Walked::COUNT + History::COUNT;
        let total = State::BOTH.len() * in_both + warm;
        Self {
            page,
            plan,
            done: 0,
            progress: Progress::new("bench", format!("of {total} measurements")),
        }
    }

    fn step(&mut self) {
        self.done += 1;
        self.progress.reach(self.done);
    }

    fn section(&mut self, title: &str) {
        self.progress.pause();
        self.page.section(title);
    }

    fn row(&mut self, frame: &Frame, state: State) -> Row {
        let row = Row::measured(self.plan, frame, state);
        self.step();
        row
    }

    pub fn shapes(&mut self, state: State) -> Vec<Row> {
        let frames = frames::shapes();
        let rows: Vec<Row> = frames.iter().map(|frame| self.row(frame, state)).collect();
        let cells = |row: &Row| {
            let mut cells = vec![row.name.clone(), grouped(row.bytes)];
            cells.extend(row.cells());
            cells.extend(row.cells_in_place());
            cells
        };
        let heads = [&["shape", "bytes"], &Row::HEADS[..], &Row::HEADS_IN_PLACE];
        let title = format!("Shapes of frames, buffers {}", state.name());
        let table: Vec<_> = rows.iter().map(cells).collect();
        self.section(&title);
        self.page.table(&heads.concat(), &table);
        self.page.paragraph(&spread(&rows));
        rows
    }

    pub fn lengths(&mut self, state: State) {
        let title = format!(
            "Growth with the payload, keyframes, buffers {}",
            state.name()
        );
        let rows = LENGTHS.map(|length| (length, self.row(&frames::keyframe(length), state)));
        self.growth(&title, ["bytes", "port per kB"], 1_000.0, &rows);
    }

    pub fn tracks(&mut self, kind: &str, frame: impl Fn(usize) -> Frame) {
        let title = format!("Growth with the tracks, {kind}, buffers warm");
        let rows = TRACKS.map(|count| (count, self.row(&frame(count), State::Warm)));
        self.growth(&title, ["tracks", "port per track"], 1.0, &rows);
    }

    /// A table and a plot by size. The last column is the port's cost for so much of the size.
    fn growth(&mut self, title: &str, heads: [&str; 2], unit: f64, rows: &[(usize, Row)]) {
        let cells = |(size, row): &(usize, Row)| {
            let mut cells = vec![grouped(*size)];
            cells.extend(row.cells());
            cells.push(nanoseconds(row.port.median / *size as f64 * unit));
            cells
        };
        let marks = |(size, row): &(usize, Row)| (grouped(*size), row.marks());
        let heads = [&heads[..1], &Row::HEADS, &heads[1..]].concat();
        let table: Vec<_> = rows.iter().map(cells).collect();
        let lines: Vec<_> = rows.iter().map(marks).collect();
        self.section(title);
        self.page.table(&heads, &table);
        self.page.plot(&plot(&lines));
    }

    /// Every track of a container by columns, beside one visit of the original and requests.
    pub fn columns(&mut self) -> Vec<columns::Row> {
        let rows = Walked::all().into_iter().map(|walked| {
            let row = walked.measured(self.plan);
            self.step();
            row
        });
        let rows: Vec<_> = rows.collect();
        let table: Vec<_> = rows.iter().map(columns::Row::cells).collect();
        let per_track: Vec<_> = rows.iter().map(columns::Row::cells_per_track).collect();
        self.section("Every track of a container, buffers warm");
        self.page.paragraph(columns::Row::LEGEND);
        self.page.table(&columns::Row::HEADS, &table);
        self.page.table(&columns::Row::HEADS_PER_TRACK, &per_track);
        rows
    }

    /// Frames offered to a store, beside the whole pass.
    pub fn offered(&mut self, state: State) -> Vec<store::Row> {
        let rows = Offered::all().into_iter().map(|offered| {
            let row = offered.measured(self.plan, state);
            self.step();
            row
        });
        let rows: Vec<_> = rows.collect();
        let table: Vec<_> = rows.iter().map(store::Row::cells).collect();
        self.section(&format!(
            "Frames offered to a store, buffers {}",
            state.name()
        ));
        self.page.table(&store::Row::HEADS, &table);
        rows
    }

    /// Ticks and offers of a shared uplink, beside a plain sharer.
    pub fn uplink(&mut self) -> Vec<uplink::Row> {
        let rows = History::all().into_iter().map(|history| {
            let row = history.measured(self.plan);
            self.step();
            row
        });
        let rows: Vec<_> = rows.collect();
        let table: Vec<_> = rows.iter().map(uplink::Row::cells).collect();
        self.section("An uplink that viewers share, columns warm");
        self.page.paragraph(uplink::Row::LEGEND);
        self.page.table(&uplink::Row::HEADS, &table);
        rows
    }

    /// Containers written, beside copies of their bodies to the same output.
    pub fn written(&mut self, state: State) {
        let rows = WRITTEN.map(|(form, count, length)| {
            let cells = Writing::new(form, count, length).cells(self.plan, state);
            self.step();
            cells
        });
        let title = format!("Containers written, buffers {}", state.name());
        self.section(&title);
        self.page.table(&Writing::HEADS, &rows);
    }

    /// Recordings read, beside a bare walk and a copy of the file.
    pub fn recordings_read(&mut self, state: State) {
        let rows = Recording::read().into_iter().map(|recording| {
            let cells = recording.read_cells(self.plan, state);
            self.step();
            cells
        });
        let rows: Vec<_> = rows.collect();
        self.section(&format!("Recordings read, buffers {}", state.name()));
        self.page.table(&Recording::READ_HEADS, &rows);
    }

    /// Recordings written, beside copies of their bodies to the same output.
    pub fn recordings_written(&mut self, state: State) {
        let rows = Recording::written().into_iter().map(|recording| {
            let cells = recording.written_cells(self.plan, state);
            self.step();
            cells
        });
        let rows: Vec<_> = rows.collect();
        self.section(&format!("Recordings written, buffers {}", state.name()));
        self.page.table(&Recording::WRITTEN_HEADS, &rows);
    }

    /// Levels of frames, beside a loop over a table and a bare read of the samples.
    pub fn levels(&mut self, state: State) -> Vec<levels::Row> {
        let rows = Sound::all().into_iter().map(|sound| {
            let row = sound.measured(self.plan, state);
            self.step();
            row
        });
        let rows: Vec<_> = rows.collect();
        let table: Vec<_> = rows.iter().map(levels::Row::cells).collect();
        self.section(&format!("Levels, buffers {}", state.name()));
        self.page.table(&levels::Row::HEADS, &table);
        rows
    }
}

/// How far the times of a table are spread, which tells a quiet machine from a busy one.
fn spread(rows: &[Row]) -> String {
    let most = rows.iter().map(Row::spread).fold(0.0, f64::max);
    let most = (100.0 * most).round();
    format!("Between the quartiles of a row's times lie at most {most} % of its median.")
}

pub fn avc_records(count: usize) -> Frame {
    frames::avc_records(Form::ManyTracks, count)
}
