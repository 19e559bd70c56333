//! Every track of a container by columns, beside one visit of the original and a request for each.

use std::cell::RefCell;
use std::hint::black_box;

use common::containers::Form;
use hozgrim::FrameType;
use oracle::ertmp::multitrack_media::foreach_track;

use crate::agreement::agreed_tracks;
use crate::buffers::{Buffers, State};
use crate::frames::{self, Frame, MOST_TRACKS};
use crate::page::{nanoseconds, ratio};
use crate::port::{self, ColumnsCall, ColumnsMut, HozgrimTrack, column_track, walk_columns};
use crate::sides::Side;
use crate::targets::Measured;
use crate::timing::{Batch, Plan, batch, measure};

/// The numbers of tracks, of bodies that are all as long, and of bodies that are not.
const EVEN: [usize; 5] = [1, 8, 64, 512, MOST_TRACKS];
const UNEVEN: [usize; 4] = [8, 64, 512, MOST_TRACKS];

/// How many containers have as many tracks as can be, beside these.
const MOST: usize = 2;

/// Without bodies, which is a frame of 16 kB, and with FourCCs of their own.
fn most() -> [Frame; MOST] {
    [
        frames::coded_tracks(Form::ManyTracks, MOST_TRACKS, 0),
        frames::own_fourccs(MOST_TRACKS),
    ]
}

/// A container, and columns with an entry for each track. They are as a walk left them before
/// anything is measured, and every walk leaves them so.
pub struct Walked {
    frame: Frame,
    columns: RefCell<Columns>,
}

struct Columns {
    ids: Vec<u8>,
    fourccs: Vec<u32>,
    starts: Vec<usize>,
    lengths: Vec<usize>,
}

impl Columns {
    fn new(count: usize) -> Self {
        Self {
            ids: vec![0; count],
            fourccs: vec![0; count],
            starts: vec![0; count],
            lengths: vec![0; count],
        }
    }

    /// How many tracks were put into the columns.
    #[inline]
    fn walk(&mut self, frame: &Frame, payload: &[u8]) -> usize {
        let columns = ColumnsMut {
            ids: &mut self.ids,
            fourccs: &mut self.fourccs,
            starts: &mut self.starts,
            lengths: &mut self.lengths,
        };
        walk_columns(frame.frame_type as u32, payload, columns).count
    }

    #[inline]
    fn lent_to_package(&mut self) -> hozgrim::ColumnsMut<'_> {
        hozgrim::ColumnsMut {
            ids: &mut self.ids,
            fourccs: &mut self.fourccs,
            starts: &mut self.starts,
            lengths: &mut self.lengths,
        }
    }

    #[inline]
    fn lent<'a>(&'a self, frame: &Frame, payload: &'a [u8], count: usize) -> ColumnsCall<'a> {
        ColumnsCall {
            frame_type: frame.frame_type as u32,
            count,
            ids: &self.ids,
            fourccs: &self.fourccs,
            starts: &self.starts,
            lengths: &self.lengths,
            payload,
        }
    }
}

impl Walked {
    /// How many there are.
    pub const COUNT: usize = EVEN.len() + MOST + UNEVEN.len();

    pub fn all() -> Vec<Self> {
        let even = EVEN.into_iter().map(frames::short_tracks);
        let uneven = UNEVEN.into_iter().map(frames::uneven_tracks);
        even.chain(most()).chain(uneven).map(Self::new).collect()
    }

    /// Every track must be the original's, by the request and by columns.
    fn new(frame: Frame) -> Self {
        let (number, payload) = (frame.frame_type as u32, &frame.payload[..]);
        let tracks = agreed_tracks(&frame);
        let mut columns = Columns::new(tracks.len());
        assert_eq!(columns.walk(&frame, payload), tracks.len());
        let lent = columns.lent(&frame, payload, tracks.len());
        for (at, track) in tracks.iter().enumerate() {
            assert_eq!(*track, column_track(&lent, at), "{}", frame.name);
        }
        for at in [0, tracks.len() / 2, tracks.len(), usize::MAX] {
            assert_eq!(port::track(number, payload, at), column_track(&lent, at));
        }
        Self {
            frame,
            columns: RefCell::new(columns),
        }
    }

    fn tracks(&self) -> usize {
        self.columns.borrow().ids.len()
    }

    /// The requests are measured by themselves: one round of them takes as long as thousands of the
    /// others.
    pub fn measured(&self, plan: Plan) -> Row {
        let sides: [Batch<Self>; 6] = [
            batch::<Walk, _>,
            batch::<GoThrough, _>,
            batch::<Iterate, _>,
            batch::<ReadAll, _>,
            batch::<ReadLast, _>,
            batch::<Visit, _>,
        ];
        let buffers = || Buffers::with_room(&self.frame.payload, 0, State::Warm);
        let costs = measure(plan, self, buffers(), sides);
        let [walk, gone_through, iterated, all_read, last_read, visit] =
            costs.map(|cost| cost.median);
        let requests: [Batch<Self>; 1] = [batch::<Requests, _>];
        let [requests] = measure(plan, self, buffers(), requests);
        Row {
            name: self.frame.name.clone(),
            tracks: self.tracks(),
            walk,
            gone_through,
            iterated,
            all_read,
            last_read,
            visit,
            requests: requests.median,
        }
    }
}

/// What every side does with the tracks that it gets: it adds up what they say.
#[derive(Default)]
struct Sum(usize);

impl Sum {
    #[inline]
    fn add(&mut self, id: u8, fourcc: u32, place: usize, length: usize) {
        let parts = [usize::from(id), fourcc as usize, place, length];
        self.0 = parts.into_iter().fold(self.0, usize::wrapping_add);
    }

    #[inline]
    fn add_track(&mut self, track: &HozgrimTrack) {
        self.add(track.track_id, track.fourcc, track.start, track.length);
    }
}

/// The port's walk into columns, and nothing else.
struct Walk;

impl Side<Walked> for Walk {
    fn run(walked: &Walked, payload: &mut [u8], _: &mut [u8]) {
        let columns = &mut *walked.columns.borrow_mut();
        black_box(columns.walk(&walked.frame, payload));
        black_box(columns);
    }
}

/// The port's walk into columns, which are then gone through as they stand.
struct GoThrough;

impl Side<Walked> for GoThrough {
    fn run(walked: &Walked, payload: &mut [u8], _: &mut [u8]) {
        let columns = &mut *walked.columns.borrow_mut();
        let count = columns.walk(&walked.frame, payload);
        let names = columns.ids[..count].iter().zip(&columns.fourccs);
        let places = columns.starts.iter().zip(&columns.lengths);
        let mut sum = Sum::default();
        for ((id, fourcc), (start, length)) in names.zip(places) {
            sum.add(*id, *fourcc, *start, *length);
        }
        black_box(sum.0);
    }
}

/// The same by the package `hozgrim`: an iterator over lent columns.
struct Iterate;

impl Side<Walked> for Iterate {
    fn run(walked: &Walked, payload: &mut [u8], _: &mut [u8]) {
        let columns = &mut *walked.columns.borrow_mut();
        let mut sum = Sum::default();
        // All containers here are audio.
        if let Ok(tracks) = columns.lent_to_package().walk(FrameType::Audio, payload) {
            for track in tracks {
                let fourcc = track.fourcc.number();
                sum.add(track.id, fourcc, track.start, track.payload.len());
            }
        }
        black_box(sum.0);
    }
}

/// The port's walk into columns, and then every track from them by its number.
struct ReadAll;

impl Side<Walked> for ReadAll {
    fn run(walked: &Walked, payload: &mut [u8], _: &mut [u8]) {
        let columns = &mut *walked.columns.borrow_mut();
        let count = columns.walk(&walked.frame, payload);
        let lent = columns.lent(&walked.frame, payload, count);
        let mut sum = Sum::default();
        for number in 0..count {
            sum.add_track(&column_track(&lent, number));
        }
        black_box(sum.0);
    }
}

/// The last track from columns, without a walk.
struct ReadLast;

impl Side<Walked> for ReadLast {
    fn run(walked: &Walked, payload: &mut [u8], _: &mut [u8]) {
        let columns = &*walked.columns.borrow_mut();
        let count = columns.ids.len();
        let lent = columns.lent(&walked.frame, payload, count);
        let mut sum = Sum::default();
        sum.add_track(&column_track(&lent, count - 1));
        black_box(sum.0);
    }
}

/// The original's tracks, visited once.
struct Visit;

impl Side<Walked> for Visit {
    fn run(walked: &Walked, payload: &mut [u8], _: &mut [u8]) {
        let _columns = &*walked.columns.borrow_mut();
        let mut sum = Sum::default();
        black_box(foreach_track(walked.frame.frame_type, payload, |track| {
            let fourcc = u32::from_be_bytes(track.fourcc);
            let body = track.payload;
            sum.add(track.track_id, fourcc, body.as_ptr() as usize, body.len());
        }));
        black_box(sum.0);
    }
}

/// The port's tracks, asked for one by one.
struct Requests;

impl Side<Walked> for Requests {
    fn run(walked: &Walked, payload: &mut [u8], _: &mut [u8]) {
        let _columns = &*walked.columns.borrow_mut();
        let number = walked.frame.frame_type as u32;
        let first = port::track(number, payload, 0);
        let mut sum = Sum::default();
        sum.add_track(&first);
        for track in 1..first.count {
            sum.add_track(&port::track(number, payload, track));
        }
        black_box(sum.0);
    }
}

/// What the tracks of a container cost by each side, in nanoseconds.
pub struct Row {
    name: String,
    pub tracks: usize,
    walk: f64,
    gone_through: f64,
    iterated: f64,
    all_read: f64,
    last_read: f64,
    visit: f64,
    requests: f64,
}

impl Row {
    /// What the heads mean.
    pub const LEGEND: &str = "\
walk: the port puts all tracks into columns. gone through: and the caller goes through the columns.
iterated: or over the tracks in them, by the package hozgrim. all read: or reads every track from
them by its number. read the last: one such reading, without a walk. one visit: the original hands
all tracks out. requests: the port is asked for each track by its number. All but the walk add up
ids, FourCCs, places and lengths.";

    /// The heads of `cells`.
    pub const HEADS: [&str; 8] = [
        "container",
        "walk",
        "gone through",
        "iterated",
        "all read",
        "read the last",
        "original, one visit",
        "requests",
    ];

    pub fn cells(&self) -> Vec<String> {
        vec![
            self.name.clone(),
            nanoseconds(self.walk),
            nanoseconds(self.gone_through),
            nanoseconds(self.iterated),
            nanoseconds(self.all_read),
            nanoseconds(self.last_read),
            nanoseconds(self.visit),
            nanoseconds(self.requests),
        ]
    }

    /// The heads of `cells_per_track`.
    pub const HEADS_PER_TRACK: [&str; 9] = [
        "per track of",
        "walk",
        "gone through",
        "iterated",
        "all read",
        "original, one visit",
        "requests",
        "visit/gone through",
        "visit/iterated",
    ];

    pub fn cells_per_track(&self) -> Vec<String> {
        let each = |time: f64| nanoseconds(time / self.tracks as f64);
        vec![
            self.name.clone(),
            each(self.walk),
            each(self.gone_through),
            each(self.iterated),
            each(self.all_read),
            each(self.visit),
            each(self.requests),
            ratio(self.gain()),
            ratio(self.gain_by_package()),
        ]
    }

    /// How many times as fast as the original's visit the port is where the caller goes through the
    /// columns.
    pub fn gain(&self) -> f64 {
        self.visit / self.gone_through
    }

    /// How many times as fast it is where the package iterates over them.
    pub fn gain_by_package(&self) -> f64 {
        self.visit / self.iterated
    }
}

impl Measured for Row {
    fn name(&self) -> &str {
        &self.name
    }

    fn state(&self) -> State {
        State::Warm
    }
}

#[cfg(test)]
mod tests {
    use super::*;

    #[test]
    fn every_container_is_agreed_on() {
        let tracks = Walked::all().iter().map(Walked::tracks).collect::<Vec<_>>();
        assert_eq!(tracks, [&EVEN[..], &[MOST_TRACKS; MOST], &UNEVEN].concat());
    }
}
