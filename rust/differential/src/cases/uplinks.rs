//! The stored cases of the program `uplink_cases`: ticks and offers of an uplink that viewers share.
//! They are made by `rust/run-differential uplink_cases crates/uplink_cases`, in the root of the
//! repository; `crates/uplink_cases/README.md` says what a row holds.
//!
//! The Rust has no sharer; the answers come from the reading of request N10 (docs/REQUIREMENTS.md,
//! section 23) that the port is held against. The calls of a history stand in rows one behind the
//! other, each with the columns as the call before left them.

use std::io;
use std::path::Path;

use common::requirement::{DEBT_LIMIT, OUT_OF_RANGE};
use common::{files, say};
use hozgrim_sys::{HozgrimOffer, OfferCall};

use super::sample::count;
use super::wide;
use crate::uplink::alone::{CRITICAL, MOST_VIEWERS, RESYNC_POINT, Reason, SENT, Viewers, reasons};
use crate::uplink::examples::examples;
use crate::uplink::{Answer, Call, Columns, History};

/// The bytes that the program knows the operations by.
const TICK: u8 = b't';
const OFFER: u8 = b'o';

/// The most entries of a column in a row.
const MOST: usize = MOST_VIEWERS + 2;

/// The classes of what is answered. Waiting is what the viewer does before the call.
const CLASSES: &[&str] = &[
    "tick, -32, number of viewers",
    "tick, -32, U",
    "tick, -32, a column too short",
    "tick, -32, a credit",
    "tick, nothing cut off",
    "tick, nothing cut off, a debt",
    "tick, some cut off",
    "offer, -32, number of viewers",
    "offer, -32, a column too short",
    "offer, -32, viewer",
    "offer, -32, hint",
    "offer, -32, a credit",
    "offer, -33",
    "Critical, sent",
    "Critical, sent, waiting",
    "ResyncPoint, sent",
    "ResyncPoint, sent, waiting",
    "ResyncPoint, dropped",
    "ResyncPoint, dropped, waiting",
    "Droppable, sent",
    "Droppable, dropped",
    "Droppable, dropped, waiting",
];

/// The classes of columns, beside the number of viewers.
const COLUMNS: &[&str] = &[
    "an entry for each viewer",
    "entries behind the viewers",
    "credits too short",
    "marks too short",
    "number of viewers out of range",
];

/// Writes the files `stdin` and `stdout` in the folder, and prints how many rows each class of
/// answers and of columns has.
pub fn write(folder: &Path) -> io::Result<()> {
    let rows: Vec<Row> = examples().iter().flat_map(rows_of).collect();
    count("uplink", CLASSES, rows.iter().map(Row::class))?;
    count("uplink, by columns", COLUMNS, rows.iter().map(Row::columns))?;
    let stdin: Vec<u8> = rows.iter().flat_map(Row::bytes).collect();
    let ticks = rows.iter().filter(|row| row.is_tick()).count();
    let offers = rows.len() - ticks;
    say!("{ticks} ticks, {offers} offers, {} bytes in", stdin.len());
    let stdout =
        format!("uplink_tick {ticks} rows, 0 differ\nuplink_offer {offers} rows, 0 differ\n");
    files::write(&folder.join("stdin"), stdin)?;
    files::write(&folder.join("stdout"), stdout)
}

/// A call, the columns that it is lent, and what it leaves.
struct Row {
    call: Call,
    before: Columns,
    answer: Answer,
    after: Columns,
}

/// Columns as a row has them: credits of four bytes, and then marks of one.
struct Entries {
    lengths: [usize; 2],
    bytes: Vec<u8>,
}

fn entries(columns: &Columns, marked: bool) -> Entries {
    let Columns { credits, marks } = columns;
    let marks: &[u8] = if marked { marks } else { &[] };
    let numbers = credits.iter().flat_map(|credit| credit.to_be_bytes());
    Entries {
        lengths: [credits.len(), marks.len()],
        bytes: numbers.chain(marks.iter().copied()).collect(),
    }
}

fn rows_of(history: &History) -> Vec<Row> {
    let mut viewers = Viewers::new(&history.start);
    let row = |&call| Row {
        call,
        before: viewers.columns(),
        answer: viewers.answer(&call),
        after: viewers.columns(),
    };
    history.calls.iter().map(row).collect()
}

impl Row {
    fn is_tick(&self) -> bool {
        matches!(self.call, Call::Tick { .. })
    }

    /// A head of 33 bytes, the columns that are lent, and those that are left. A tick has no marks.
    fn bytes(&self) -> Vec<u8> {
        let (operation, number, sizes, marked) = match self.call {
            Call::Tick { viewers, uplink } => (TICK, uplink, [viewers, 0, 0], false),
            Call::Offer(OfferCall {
                viewers,
                viewer,
                hint,
                length,
            }) => (OFFER, hint, [viewers, viewer, length], true),
        };
        let (error, decision) = match self.answer {
            Answer::Tick(error) => (error, 0),
            Answer::Offer(HozgrimOffer { error, decision }) => (error, decision),
        };
        let columns = [&self.before, &self.after].map(|columns| entries(columns, marked));
        let [credits, marks] = columns[0].lengths;
        assert!(credits.max(marks) <= MOST);
        let head = [operation, credits as u8, marks as u8];
        let answer = [error.unsigned_abs() as u8, decision as u8];
        let sizes = sizes.map(wide).concat();
        let [before, after] = columns.map(|columns| columns.bytes);
        [
            &head[..],
            &answer,
            &number.to_be_bytes(),
            &sizes,
            &before,
            &after,
        ]
        .concat()
    }

    fn class(&self) -> &'static str {
        match (&self.call, &self.answer) {
            (Call::Tick { .. }, Answer::Tick(OUT_OF_RANGE)) => match self.reason() {
                Reason::Viewers => "tick, -32, number of viewers",
                Reason::Uplink => "tick, -32, U",
                Reason::Credits => "tick, -32, a column too short",
                _ => "tick, -32, a credit",
            },
            (Call::Tick { viewers, uplink }, _) => {
                let share = *uplink as i32 / *viewers as i32;
                let credits = &self.before.credits[..*viewers];
                match (credits.iter().max(), credits.iter().min()) {
                    (Some(most), _) if *most > share => "tick, some cut off",
                    (_, Some(..0)) => "tick, nothing cut off, a debt",
                    _ => "tick, nothing cut off",
                }
            }
            (Call::Offer(offer), Answer::Offer(answer)) => self.class_of_offer(offer, answer),
            (Call::Offer(_), Answer::Tick(_)) => unreachable!("an offer has an answer of its own"),
        }
    }

    fn class_of_offer(&self, offer: &OfferCall, answer: &HozgrimOffer) -> &'static str {
        match answer.error {
            OUT_OF_RANGE => {
                return match self.reason() {
                    Reason::Viewers => "offer, -32, number of viewers",
                    Reason::Credits | Reason::Marks => "offer, -32, a column too short",
                    Reason::Viewer => "offer, -32, viewer",
                    Reason::Hint => "offer, -32, hint",
                    _ => "offer, -32, a credit",
                };
            }
            DEBT_LIMIT => return "offer, -33",
            _ => {}
        }
        let waits = self.before.marks[offer.viewer] != 0;
        match (offer.hint, answer.decision, waits) {
            (CRITICAL, _, false) => "Critical, sent",
            (CRITICAL, _, true) => "Critical, sent, waiting",
            (RESYNC_POINT, SENT, false) => "ResyncPoint, sent",
            (RESYNC_POINT, SENT, true) => "ResyncPoint, sent, waiting",
            (RESYNC_POINT, _, false) => "ResyncPoint, dropped",
            (RESYNC_POINT, _, true) => "ResyncPoint, dropped, waiting",
            (_, SENT, _) => "Droppable, sent",
            (_, _, false) => "Droppable, dropped",
            (_, _, true) => "Droppable, dropped, waiting",
        }
    }

    /// The first reason for which the call is refused.
    fn reason(&self) -> Reason {
        reasons(&self.before, &self.call)[0]
    }

    fn columns(&self) -> &'static str {
        let viewers = self.call.viewers();
        let Columns { credits, marks } = &self.before;
        let needs_marks = matches!(self.call, Call::Offer(_));
        match credits.len() {
            _ if !(1..=MOST_VIEWERS).contains(&viewers) => "number of viewers out of range",
            length if length < viewers => "credits too short",
            _ if needs_marks && marks.len() < viewers => "marks too short",
            length if length > viewers => "entries behind the viewers",
            _ => "an entry for each viewer",
        }
    }
}
