//! Request N10 (docs/REQUIREMENTS.md, section 23), read for one viewer alone: what it is answered
//! comes from the ticks and from the frames that are offered to it, and no other viewer is looked
//! at. Whether it waits is looked up in what it was answered before, and kept nowhere.

use std::iter;

use common::requirement::{DEBT_LIMIT, OUT_OF_RANGE};
use hozgrim_sys::{HozgrimOffer, OfferCall};

use super::{Answer, Call, Columns};

/// The hints.
pub const CRITICAL: u32 = 0;
pub const RESYNC_POINT: u32 = 1;
pub const DROPPABLE: u32 = 2;

/// The decisions.
pub const SENT: u32 = 1;
pub const DROPPED: u32 = 2;

/// The most that there can be of each.
pub const MOST_VIEWERS: usize = 64;
pub const MOST_UPLINK: u32 = 16_777_215;
pub const MOST_CREDIT: i128 = 33_554_430;
pub const MOST_DEBT: i128 = 2_000_000_000;

/// One viewer.
pub struct Viewer {
    /// Below 0 it is a debt.
    credit: i128,
    /// The mark that was lent at first.
    lent: u8,
    /// The hint of each frame that was sent or dropped, in their order, and whether it was sent.
    decided: Vec<(u32, bool)>,
}

impl Viewer {
    pub fn new(credit: i32, mark: u8) -> Self {
        Self {
            credit: credit.into(),
            lent: mark,
            decided: vec![],
        }
    }

    pub fn credit(&self) -> i128 {
        self.credit
    }

    /// The share comes on top of what was left, and both together are at most two shares.
    pub fn tick(&mut self, share: i128) {
        self.credit = (self.credit + share).min(2 * share);
    }

    pub fn offer(&mut self, hint: u32, length: usize) -> HozgrimOffer {
        let left = self.credit - length as i128;
        let goes = match hint {
            CRITICAL if -left > MOST_DEBT => {
                return HozgrimOffer {
                    error: DEBT_LIMIT,
                    decision: 0,
                };
            }
            CRITICAL => true,
            RESYNC_POINT => left >= 0,
            _ => left >= 0 && !self.waits(),
        };
        self.decided.push((hint, goes));
        if goes {
            self.credit = left;
        }
        HozgrimOffer {
            error: 0,
            decision: if goes { SENT } else { DROPPED },
        }
    }

    /// Whether a frame was dropped behind the last ResyncPoint that was sent. None if there was
    /// neither a drop nor such a ResyncPoint.
    fn dropped(&self) -> Option<bool> {
        let mut back = self.decided.iter().rev();
        let last = back.find(|(hint, sent)| !sent || *hint == RESYNC_POINT);
        last.map(|(_, sent)| !sent)
    }

    fn waits(&self) -> bool {
        self.dropped().unwrap_or(self.lent != 0)
    }

    /// What stands in the column of marks.
    pub fn mark(&self) -> u8 {
        self.dropped().map_or(self.lent, u8::from)
    }
}

/// Every viewer of columns, each by itself.
pub struct Viewers<'a> {
    start: &'a Columns,
    each: Vec<Viewer>,
}

impl<'a> Viewers<'a> {
    pub fn new(start: &'a Columns) -> Self {
        let marks = start.marks.iter().copied().chain(iter::repeat(0));
        let each = start.credits.iter().zip(marks);
        Self {
            start,
            each: each
                .map(|(credit, mark)| Viewer::new(*credit, mark))
                .collect(),
        }
    }

    /// Those that have a credit.
    pub fn each(&self) -> &[Viewer] {
        &self.each
    }

    /// What is answered to the next call. Credits are judged as they were lent at first: one in
    /// range stays in range, and one that is not stays as it is, since ticks and its viewer's
    /// offers are refused.
    pub fn answer(&mut self, call: &Call) -> Answer {
        let refused = !reasons(self.start, call).is_empty();
        match *call {
            Call::Tick { .. } if refused => Answer::Tick(OUT_OF_RANGE),
            Call::Tick { viewers, uplink } => {
                let share = i128::from(uplink) / viewers as i128;
                let ticked = self.each[..viewers].iter_mut();
                ticked.for_each(|viewer| viewer.tick(share));
                Answer::Tick(0)
            }
            Call::Offer(_) if refused => Answer::Offer(HozgrimOffer {
                error: OUT_OF_RANGE,
                decision: 0,
            }),
            Call::Offer(offer) => {
                let viewer = &mut self.each[offer.viewer];
                Answer::Offer(viewer.offer(offer.hint, offer.length))
            }
        }
    }

    /// The columns now. An entry that is no viewer's is as it was lent.
    pub fn columns(&self) -> Columns {
        let mut columns = self.start.clone();
        self.put(&mut columns.credits, &mut columns.marks);
        columns
    }

    /// Puts credit and mark of each viewer into columns. What `answer` says of credits must hold.
    pub fn put(&self, credits: &mut [i32], marks: &mut [u8]) {
        let lent = self.start.credits.iter().map(|credit| in_range(*credit));
        for ((credit, viewer), in_range_at_first) in credits.iter_mut().zip(&self.each).zip(lent) {
            *credit = viewer.credit.try_into().expect("a credit has 32 bits");
            assert_eq!(in_range(*credit), in_range_at_first);
        }
        for (mark, viewer) in marks.iter_mut().zip(&self.each) {
            *mark = viewer.mark();
        }
    }
}

/// What a call lends that is out of range.
#[derive(Clone, Copy, Debug, PartialEq)]
pub enum Reason {
    /// The number of viewers.
    Viewers,
    /// A column that is shorter than that.
    Credits,
    Marks,
    Uplink,
    Viewer,
    Hint,
    /// The credit of this viewer.
    Credit(usize),
}

/// Every reason to refuse a call with -32. A tick judges the credits of all viewers, an offer that
/// of the one who is offered something. What is measured by a number of viewers that is itself out
/// of range is no reason of its own.
pub fn reasons(columns: &Columns, call: &Call) -> Vec<Reason> {
    let mut reasons = vec![];
    let mut judge = |holds: bool, reason| {
        if !holds {
            reasons.push(reason);
        }
    };
    let viewers = call.viewers();
    judge((1..=MOST_VIEWERS).contains(&viewers), Reason::Viewers);
    if viewers <= MOST_VIEWERS {
        judge(viewers <= columns.credits.len(), Reason::Credits);
    }
    let numbered = columns.credits.iter().enumerate().take(viewers);
    match *call {
        Call::Tick { uplink, .. } => {
            judge(uplink <= MOST_UPLINK, Reason::Uplink);
            for (at, credit) in numbered {
                judge(in_range(*credit), Reason::Credit(at));
            }
        }
        Call::Offer(OfferCall { viewer, hint, .. }) => {
            if viewers <= MOST_VIEWERS {
                judge(viewers <= columns.marks.len(), Reason::Marks);
            }
            if viewers > 0 {
                judge(viewer < viewers, Reason::Viewer);
            }
            judge(hint <= DROPPABLE, Reason::Hint);
            for (at, credit) in numbered.skip(viewer).take(1) {
                judge(in_range(*credit), Reason::Credit(at));
            }
        }
    }
    reasons
}

pub fn in_range(credit: i32) -> bool {
    (-MOST_DEBT..=MOST_CREDIT).contains(&credit.into())
}
