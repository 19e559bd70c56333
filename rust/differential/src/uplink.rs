//! The sharer of one uplink among several viewers: ticks and offers, one after the other, beside
//! what each viewer by itself must be answered. The Rust has no sharer.

pub mod alone;
mod apart;
mod class;
mod counted;
pub mod examples;
mod histories;
mod line;

use std::iter;

use common::rng::Rng;
use hozgrim_sys::{HozgrimOffer, OfferCall};

use crate::input::{Input, lower, parts, with_one_smaller};
use crate::run::{Comparison, Difference, same};
use alone::Viewers;
use apart::Apart;
use counted::Counted;

/// How many entries stand before and behind each column that are not lent.
const GUARDS: usize = 2;

/// What the guards of marks are. No call writes it.
const MARK_GUARD: u8 = 0xA5;

/// What the guards of credits are, in turn: a credit in range, which no tick would leave as it is,
/// and one out of range, for which a tick would be refused.
const CREDIT_GUARDS: [i32; 2] = [7, i32::MAX];

pub struct Uplink;

impl Comparison for Uplink {
    const NAME: &'static str = "uplink";

    const CLASSES: &'static [&'static str] = class::CLASSES;

    const SIDES: [&'static str; 2] = ["requirement", "port"];

    type Input = Asked;

    fn listed() -> impl Iterator<Item = Asked> {
        histories::listed()
    }

    fn random(rng: &mut Rng) -> Asked {
        histories::random(rng)
    }

    fn compare(asked: &Asked) -> Result<&'static str, Difference> {
        match asked {
            Asked::Steps(history) => history.compare(),
            Asked::Apart(apart) => apart.compare(),
            Asked::Counted(counted) => counted.compare(),
        }
    }
}

/// What is asked: each step of a history; whether the frames of others change a viewer's answers;
/// and whether the bytes of its shares are all accounted for.
#[derive(Clone)]
pub enum Asked {
    Steps(History),
    Apart(Apart),
    Counted(Counted),
}

impl Input for Asked {
    fn smaller(&self) -> impl Iterator<Item = Self> {
        let (steps, apart, counted) = match self {
            Self::Steps(history) => (Some(history), None, None),
            Self::Apart(apart) => (None, Some(apart), None),
            Self::Counted(counted) => (None, None, Some(counted)),
        };
        let steps = steps.into_iter().flat_map(Input::smaller).map(Self::Steps);
        let apart = apart.into_iter().flat_map(Input::smaller).map(Self::Apart);
        let counted = counted.into_iter().flat_map(Input::smaller);
        steps.chain(apart).chain(counted.map(Self::Counted))
    }

    fn show(&self) -> String {
        match self {
            Self::Steps(history) => history.show(),
            Self::Apart(apart) => apart.show(),
            Self::Counted(counted) => counted.show(),
        }
    }
}

/// The columns: entry n of each belongs to viewer n.
#[derive(Clone, Debug, Default, PartialEq)]
pub struct Columns {
    pub credits: Vec<i32>,
    pub marks: Vec<u8>,
}

impl Columns {
    /// Credits and marks of 0 for so many viewers, at most for one more than there can be. Behind
    /// them stand so many entries that are no viewer's.
    fn fresh(viewers: usize, behind: usize) -> Self {
        let viewers = viewers.min(alone::MOST_VIEWERS + 1);
        let behind = histories::BEHIND.iter().cycle().take(behind);
        let (credits, marks): (Vec<i32>, Vec<u8>) = behind.copied().unzip();
        Self {
            credits: [vec![0; viewers], credits].concat(),
            marks: [vec![0; viewers], marks].concat(),
        }
    }
}

/// A call, but for the columns.
#[derive(Clone, Copy, Debug, PartialEq)]
pub enum Call {
    Tick { viewers: usize, uplink: u32 },
    Offer(OfferCall),
}

impl Call {
    pub fn viewers(&self) -> usize {
        match self {
            Self::Tick { viewers, .. } => *viewers,
            Self::Offer(offer) => offer.viewers,
        }
    }

    fn with_viewers(self, viewers: usize) -> Self {
        match self {
            Self::Tick { uplink, .. } => Self::Tick { viewers, uplink },
            Self::Offer(offer) => Self::Offer(OfferCall { viewers, ..offer }),
        }
    }
}

impl Input for Call {
    fn smaller(&self) -> impl Iterator<Item = Self> {
        let call = *self;
        let viewers = lower_size(call.viewers()).map(move |viewers| call.with_viewers(viewers));
        let others: Vec<Self> = match call {
            Self::Tick { viewers, uplink } => lower(uplink.into())
                .map(|uplink| Self::Tick {
                    viewers,
                    uplink: uplink as u32,
                })
                .collect(),
            Self::Offer(offer) => smaller_offers(offer).map(Self::Offer).collect(),
        };
        viewers.chain(others)
    }

    fn show(&self) -> String {
        match self {
            Self::Tick { viewers, uplink } => format!("tick, {viewers} viewers, U {uplink}"),
            Self::Offer(offer) => format!(
                "offer, {} viewers, viewer {}, hint {}, length {}",
                offer.viewers, offer.viewer, offer.hint, offer.length
            ),
        }
    }
}

fn lower_size(number: usize) -> impl Iterator<Item = usize> {
    lower(number as u64).map(|lower| lower as usize)
}

/// With another viewer, hint or length.
fn smaller_offers(offer: OfferCall) -> impl Iterator<Item = OfferCall> {
    let viewers = lower_size(offer.viewer).map(move |viewer| OfferCall { viewer, ..offer });
    let hints = lower(offer.hint.into()).map(move |hint| OfferCall {
        hint: hint as u32,
        ..offer
    });
    let lengths = lower_size(offer.length).map(move |length| OfferCall { length, ..offer });
    viewers.chain(hints).chain(lengths)
}

/// What a call answers.
#[derive(Clone, Copy, Debug, PartialEq)]
pub enum Answer {
    Tick(i32),
    Offer(HozgrimOffer),
}

/// Columns as they are lent to the port, between entries that are not.
struct Lent {
    credits: Vec<i32>,
    marks: Vec<u8>,
}

/// A place among the entries, counted from the first that is lent, with credit and mark there.
type Place = (isize, Option<i32>, Option<u8>);

impl Lent {
    fn new(columns: &Columns, guard: i32) -> Self {
        let credits = iter::repeat_n(guard, GUARDS);
        let marks = iter::repeat_n(MARK_GUARD, GUARDS);
        let lent = columns.credits.iter().copied();
        let lent_marks = columns.marks.iter().copied();
        Self {
            credits: credits.clone().chain(lent).chain(credits).collect(),
            marks: marks.clone().chain(lent_marks).chain(marks).collect(),
        }
    }

    fn columns(&mut self) -> (&mut [i32], &mut [u8]) {
        let (credits, marks) = (self.credits.len(), self.marks.len());
        (
            &mut self.credits[GUARDS..credits - GUARDS],
            &mut self.marks[GUARDS..marks - GUARDS],
        )
    }

    fn call(&mut self, call: &Call) -> Answer {
        let (credits, marks) = self.columns();
        match *call {
            Call::Tick { viewers, uplink } => {
                Answer::Tick(hozgrim_sys::uplink_tick(viewers, uplink, credits))
            }
            Call::Offer(offer) => Answer::Offer(hozgrim_sys::uplink_offer(offer, credits, marks)),
        }
    }

    fn at(&self, place: usize) -> Place {
        let credit = self.credits.get(place).copied();
        (
            place as isize - GUARDS as isize,
            credit,
            self.marks.get(place).copied(),
        )
    }

    /// The first place whose entries differ, with what both have there.
    fn first_difference(&self, other: &Self) -> [Option<Place>; 2] {
        if self.credits == other.credits && self.marks == other.marks {
            return [None; 2];
        }
        let most = self.credits.len().max(self.marks.len());
        let place = (0..most).find(|&place| self.at(place) != other.at(place));
        [self, other].map(|of| place.map(|place| of.at(place)))
    }
}

/// Columns, and the calls that they are lent to, one after the other.
#[derive(Clone)]
pub struct History {
    pub start: Columns,
    pub calls: Vec<Call>,
}

impl History {
    fn lent(&self) -> Lent {
        let turn = self.calls.len() + self.start.credits.len();
        Lent::new(&self.start, CREDIT_GUARDS[turn % CREDIT_GUARDS.len()])
    }

    fn compare(&self) -> Result<&'static str, Difference> {
        let last = self.same_as_asked()?;
        Ok(match (last, self.calls.last()) {
            (Some((before, answer)), Some(call)) => class::of_last(&before, call, &answer),
            _ => "no call",
        })
    }

    /// Holds the port's answer to each call, and then all entries and guards, against what each
    /// viewer by itself must get. Gives the columns before the last call, and its answer.
    fn same_as_asked(&self) -> Result<Option<(Columns, Answer)>, Difference> {
        let mut viewers = Viewers::new(&self.start);
        let mut expected = self.lent();
        let mut lent = self.lent();
        let mut last = None;
        for (call, number) in self.calls.iter().zip(1..) {
            let before = (number == self.calls.len()).then(|| viewers.columns());
            let answers = [viewers.answer(call), lent.call(call)];
            let (credits, marks) = expected.columns();
            viewers.put(credits, marks);
            let places = expected.first_difference(&lent);
            let [asked, found] = [0, 1].map(|side| (number, answers[side], places[side]));
            same(asked, found)?;
            last = before.map(|before| (before, answers[0]));
        }
        Ok(last)
    }

    /// What the port answers to each call.
    fn of_port(&self) -> Vec<Answer> {
        let mut lent = self.lent();
        self.calls.iter().map(|call| lent.call(call)).collect()
    }
}

impl Input for History {
    fn smaller(&self) -> impl Iterator<Item = Self> {
        let fewer = parts(self.calls.len()).map(|part| {
            let mut fewer = self.clone();
            fewer.calls.drain(part);
            fewer
        });
        let most = self.calls.iter().map(Call::viewers).max().unwrap_or(0);
        let viewers = lower_size(most).map(|viewers| {
            let calls = self.calls.iter();
            let calls = calls.map(|call| call.with_viewers(call.viewers().min(viewers)));
            Self {
                calls: calls.collect(),
                start: self.start.clone(),
            }
        });
        let calls = with_one_smaller(&self.calls).map(|calls| Self {
            calls,
            start: self.start.clone(),
        });
        let columns = self.start.smaller().map(|start| Self {
            start,
            calls: self.calls.clone(),
        });
        fewer.chain(viewers).chain(columns).chain(calls)
    }

    fn show(&self) -> String {
        let calls = self.calls.iter().zip(1..);
        let calls = calls.map(|(call, number)| format!("\n    call {number}: {}", call.show()));
        format!(
            "{} calls, {}{}",
            self.calls.len(),
            self.start.show(),
            calls.collect::<String>()
        )
    }
}

impl Input for Columns {
    fn smaller(&self) -> impl Iterator<Item = Self> {
        let shorter = [(true, true), (true, false), (false, true)].map(|(credits, marks)| {
            let mut shorter = self.clone();
            let removed = credits && shorter.credits.pop().is_some();
            (marks && shorter.marks.pop().is_some() || removed).then_some(shorter)
        });
        let credits: Vec<i64> = self.credits.iter().map(|credit| (*credit).into()).collect();
        let credits = with_one_smaller(&credits).map(|credits: Vec<i64>| Self {
            credits: credits.into_iter().map(|credit| credit as i32).collect(),
            marks: self.marks.clone(),
        });
        let credits: Vec<Self> = credits.collect();
        let marks = with_one_smaller(&self.marks).map(|marks| Self {
            marks,
            credits: self.credits.clone(),
        });
        shorter.into_iter().flatten().chain(credits).chain(marks)
    }

    fn show(&self) -> String {
        format!("credits {:?}, marks {:?}", self.credits, self.marks)
    }
}
