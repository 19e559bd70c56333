//! Ticks and offers of an uplink that viewers share, beside a plain sharer in Rust.

use std::cell::RefCell;
use std::hint::black_box;

use common::rng::Rng;

use crate::buffers::{Buffers, State};
use crate::page::nanoseconds;
use crate::plain;
use crate::port::{HozgrimOffer, OfferCall, uplink_offer, uplink_tick};
use crate::sides::Side;
use crate::targets::Measured;
use crate::timing::{Batch, Plan, batch, measure};

/// How many viewers there are where ticks are measured, and where offers are.
const TICKED: [usize; 3] = [1, 8, 64];
const VIEWERS: usize = 8;

/// What viewers are credited at a tick, and the credit that each has before an offer.
const SHARE: u32 = 1_000;
const CREDIT: i32 = 1_500;

/// Offers, by hint and length, with what they are answered.
const OFFERS: [(&str, u32, usize, u32); 4] = [
    ("Critical, sent", 0, 2_000, 1),
    ("ResyncPoint, sent", 1, 1_200, 1),
    ("Droppable, sent", 2, 1_200, 1),
    ("Droppable, dropped", 2, 2_000, 2),
];

/// How many rounds the mixed history has: a tick, and an offer to each viewer.
const ROUNDS: usize = 100;

/// How many random calls the two sharers must agree on first.
const AGREED: usize = 100_000;

#[derive(Clone, Copy, Debug)]
enum Call {
    Tick { viewers: usize, uplink: u32 },
    Offer(OfferCall),
}

#[derive(Clone, Debug, PartialEq)]
struct Columns {
    credits: Vec<i32>,
    waiting: Vec<u8>,
}

impl Columns {
    fn new(viewers: usize, credit: i32) -> Self {
        Self {
            credits: vec![credit; viewers],
            waiting: vec![0; viewers],
        }
    }

    fn set(&mut self, other: &Self) {
        self.credits.copy_from_slice(&other.credits);
        self.waiting.copy_from_slice(&other.waiting);
    }
}

/// Who makes a call. A tick answers its error, and no decision.
trait Sharer {
    fn call(call: Call, columns: &mut Columns) -> HozgrimOffer;
}

struct Port;

impl Sharer for Port {
    #[inline]
    fn call(call: Call, columns: &mut Columns) -> HozgrimOffer {
        let Columns { credits, waiting } = columns;
        match call {
            Call::Tick { viewers, uplink } => HozgrimOffer {
                error: uplink_tick(viewers, uplink, credits),
                decision: 0,
            },
            Call::Offer(offer) => uplink_offer(offer, credits, waiting),
        }
    }
}

struct Plain;

impl Sharer for Plain {
    #[inline]
    fn call(call: Call, columns: &mut Columns) -> HozgrimOffer {
        let Columns { credits, waiting } = columns;
        match call {
            Call::Tick { viewers, uplink } => HozgrimOffer {
                error: plain::tick(viewers, uplink, credits),
                decision: 0,
            },
            Call::Offer(offer) => plain::offer(offer, credits, waiting),
        }
    }
}

/// Calls, and the columns that they find.
pub struct History {
    name: String,
    start: Columns,
    calls: Vec<Call>,
    columns: RefCell<Columns>,
}

impl History {
    /// How many there are.
    pub const COUNT: usize = TICKED.len() + OFFERS.len() + 1;

    pub fn all() -> Vec<Self> {
        agree();
        let ticks = TICKED.into_iter().map(Self::tick);
        let offers = OFFERS.into_iter().map(Self::offer);
        ticks.chain(offers).chain([Self::mixed()]).collect()
    }

    /// Both sharers must agree on each call, and none is refused.
    fn new(name: &str, start: Columns, calls: Vec<Call>) -> Self {
        let mut columns = start.clone();
        for call in &calls {
            assert_eq!(agreed(*call, &mut columns).error, 0, "{name}");
        }
        Self {
            name: name.into(),
            columns: RefCell::new(start.clone()),
            start,
            calls,
        }
    }

    fn tick(viewers: usize) -> Self {
        let call = Call::Tick {
            viewers,
            uplink: SHARE * viewers as u32,
        };
        let name = match viewers {
            1 => "tick, 1 viewer",
            _ => &format!("tick, {viewers} viewers"),
        };
        Self::new(name, Columns::new(viewers, CREDIT), vec![call])
    }

    fn offer((name, hint, length, decision): (&str, u32, usize, u32)) -> Self {
        let call = Call::Offer(OfferCall {
            viewers: VIEWERS,
            viewer: VIEWERS / 2,
            hint,
            length,
        });
        let start = Columns::new(VIEWERS, CREDIT);
        let answer = agreed(call, &mut start.clone());
        assert_eq!(answer.decision, decision, "{name}");
        Self::new(name, start, vec![call])
    }

    /// Rounds of a tick and an offer to each viewer, of any hint and of up to two shares.
    fn mixed() -> Self {
        let mut rng = Rng::new(1);
        let mut calls = vec![];
        for _ in 0..ROUNDS {
            calls.push(Call::Tick {
                viewers: VIEWERS,
                uplink: SHARE * VIEWERS as u32,
            });
            calls.extend((0..VIEWERS).map(|viewer| {
                Call::Offer(OfferCall {
                    viewers: VIEWERS,
                    viewer,
                    hint: rng.below(3) as u32,
                    length: rng.below(2 * SHARE as usize),
                })
            }));
        }
        Self::new("mixed", Columns::new(VIEWERS, 0), calls)
    }

    pub fn measured(&self, plan: Plan) -> Row {
        let sides: [Batch<Self>; 3] = [
            batch::<Calls<Port>, _>,
            batch::<Calls<Plain>, _>,
            batch::<NoCall, _>,
        ];
        let buffers = Buffers::with_room(&[], 0, State::Warm);
        let costs = measure(plan, self, buffers, sides);
        let calls = self.calls.len() as f64;
        let [port, plain, no_call] = costs.map(|cost| cost.median / calls);
        Row {
            name: self.name.clone(),
            port,
            plain,
            no_call,
        }
    }
}

/// What both sharers answer. They must leave the same columns, too.
fn agreed(call: Call, columns: &mut Columns) -> HozgrimOffer {
    let mut others = columns.clone();
    let answer = Port::call(call, columns);
    assert_eq!(answer, Plain::call(call, &mut others), "{call:?}");
    assert_eq!(*columns, others, "{call:?}");
    answer
}

/// Random calls, of which some are refused.
fn agree() {
    let mut rng = Rng::new(1);
    for _ in 0..AGREED {
        let room = rng.below(5);
        let mut columns = Columns::new(room, 0);
        for credit in &mut columns.credits {
            *credit = match rng.below(8) {
                0 => *rng.pick(&[33_554_430, -2_000_000_000, 33_554_431, -2_000_000_001]),
                _ => rng.below(20) as i32 - 8,
            };
        }
        columns.waiting.fill_with(|| rng.below(3) as u8);
        columns.waiting.truncate(4 - rng.below(2));
        let viewers = *rng.pick(&[0, 1, 2, 2, 3, 4, 65, usize::MAX]);
        let short = rng.below(20);
        let call = match rng.below(3) {
            0 => Call::Tick {
                viewers,
                uplink: *rng.pick(&[0, 1, 9, 30, 16_777_215, 16_777_216]),
            },
            _ => Call::Offer(OfferCall {
                viewers,
                viewer: rng.below(4),
                hint: rng.below(4) as u32,
                length: *rng.pick(&[0, 4, short, short, 2_000_000_004, usize::MAX]),
            }),
        };
        agreed(call, &mut columns);
    }
}

/// The calls of a history, from its start on.
struct Calls<S>(S);

impl<S: Sharer> Side<History> for Calls<S> {
    fn run(history: &History, _: &mut [u8], _: &mut [u8]) {
        let columns = &mut *history.columns.borrow_mut();
        columns.set(&history.start);
        for call in &history.calls {
            black_box(&S::call(*call, columns));
        }
    }
}

/// What comes before them, and nothing else.
struct NoCall;

impl Side<History> for NoCall {
    fn run(history: &History, _: &mut [u8], _: &mut [u8]) {
        let columns = &mut *history.columns.borrow_mut();
        columns.set(&history.start);
        black_box(columns);
    }
}

/// What a call costs by each side, in nanoseconds.
pub struct Row {
    name: String,
    port: f64,
    plain: f64,
    no_call: f64,
}

impl Row {
    /// What the heads mean.
    pub const LEGEND: &str = "\
The original has no sharer. plain Rust: one in safe Rust with the same checks, called on the same
histories. no call: columns are set back to the history's start, which every side does before the
first call. mixed: 100 times a tick and an offer to each of 8 viewers, of any hint and length.";

    /// The heads of `cells`.
    pub const HEADS: [&str; 5] = ["call", "port", "plain Rust", "port - plain", "no call"];

    pub fn cells(&self) -> Vec<String> {
        vec![
            self.name.clone(),
            nanoseconds(self.port),
            nanoseconds(self.plain),
            nanoseconds(self.more()),
            nanoseconds(self.no_call),
        ]
    }

    /// How much more than the plain sharer the port costs.
    pub fn more(&self) -> f64 {
        self.port - self.plain
    }
}

impl Measured for Row {
    fn name(&self) -> &str {
        &self.name
    }

    fn state(&self) -> State {
        State::Warm
    }
}

#[cfg(test)]
mod tests {
    use super::*;

    #[test]
    fn the_histories_are_agreed_on() {
        let calls = History::all()
            .into_iter()
            .map(|history| history.calls.len());
        let calls: Vec<usize> = calls.collect();
        assert_eq!(calls, [1, 1, 1, 1, 1, 1, 1, 900]);
        assert_eq!(calls.len(), History::COUNT);
        let legend = format!("{ROUNDS} times a tick and an offer to each of {VIEWERS} viewers");
        assert!(Row::LEGEND.contains(&legend));
    }
}
