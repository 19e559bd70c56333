//! Histories: the inputs of the comparison.

use common::rng::Rng;
use common::strings;

use super::alone::{
    CRITICAL, DROPPABLE, MOST_CREDIT, MOST_DEBT, MOST_UPLINK, MOST_VIEWERS, RESYNC_POINT, Viewers,
};
use super::apart::{Apart, In};
use super::counted::Counted;
use super::examples::examples;
use super::line::{Event, Line};
use super::{Asked, Columns, History};

/// Credits and marks that stand behind those of the viewers. No such credit is in range.
pub const BEHIND: [(i32, u8); 4] = [
    (i32::MAX, 2),
    (i32::MIN, 255),
    (33_554_431, 0),
    (-2_000_000_001, 1),
];

/// The most events of a random history.
const MOST_EVENTS: usize = 40;

/// The most entries behind those of the viewers.
const MOST_BEHIND: usize = 3;

/// Numbers of viewers that are taken.
const VIEWERS: [usize; 4] = [1, 2, 3, MOST_VIEWERS];

/// Numbers of viewers that are refused, also where their low bits would not be.
const NO_VIEWERS: [usize; 6] = [0, 65, 66, 257, 1 << 32 | 1, usize::MAX];

/// Hints that are refused, likewise.
const NO_HINTS: [u32; 6] = [3, 4, 256, 257, 258, u32::MAX];

const HINTS: [u32; 3] = [CRITICAL, RESYNC_POINT, DROPPABLE];

const MARKS: [u8; 4] = [0, 1, 2, 255];

/// Credits at both ends and past them, by themselves and beside a share of 4.
const CREDITS: [i32; 21] = [
    0,
    1,
    3,
    4,
    5,
    8,
    9,
    -1,
    -3,
    -4,
    -5,
    5_000,
    33_554_429,
    33_554_430,
    33_554_431,
    -1_999_999_999,
    -2_000_000_000,
    -2_000_000_001,
    40_000_000,
    i32::MAX,
    i32::MIN,
];

/// Two viewers with shares of 4 bytes, and one byte left over.
const NINE: Line = Line {
    viewers: 2,
    uplink: 9,
};

/// The examples; single calls at every edge; short histories of two viewers.
pub fn listed() -> impl Iterator<Item = Asked> {
    let steps = examples().into_iter().chain(ticks()).chain(offers());
    let steps = steps.chain(short(4, wide())).chain(short(6, narrow()));
    let counted = counted(3, wide()).chain(counted(5, narrow()));
    steps
        .map(Asked::Steps)
        .chain(apart(5).map(Asked::Apart))
        .chain(counted.map(Asked::Counted))
}

/// A tick with each number of viewers and U, where one credit is at every edge, with columns of
/// several lengths.
fn ticks() -> impl Iterator<Item = History> {
    let numbers = VIEWERS.into_iter().chain(NO_VIEWERS);
    let lines = numbers.flat_map(|viewers| uplinks(viewers).map(|uplink| Line { viewers, uplink }));
    lines.flat_map(|line| {
        let columns = lengths(line.viewers).into_iter();
        let edges = columns.flat_map(|columns| CREDITS.map(|edge| (columns, edge)));
        edges.flat_map(move |((credits, behind), edge)| {
            let places = [0, credits / 2, credits.saturating_sub(1)];
            places.map(|place| History {
                start: with_edge(credits, behind, place, edge),
                calls: vec![Event::Tick.on(line)],
            })
        })
    })
}

/// Columns with small credits, of either sign, and with this one at a place. Behind them stand so
/// many entries that are no viewer's.
fn with_edge(credits: usize, behind: usize, place: usize, edge: i32) -> Columns {
    let mut columns = Columns::fresh(credits, behind);
    for (credit, at) in columns.credits.iter_mut().zip(0..credits) {
        *credit = at as i32 % 7 - 3;
    }
    if let Some(credit) = columns.credits.get_mut(place) {
        *credit = edge;
    }
    columns
}

/// None, fewer than the viewers, as many, around a share of 4, and around the most.
fn uplinks(viewers: usize) -> [u32; 11] {
    let number = viewers.min(MOST_VIEWERS) as u32;
    [
        0,
        number.saturating_sub(1),
        number,
        4 * number,
        4 * number + 1,
        MOST_UPLINK - 1,
        MOST_UPLINK,
        MOST_UPLINK + 1,
        1 << 24 | 9,
        1 << 31,
        u32::MAX,
    ]
}

/// How many credits are lent for the viewers, and how many entries stand behind them.
fn lengths(viewers: usize) -> Vec<(usize, usize)> {
    let viewers = viewers.min(MOST_VIEWERS + 1);
    let mut lengths = vec![(viewers, 0), (viewers, 1), (viewers, 2)];
    let shorter = [viewers.saturating_sub(1), viewers / 2, 0];
    lengths.extend(shorter.map(|credits| (credits, 0)));
    lengths
}

/// An offer with each viewer, hint, credit, length and mark of two viewers; then beside each credit
/// and mark of the other viewer; then with each number of viewers, and with columns that are too
/// short.
fn offers() -> impl Iterator<Item = History> {
    let viewers = [0, 1, 2, 3, 1 << 32, usize::MAX].into_iter();
    let calls = viewers.flat_map(|viewer| {
        let hints = HINTS.into_iter().chain(NO_HINTS);
        hints.map(move |hint| (viewer, hint))
    });
    let calls = calls.flat_map(|(viewer, hint)| CREDITS.map(|credit| (viewer, hint, credit)));
    let edges = calls.flat_map(|(viewer, hint, credit)| {
        let lengths = edges_of(credit.into()).into_iter();
        lengths.flat_map(move |length| {
            MARKS.map(|mark| {
                let event = offer(viewer, hint, length);
                offered(event, viewer, credit, mark)
            })
        })
    });
    edges.chain(beside()).chain(short_columns())
}

/// The offer to one of two viewers, with this credit and mark of one of them.
fn offered(event: Event, of: usize, credit: i32, mark: u8) -> History {
    let mut start = Columns::fresh(2, 1);
    start.credits[..2].fill(4);
    if of < 2 {
        (start.credits[of], start.marks[of]) = (credit, mark);
    }
    History {
        start,
        calls: vec![event.on(NINE)],
    }
}

/// Offers around the credit of one viewer, with each credit and mark of the other.
fn beside() -> impl Iterator<Item = History> {
    let calls = HINTS.into_iter().flat_map(|hint| {
        let lengths = edges_of(4).into_iter();
        lengths.flat_map(move |length| [0, 1].map(|viewer| (viewer, offer(viewer, hint, length))))
    });
    calls.flat_map(|(viewer, event)| {
        let credits = CREDITS.into_iter();
        credits.flat_map(move |credit| MARKS.map(|mark| offered(event, 1 - viewer, credit, mark)))
    })
}

/// Lengths around a credit and the most debt, also where they have more than 32 bits.
fn edges_of(credit: i128) -> Vec<usize> {
    let edges = [
        0,
        1,
        credit - 1,
        credit,
        credit + 1,
        credit + MOST_DEBT - 1,
        credit + MOST_DEBT,
        credit + MOST_DEBT + 1,
        MOST_DEBT,
        MOST_DEBT + 1,
        1 << 31,
        1 << 32,
        (1 << 32) + credit,
        1 << 63,
        usize::MAX as i128,
    ];
    let edges = edges.into_iter();
    edges.filter_map(|edge| edge.try_into().ok()).collect()
}

/// Offers with each number of viewers, and with columns of each length, up to two more than the
/// viewers.
fn short_columns() -> impl Iterator<Item = History> {
    let numbers = VIEWERS.into_iter().chain(NO_VIEWERS);
    let lent = numbers.flat_map(|viewers| {
        let most = viewers.min(MOST_VIEWERS) + 2;
        let credits = 0..=most;
        credits.flat_map(move |credits| {
            let lengths = [0, 1, most - 3, most - 2, most - 1, most];
            lengths.map(|marks| (viewers, credits, marks))
        })
    });
    lent.flat_map(|(viewers, credits, marks)| {
        HINTS.into_iter().flat_map(move |hint| {
            let last = viewers.wrapping_sub(1);
            [0, 1, last, viewers].map(|viewer| {
                let mut start = Columns::fresh(MOST_VIEWERS + 1, 1);
                start.credits.truncate(credits);
                start.marks.truncate(marks);
                let line = Line { viewers, uplink: 0 };
                History {
                    start,
                    calls: vec![offer(viewer, hint, 0).on(line)],
                }
            })
        })
    })
}

fn offer(viewer: usize, hint: u32, length: usize) -> Event {
    Event::Offer {
        viewer,
        hint,
        length,
    }
}

/// A tick, and every hint and some lengths for both viewers.
fn wide() -> Vec<Event> {
    let mut events = vec![Event::Tick];
    for viewer in 0..2 {
        for hint in HINTS {
            events.extend([0, 1, 4, 5].map(|length| offer(viewer, hint, length)));
        }
    }
    events
}

/// A tick, and fewer frames.
fn narrow() -> Vec<Event> {
    vec![
        Event::Tick,
        offer(0, CRITICAL, 5),
        offer(0, RESYNC_POINT, 1),
        offer(0, RESYNC_POINT, 4),
        offer(0, DROPPABLE, 0),
        offer(0, DROPPABLE, 4),
        offer(1, CRITICAL, 3),
        offer(1, RESYNC_POINT, 0),
        offer(1, DROPPABLE, 0),
        offer(1, DROPPABLE, 9),
    ]
}

/// Every history of up to so many of the events, from fresh columns with an entry behind.
fn short(most: usize, events: Vec<Event>) -> impl Iterator<Item = History> {
    strings::up_to(most, events).map(|events| History {
        start: Columns::fresh(NINE.viewers, 1),
        calls: events.into_iter().map(|event| event.on(NINE)).collect(),
    })
}

/// Likewise, with their bytes counted.
fn counted(most: usize, events: Vec<Event>) -> impl Iterator<Item = Counted> {
    strings::up_to(most, events).map(|events| Counted {
        line: NINE,
        behind: 0,
        events,
    })
}

/// Every two histories of up to so many events in all: ticks, frames for viewer 0 in both, and
/// frames for viewer 1 in either.
fn apart(most: usize) -> impl Iterator<Item = Apart> {
    let both = [
        Event::Tick,
        offer(0, CRITICAL, 5),
        offer(0, RESYNC_POINT, 1),
        offer(0, RESYNC_POINT, 4),
        offer(0, DROPPABLE, 0),
    ];
    let others = [
        offer(1, CRITICAL, 5),
        offer(1, RESYNC_POINT, 5),
        offer(1, DROPPABLE, 0),
    ];
    let mut events: Vec<_> = both.map(|event| (In::Both, event)).into();
    events.extend(others.map(|event| (In::First, event)));
    events.extend(others.map(|event| (In::Second, event)));
    strings::up_to(most, events).map(|events| Apart {
        line: NINE,
        behind: [0, 1],
        watched: 0,
        events,
    })
}

/// Every other one is a history from columns of any kind, the others begin with fresh ones.
pub fn random(rng: &mut Rng) -> Asked {
    match rng.below(4) {
        0 => Asked::Apart(random_apart(rng)),
        1 => Asked::Counted(random_counted(rng)),
        _ => Asked::Steps(random_history(rng)),
    }
}

fn random_history(rng: &mut Rng) -> History {
    let line = random_line(rng);
    let start = random_columns(rng, line);
    let mut viewers = Viewers::new(&start);
    let mut calls = vec![];
    for _ in 0..rng.below(MOST_EVENTS + 1) {
        let event = random_event(rng, line, &viewers);
        let call = event.on(random_change(rng, line));
        viewers.answer(&call);
        calls.push(call);
    }
    History { start, calls }
}

/// Mostly few viewers.
fn random_line(rng: &mut Rng) -> Line {
    let viewers = match rng.below(16) {
        0 => MOST_VIEWERS,
        1 => 4 + rng.below(60),
        2 => 4,
        3..7 => 1,
        7..13 => 2,
        _ => 3,
    };
    Line {
        viewers,
        uplink: random_uplink(rng, viewers),
    }
}

/// Mostly such that shares are a few bytes; some at the limit.
fn random_uplink(rng: &mut Rng, viewers: usize) -> u32 {
    match rng.below(16) {
        0 => 0,
        1 => rng.below(viewers) as u32,
        2 => MOST_UPLINK,
        3 => MOST_UPLINK - rng.below(1_000) as u32,
        4 => rng.below(MOST_UPLINK as usize) as u32,
        5..9 => (viewers * rng.below(12)) as u32,
        _ => rng.below(12 * viewers) as u32,
    }
}

/// Mostly as it is. Else another number of viewers or another U, which may be out of range.
fn random_change(rng: &mut Rng, line: Line) -> Line {
    let Line { viewers, uplink } = line;
    match rng.below(48) {
        0 => Line {
            viewers: *rng.pick(&NO_VIEWERS),
            uplink,
        },
        1 => Line {
            viewers: *rng.pick(&VIEWERS),
            uplink,
        },
        2 => Line {
            viewers,
            uplink: *rng.pick(&uplinks(viewers)),
        },
        3 => Line {
            viewers,
            uplink: random_uplink(rng, viewers),
        },
        _ => line,
    }
}

/// Every third with zeros, the others with credits and marks of any kind; in few of both one credit
/// is out of range. Most columns have an entry for each viewer.
fn random_columns(rng: &mut Rng, line: Line) -> Columns {
    let viewers = line.viewers;
    let behind = rng.below(MOST_BEHIND + 1);
    let mut columns = Columns::fresh(viewers, behind);
    if !rng.one_in(3) {
        let share = i128::from(line.uplink) / viewers as i128;
        for credit in &mut columns.credits[..viewers] {
            *credit = random_credit(rng, share);
        }
        for mark in &mut columns.marks[..viewers] {
            *mark = *rng.pick(&[0, 0, 0, 1, 1, 2, 255]);
        }
    }
    if rng.one_in(12) {
        let at = rng.below(viewers);
        let off = [33_554_431, -2_000_000_001, i32::MAX, i32::MIN, 33_554_432];
        columns.credits[at] = match rng.below(8) {
            0 => -2_000_000_002 - rng.below(100_000_000) as i32,
            _ => *rng.pick(&off),
        };
    }
    match rng.below(24) {
        0 => columns.credits.truncate(viewers - 1),
        1 => columns.marks.truncate(viewers - 1),
        2 => columns.credits.truncate(rng.below(viewers)),
        3 => columns.marks.truncate(rng.below(viewers)),
        4 => columns.credits.truncate(viewers),
        5 => columns.marks.truncate(viewers),
        _ => {}
    }
    columns
}

/// In range: around shares, small, at the ends.
fn random_credit(rng: &mut Rng, share: i128) -> i32 {
    let credit = match rng.below(16) {
        0 => MOST_CREDIT - rng.below(2) as i128,
        1 => rng.below(2) as i128 - MOST_DEBT,
        2 => -(rng.below(MOST_DEBT as usize) as i128),
        3 => rng.below(MOST_CREDIT as usize) as i128,
        4 => share,
        5 => share + 1,
        6 => 2 * share,
        7 => -share,
        8 => -share - 1,
        9 => 1 - share,
        10 => 0,
        _ => rng.below(40) as i128 - 20,
    };
    credit.clamp(-MOST_DEBT, MOST_CREDIT) as i32
}

/// Every fourth is a tick.
fn random_event(rng: &mut Rng, line: Line, viewers: &Viewers) -> Event {
    if rng.one_in(4) {
        return Event::Tick;
    }
    let viewer = random_viewer(rng, line.viewers);
    random_offer(rng, viewer, viewers)
}

/// One of few, so that the same one is met again; few are out of range.
fn random_viewer(rng: &mut Rng, viewers: usize) -> usize {
    match rng.below(32) {
        0 => viewers,
        1 => *rng.pick(&[viewers.wrapping_add(1), 1 << 32, usize::MAX]),
        2..4 => rng.below(viewers.clamp(1, MOST_VIEWERS)),
        4..8 => viewers.min(MOST_VIEWERS).saturating_sub(1),
        _ => rng.below(viewers.clamp(1, 3)),
    }
}

/// Its length is chosen by the credit that the viewer has.
fn random_offer(rng: &mut Rng, viewer: usize, viewers: &Viewers) -> Event {
    let hint = match rng.below(32) {
        0 => *rng.pick(&NO_HINTS),
        _ => *rng.pick(&HINTS),
    };
    let credit = viewers
        .each()
        .get(viewer)
        .map_or(0, |viewer| viewer.credit());
    let length = match rng.below(32) {
        0 => (credit + MOST_DEBT) as usize,
        1 => (credit + MOST_DEBT + 1) as usize,
        2 => usize::MAX,
        3 => *rng.pick(&edges_of(credit)),
        4 => rng.number() as usize,
        5..10 => 0,
        10..16 => credit.max(0) as usize,
        16..20 => (credit + 1).max(0) as usize,
        20..24 => rng.below(credit.max(1) as usize),
        _ => rng.below(12),
    };
    offer(viewer, hint, length)
}

/// Mostly in range; ticks and the frames of the watched viewer are in both histories.
fn random_apart(rng: &mut Rng) -> Apart {
    let mut line = random_line(rng);
    match rng.below(24) {
        0 => line.viewers = *rng.pick(&NO_VIEWERS),
        1 => line.uplink = *rng.pick(&[MOST_UPLINK + 1, u32::MAX]),
        _ => {}
    }
    let watched = random_viewer(rng, line.viewers);
    let start = Columns::fresh(line.viewers, 0);
    let mut viewers = Viewers::new(&start);
    // What is done to the frames of others: put in, taken out, changed.
    let sides: &[In] = match rng.below(4) {
        0 => &[In::Both, In::Second],
        1 => &[In::Both, In::First],
        _ => &[In::Both, In::First, In::Second],
    };
    let mut events = vec![];
    for _ in 0..rng.below(MOST_EVENTS + 1) {
        let event = match rng.below(3) {
            0 => random_offer(rng, watched, &viewers),
            _ => random_event(rng, line, &viewers),
        };
        let side = match event.is_of_others(watched) {
            true => *rng.pick(sides),
            false => In::Both,
        };
        if side != In::Second {
            viewers.answer(&event.on(line));
        }
        events.push((side, event));
    }
    Apart {
        line,
        behind: [0; 2].map(|_: usize| rng.below(MOST_BEHIND + 1)),
        watched,
        events,
    }
}

fn random_counted(rng: &mut Rng) -> Counted {
    let line = random_line(rng);
    let start = Columns::fresh(line.viewers, 0);
    let mut viewers = Viewers::new(&start);
    let mut events = vec![];
    for _ in 0..rng.below(MOST_EVENTS + 1) {
        let event = random_event(rng, line, &viewers);
        viewers.answer(&event.on(line));
        events.push(event);
    }
    Counted {
        line,
        behind: rng.below(MOST_BEHIND + 1),
        events,
    }
}
