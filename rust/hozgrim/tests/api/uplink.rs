//! One line shared among viewers: the readings of request N10, through [`Uplink`], and viewers who
//! join and leave. Columns that no history leaves are in the tests of `hozgrim-sys`.

use std::error::Error;

use common::rng::Rng;
use hozgrim::Decision::{Dropped, Sent};
use hozgrim::DeliveryHint::{self, Critical, Droppable, ResyncPoint};
use hozgrim::Refusal::{DebtLimit, OutOfRange};
use hozgrim::{CAPS_EX_MODEX, Decision, FrameType, Refusal, Uplink, pass};

const HINTS: [DeliveryHint; 3] = [Critical, ResyncPoint, Droppable];

/// The largest debt of a viewer.
const MOST_DEBT: usize = 2_000_000_000;

/// Something that happens to a line.
#[derive(Clone, Copy, Debug, PartialEq)]
enum Event {
    /// Of so many bytes.
    Tick(u32),
    /// To a viewer, by hint and length.
    Offer(usize, DeliveryHint, usize),
}

use Event::{Offer, Tick};

fn shared(viewers: usize) -> Uplink {
    Uplink::new(viewers).expect("viewers in range")
}

/// What the offers of a history are answered. Its ticks must be taken.
fn follow(uplink: &mut Uplink, history: &[Event]) -> Vec<Result<Decision, Refusal>> {
    let answer = |event: &Event| match *event {
        Tick(bytes) => {
            uplink.tick(bytes).expect("viewers and bytes in range");
            None
        }
        Offer(viewer, hint, length) => Some(uplink.offer(viewer, hint, length)),
    };
    history.iter().filter_map(answer).collect()
}

fn credits(uplink: &Uplink) -> Vec<i32> {
    let credits = (0..uplink.viewers()).map(|viewer| uplink.credit(viewer));
    credits.map(|credit| credit.expect("a viewer")).collect()
}

fn waiting(uplink: &Uplink) -> Vec<bool> {
    let waiting = (0..uplink.viewers()).map(|viewer| uplink.is_waiting(viewer));
    waiting.map(|waits| waits.expect("a viewer")).collect()
}

#[test]
fn credit_starts_at_0_and_nobody_waits() {
    for viewers in 1..=Uplink::MOST_VIEWERS {
        let mut uplink = shared(viewers);
        assert_eq!(uplink.viewers(), viewers);
        assert_eq!(credits(&uplink), vec![0; viewers]);
        assert_eq!(waiting(&uplink), vec![false; viewers]);
        // A frame that may be dropped goes before any point to resume from.
        assert_eq!(uplink.offer(viewers - 1, Droppable, 0), Ok(Sent));
    }
}

#[test]
fn viewers_are_1_to_64() {
    for viewers in [0, 65, 256, usize::MAX] {
        assert_eq!(Uplink::new(viewers), Err(OutOfRange));
    }
}

#[test]
fn nobody_shares_a_line_that_is_new() {
    let mut uplink = Uplink::default();
    assert_eq!(uplink.viewers(), 0);
    assert_eq!((uplink.credit(0), uplink.is_waiting(0)), (None, None));
    assert_eq!(uplink.tick(9), Err(OutOfRange));
    assert_eq!(uplink.offer(0, Critical, 0), Err(OutOfRange));
    assert_eq!(uplink.leave(0), Err(OutOfRange));
    assert_eq!(uplink, Uplink::default());
}

#[test]
fn a_tick_credits_every_viewer() {
    for viewers in 1..=Uplink::MOST_VIEWERS {
        let mut uplink = shared(viewers);
        assert_eq!(uplink.tick(1_000), Ok(()));
        assert_eq!(credits(&uplink), vec![1_000 / viewers as i32; viewers]);
    }
}

/// Share 4 after share 9, of which all is left.
#[test]
fn of_unused_credit_a_share_is_kept() {
    let mut uplink = shared(2);
    follow(&mut uplink, &[Tick(18), Tick(9)]);
    assert_eq!(credits(&uplink), [8, 8]);
    for used in 0..=8 {
        let mut uplink = shared(2);
        follow(&mut uplink, &[Tick(9), Tick(9), Offer(0, Critical, used)]);
        assert_eq!(uplink.tick(9), Ok(()));
        let left = 8 - used as i32;
        assert_eq!(credits(&uplink), [left.min(4) + 4, 8], "{used}");
    }
}

#[test]
fn the_largest_credit() {
    let mut uplink = shared(1);
    for credit in [16_777_215, 33_554_430, 33_554_430] {
        assert_eq!(uplink.tick(Uplink::MOST_BYTES), Ok(()));
        assert_eq!(uplink.credit(0), Some(credit));
    }
    for bytes in [Uplink::MOST_BYTES + 1, u32::MAX] {
        assert_eq!(uplink.tick(bytes), Err(OutOfRange));
        assert_eq!(uplink.credit(0), Some(33_554_430));
    }
}

#[test]
fn a_debt_is_carried_whole_and_paid_back_by_ticks() {
    let mut uplink = shared(2);
    assert_eq!(uplink.offer(0, Critical, 10), Ok(Sent));
    for expected in [[-6, 4], [-2, 8], [2, 8], [6, 8], [8, 8]] {
        assert_eq!(uplink.tick(9), Ok(()));
        assert_eq!(credits(&uplink), expected);
    }
}

#[test]
fn the_remainder_of_a_tick_is_lost() {
    let mut uplink = shared(2);
    follow(&mut uplink, &[Tick(9), Tick(9)]);
    assert_eq!(credits(&uplink), [8, 8]);
}

#[test]
fn a_tick_below_the_number_of_viewers_cuts_credits_and_leaves_debts() {
    for bytes in [0, 2] {
        let mut uplink = shared(3);
        follow(&mut uplink, &[Tick(12), Offer(1, Critical, 9), Tick(bytes)]);
        assert_eq!(credits(&uplink), [0, -5, 0]);
    }
}

#[test]
fn a_frame_as_long_as_the_credit_is_sent() {
    for hint in HINTS {
        let mut uplink = shared(1);
        uplink.tick(4).expect("it is taken");
        assert_eq!(uplink.offer(0, hint, 4), Ok(Sent));
        assert_eq!(uplink.offer(0, hint, 0), Ok(Sent));
        assert_eq!(uplink.credit(0), Some(0));
    }
    for hint in [ResyncPoint, Droppable] {
        let mut uplink = shared(1);
        uplink.tick(4).expect("it is taken");
        for length in [5, 1 << 32, usize::MAX] {
            assert_eq!(uplink.offer(0, hint, length), Ok(Dropped));
            assert_eq!(credits(&uplink), [4]);
            assert_eq!(waiting(&uplink), [true]);
        }
    }
}

/// Video without a byte is such a frame.
#[test]
fn an_empty_frame_is_dropped_in_debt() {
    let empty = pass(FrameType::Video, b"", CAPS_EX_MODEX, true, &mut []).expect("it is accepted");
    assert_eq!((empty.hint, empty.result_len), (Droppable, 0));
    let mut uplink = shared(2);
    assert_eq!(uplink.offer(0, Critical, 1), Ok(Sent));
    for (viewer, decision) in [(0, Dropped), (1, Sent)] {
        let decided = uplink.offer(viewer, empty.hint, empty.result_len);
        assert_eq!(decided, Ok(decision));
    }
}

#[test]
fn a_critical_frame_is_sent_whatever_the_credit_is() {
    let mut uplink = shared(1);
    uplink.tick(3).expect("it is taken");
    assert_eq!(uplink.offer(0, Critical, 5), Ok(Sent));
    assert_eq!(credits(&uplink), [-2]);
    assert_eq!(uplink.offer(0, Critical, 5), Ok(Sent));
    assert_eq!(credits(&uplink), [-7]);
    assert_eq!(uplink.offer(0, ResyncPoint, 0), Ok(Dropped));
    assert_eq!(uplink.offer(0, Critical, 5), Ok(Sent));
    assert_eq!(credits(&uplink), [-12]);
    assert_eq!(waiting(&uplink), [true]);
}

#[test]
fn a_debt_has_a_limit() {
    let mut uplink = shared(2);
    let offers = [(MOST_DEBT, Ok(Sent)), (0, Ok(Sent)), (1, Err(DebtLimit))];
    for (length, answer) in offers {
        assert_eq!(uplink.offer(0, Critical, length), answer);
        assert_eq!(credits(&uplink), [-2_000_000_000, 0]);
    }
    // The debt is judged, and not the length.
    uplink.tick(14).expect("it is taken");
    for length in [MOST_DEBT + 8, 1 << 32, usize::MAX] {
        assert_eq!(uplink.offer(1, Critical, length), Err(DebtLimit));
        assert_eq!(credits(&uplink), [-1_999_999_993, 7]);
    }
    assert_eq!(uplink.offer(1, Critical, MOST_DEBT + 7), Ok(Sent));
    assert_eq!(uplink.offer(0, Critical, 8), Err(DebtLimit));
    assert_eq!(uplink.offer(0, Critical, 7), Ok(Sent));
    assert_eq!(credits(&uplink), [-2_000_000_000; 2]);
}

#[test]
fn a_dropped_point_to_resume_from_is_a_drop() {
    let mut uplink = shared(1);
    let history = [Tick(6), Offer(0, ResyncPoint, 7), Offer(0, Droppable, 1)];
    assert_eq!(follow(&mut uplink, &history), [Ok(Dropped); 2]);
}

#[test]
fn only_a_point_to_resume_from_that_is_sent_ends_the_waiting() {
    let mut uplink = shared(1);
    let history = [
        Offer(0, Droppable, 1),
        Offer(0, Critical, 0),
        Offer(0, Droppable, 0),
        Tick(9),
        Offer(0, Droppable, 0),
        Offer(0, ResyncPoint, 10),
        Offer(0, Droppable, 0),
        Offer(0, ResyncPoint, 9),
        Offer(0, Droppable, 0),
    ];
    let decisions = [
        Dropped, Sent, Dropped, Dropped, Dropped, Dropped, Sent, Sent,
    ];
    assert_eq!(follow(&mut uplink, &history), decisions.map(Ok));
    assert_eq!(waiting(&uplink), [false]);
}

#[test]
fn a_refused_frame_is_no_drop() {
    let mut uplink = shared(2);
    let history = [
        Tick(10),
        Offer(0, Critical, MOST_DEBT + 6),
        Offer(2, Droppable, 6),
        Offer(0, Droppable, 5),
    ];
    let answers = [Err(DebtLimit), Err(OutOfRange), Ok(Sent)];
    assert_eq!(follow(&mut uplink, &history), answers);
    assert_eq!(credits(&uplink), [0, 5]);
}

#[test]
fn a_viewer_is_judged_before_the_debt() {
    let mut uplink = shared(2);
    for viewer in [2, 3, 64, usize::MAX] {
        for hint in HINTS {
            assert_eq!(uplink.offer(viewer, hint, usize::MAX), Err(OutOfRange));
        }
    }
    assert_eq!(uplink, shared(2));
}

/// A credit over twice the share is there after somebody joined.
#[test]
fn a_credit_over_the_limit_of_the_share_is_taken() {
    let mut uplink = shared(1);
    follow(&mut uplink, &[Tick(5_000)]);
    assert_eq!(uplink.join(), Ok(1));
    assert_eq!(uplink.offer(0, Droppable, 0), Ok(Sent));
    assert_eq!(credits(&uplink), [5_000, 0]);
    follow(&mut uplink, &[Tick(9)]);
    assert_eq!(credits(&uplink), [8, 4]);
}

#[test]
fn who_joins_is_fresh_and_the_last() {
    let mut uplink = Uplink::default();
    for number in 0..Uplink::MOST_VIEWERS {
        // Those before are in debt, and wait.
        assert_eq!(uplink.join(), Ok(number));
        assert_eq!(uplink.viewers(), number + 1);
        assert_eq!(uplink.credit(number), Some(0));
        assert_eq!(uplink.is_waiting(number), Some(false));
        assert_eq!(uplink.offer(number, Critical, number + 1), Ok(Sent));
        assert_eq!(uplink.offer(number, Droppable, 0), Ok(Dropped));
    }
    let debts: Vec<i32> = (1..=64).map(|debt| -debt).collect();
    assert_eq!(credits(&uplink), debts);
    let before = uplink.clone();
    assert_eq!(uplink.join(), Err(OutOfRange));
    assert_eq!(uplink, before);
}

#[test]
fn those_behind_one_who_leaves_move_up() {
    for viewers in [1, 2, 5, 64] {
        for leaving in 0..viewers {
            let mut uplink = shared(viewers);
            for viewer in 0..viewers {
                let _ = uplink.offer(viewer, Critical, viewer + 1);
                if viewer % 2 == 0 {
                    let _ = uplink.offer(viewer, ResyncPoint, 1);
                }
            }
            let (mut debts, mut waits) = (credits(&uplink), waiting(&uplink));
            assert_eq!(uplink.leave(leaving), Ok(()));
            debts.remove(leaving);
            waits.remove(leaving);
            assert_eq!((credits(&uplink), waiting(&uplink)), (debts, waits));
            assert_eq!(uplink.viewers(), viewers - 1);
        }
    }
}

/// Nothing of who left is there when the next one joins.
#[test]
fn who_joins_after_one_who_left_is_fresh() {
    let mut uplink = shared(64);
    for viewer in 0..64 {
        let _ = uplink.offer(viewer, Critical, 7);
        let _ = uplink.offer(viewer, Droppable, 7);
    }
    for _ in 0..63 {
        assert_eq!(uplink.leave(0), Ok(()));
    }
    assert_eq!(uplink.join(), Ok(1));
    assert_eq!(credits(&uplink), [-7, 0]);
    assert_eq!(waiting(&uplink), [true, false]);
    for left in [0, 0] {
        assert_eq!(uplink.leave(left), Ok(()));
    }
    assert_eq!(uplink, Uplink::default());
}

#[test]
fn nobody_leaves_who_is_not_there() {
    let mut uplink = shared(2);
    follow(&mut uplink, &[Tick(9), Offer(1, Critical, 9)]);
    let before = uplink.clone();
    for viewer in [2, 3, 64, usize::MAX] {
        assert_eq!(uplink.leave(viewer), Err(OutOfRange));
        assert_eq!(
            (uplink.credit(viewer), uplink.is_waiting(viewer)),
            (None, None)
        );
    }
    assert_eq!(uplink, before);
}

/// A viewer by itself, by the words of the request.
#[derive(Debug, Default)]
struct Alone {
    answers: Vec<Result<Decision, Refusal>>,
    credit: i128,
    waits: bool,
}

impl Alone {
    /// After what happens to this viewer of so many. The rest of the history is not looked at.
    fn after(history: &[Event], viewer: usize, viewers: usize) -> Self {
        let mut alone = Self::default();
        for event in history {
            match *event {
                Tick(bytes) => {
                    let share = i128::from(bytes) / viewers as i128;
                    alone.credit = alone.credit.min(share) + share;
                }
                Offer(to, hint, length) if to == viewer => alone.offer(hint, length as i128),
                Offer(..) => {}
            }
        }
        alone
    }

    fn offer(&mut self, hint: DeliveryHint, length: i128) {
        let goes = match hint {
            Critical => true,
            ResyncPoint => length <= self.credit,
            Droppable => length <= self.credit && !self.waits,
        };
        let answer = match goes {
            true if self.credit - length < -(MOST_DEBT as i128) => Err(DebtLimit),
            true => Ok(Sent),
            false => Ok(Dropped),
        };
        if answer == Ok(Sent) {
            self.credit -= length;
            self.waits &= hint != ResyncPoint;
        }
        self.waits |= answer == Ok(Dropped);
        self.answers.push(answer);
    }
}

/// What is counted of a viewer while a history goes on.
#[derive(Clone, Debug, Default)]
struct Counted {
    answers: Vec<Result<Decision, Refusal>>,
    shares: i128,
    sent: i128,
    cut_off: i128,
}

/// Counts a history for each viewer, with the line that it leaves.
fn counted(history: &[Event], viewers: usize) -> (Uplink, Vec<Counted>) {
    let mut uplink = shared(viewers);
    let mut all = vec![Counted::default(); viewers];
    for event in history {
        match *event {
            Tick(bytes) => {
                let share = i128::from(bytes) / viewers as i128;
                for (counted, credit) in all.iter_mut().zip(credits(&uplink)) {
                    counted.shares += share;
                    counted.cut_off += (i128::from(credit) - share).max(0);
                }
                assert_eq!(uplink.tick(bytes), Ok(()), "{history:?}");
            }
            Offer(viewer, hint, length) => {
                let answer = uplink.offer(viewer, hint, length);
                if answer == Ok(Sent) {
                    all[viewer].sent += length as i128;
                }
                all[viewer].answers.push(answer);
            }
        }
    }
    (uplink, all)
}

/// Each viewer is answered and left as if it were alone, and its shares are what was sent, what is
/// left and what was cut off.
fn assert_followed(history: &[Event], viewers: usize) {
    let (uplink, all) = counted(history, viewers);
    for (viewer, counted) in all.iter().enumerate() {
        let alone = Alone::after(history, viewer, viewers);
        assert_eq!(counted.answers, alone.answers, "{viewer}: {history:?}");
        let credit = i128::from(uplink.credit(viewer).expect("a viewer"));
        assert_eq!(credit, alone.credit, "{viewer}: {history:?}");
        let waits = uplink.is_waiting(viewer);
        assert_eq!(waits, Some(alone.waits), "{viewer}: {history:?}");
        let sum = counted.sent + credit + counted.cut_off;
        assert_eq!(counted.shares, sum, "{viewer}: {history:?}");
    }
}

/// Two viewers, share 4: every history of up to four events, with lengths below, at and over the
/// credits that there are.
#[test]
fn every_short_history_is_followed() {
    let mut events = vec![Tick(9)];
    for viewer in [0, 1] {
        let lengths = [0, 4, 5];
        let offers = HINTS.map(|hint| lengths.map(|length| Offer(viewer, hint, length)));
        events.extend(offers.as_flattened());
    }
    let mut histories = vec![vec![]];
    let mut from = 0;
    for _ in 0..4 {
        let until = histories.len();
        for at in from..until {
            for event in &events {
                let longer = [&histories[at][..], &[*event]].concat();
                assert_followed(&longer, 2);
                histories.push(longer);
            }
        }
        from = until;
    }
    assert_eq!(histories.len(), 1 + 19 + 361 + 6_859 + 130_321);
}

const HISTORIES: usize = 4_000;

/// Long ones, with shares from nothing to the largest, and debts up to the limit.
#[test]
fn random_histories_are_followed() {
    let mut rng = Rng::new(1);
    let mut counts = [0; 3];
    for _ in 0..HISTORIES {
        let viewers = *rng.pick(&[1, 2, 3, 64]);
        let bytes = *rng.pick(&[0, 1, 63, 9, 1_000, 1 << 20, Uplink::MOST_BYTES]);
        let share = bytes as usize / viewers;
        let history: Vec<Event> = (0..rng.below(40))
            .map(|_| {
                if rng.one_in(4) {
                    return Tick(bytes);
                }
                let lengths = [0, 1, share, share + 1, 2 * share, 2 * share + 1];
                let length = match rng.below(8) {
                    0 => MOST_DEBT - rng.below(2 * share + 2),
                    1 => *rng.pick(&[MOST_DEBT, MOST_DEBT + share, usize::MAX]),
                    _ => *rng.pick(&lengths),
                };
                // To the first two alone, so that these have a history.
                let viewer = rng.below(viewers.min(2));
                Offer(viewer, *rng.pick(&HINTS), length)
            })
            .collect();
        assert_followed(&history, viewers);
        for answer in follow(&mut shared(viewers), &history) {
            let count = match answer {
                Ok(Sent) => &mut counts[0],
                Ok(Dropped) => &mut counts[1],
                Err(_) => &mut counts[2],
            };
            *count += 1;
        }
    }
    let few = HISTORIES / 2;
    assert!(counts.iter().all(|count| *count > few), "{counts:?}");
}

#[test]
fn a_copy_of_a_line_goes_its_own_way() {
    let mut uplink = shared(2);
    let mut copy = uplink.clone();
    assert_eq!(copy, uplink);
    copy.tick(9).expect("it is taken");
    assert_ne!(copy, uplink);
    uplink.tick(9).expect("it is taken");
    assert_eq!(copy, uplink);
    assert_eq!(copy.offer(1, Droppable, 5), Ok(Dropped));
    assert_ne!(copy, uplink); // One waits.
    assert_ne!(shared(2), shared(3));
}

#[test]
fn debug_output_has_credits_and_who_waits() {
    let mut uplink = shared(3);
    let history = [
        Tick(12),
        Offer(1, Critical, 6),
        Offer(2, Droppable, 5),
        Offer(1, ResyncPoint, 0),
    ];
    follow(&mut uplink, &history);
    let words = "Uplink {0: 4, 1: -2 waiting, 2: 4 waiting}";
    assert_eq!(format!("{uplink:?}"), words);
    assert_eq!(format!("{:?}", Uplink::default()), "Uplink {}");
}

#[test]
fn a_refusal_goes_where_errors_go() {
    let offer = |length| -> Result<Decision, Box<dyn Error + Send + Sync>> {
        Ok(shared(1).offer(0, Critical, length)?)
    };
    assert_eq!(offer(MOST_DEBT).expect("it is sent"), Sent);
    let error = offer(MOST_DEBT + 1).expect_err("it is refused");
    let words = "the viewer would owe more than 2,000,000,000 bytes";
    assert_eq!(error.to_string(), words);
}

/// As the documentation says.
#[test]
fn the_size_of_a_line() {
    assert_eq!(size_of::<Uplink>(), 328);
}
