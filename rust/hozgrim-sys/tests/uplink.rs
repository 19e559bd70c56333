//! The entries of a shared uplink, as a caller sees them who lends columns of any numbers and
//! lengths. The examples are those of request N10. What histories come to is in the tests of the
//! package `hozgrim`, whose columns are those that calls left. The stored rows are those of the
//! program `uplink_cases`, whose form `crates/uplink_cases/README.md` says.

use hozgrim_sys::{HozgrimOffer, OfferCall, uplink_offer, uplink_tick};

const CRITICAL: u32 = 0;
const RESYNC_POINT: u32 = 1;
const DROPPABLE: u32 = 2;

const HINTS: [u32; 3] = [CRITICAL, RESYNC_POINT, DROPPABLE];

const SENT: HozgrimOffer = HozgrimOffer {
    error: 0,
    decision: 1,
};
const DROPPED: HozgrimOffer = HozgrimOffer {
    error: 0,
    decision: 2,
};
const OUT_OF_RANGE: HozgrimOffer = HozgrimOffer {
    error: -32,
    decision: 0,
};
const DEBT_LIMIT: HozgrimOffer = HozgrimOffer {
    error: -33,
    decision: 0,
};

const MOST_VIEWERS: usize = 64;
const MOST_BYTES: u32 = 16_777_215;
const MOST_CREDIT: i32 = 33_554_430;
const MOST_DEBT: i32 = 2_000_000_000;

/// Numbers of viewers that are refused, whatever is lent.
const NO_VIEWERS: [usize; 4] = [0, MOST_VIEWERS + 1, 1 << 32 | 2, usize::MAX];

/// Credits that are out of range.
const NO_CREDITS: [i32; 4] = [MOST_CREDIT + 1, -MOST_DEBT - 1, i32::MIN, i32::MAX];

/// Stands before and behind what is lent, and is no credit.
const NO_CREDIT: i32 = i32::MIN;
const NO_MARK: u8 = 0xA5;

/// Columns, each between two entries that are not lent.
#[derive(Clone, Debug, PartialEq)]
struct Lent {
    credits: Vec<i32>,
    waiting: Vec<u8>,
}

impl Lent {
    fn new(credits: &[i32], waiting: &[u8]) -> Self {
        Self {
            credits: [&[NO_CREDIT], credits, &[NO_CREDIT]].concat(),
            waiting: [&[NO_MARK], waiting, &[NO_MARK]].concat(),
        }
    }

    /// Viewers with these credits, none of whom waits.
    fn of(credits: &[i32]) -> Self {
        Self::new(credits, &vec![0; credits.len()])
    }

    fn fresh(viewers: usize) -> Self {
        Self::of(&vec![0; viewers])
    }

    fn tick(&mut self, viewers: usize, uplink: u32) -> i32 {
        let waiting = self.waiting.clone();
        let error = uplink_tick(viewers, uplink, inner(&mut self.credits));
        assert_eq!(self.waiting, waiting);
        self.assert_guarded();
        error
    }

    fn call(&mut self, call: OfferCall) -> HozgrimOffer {
        let answer = uplink_offer(call, inner(&mut self.credits), inner(&mut self.waiting));
        self.assert_guarded();
        answer
    }

    /// Offers a frame, with as many viewers as there are credits.
    fn offer(&mut self, viewer: usize, hint: u32, length: usize) -> HozgrimOffer {
        let call = OfferCall {
            viewers: self.credits().len(),
            viewer,
            hint,
            length,
        };
        self.call(call)
    }

    fn credits(&self) -> &[i32] {
        &self.credits[1..self.credits.len() - 1]
    }

    fn assert_guarded(&self) {
        let Self { credits, waiting } = self;
        assert_eq!([credits[0], credits[credits.len() - 1]], [NO_CREDIT; 2]);
        assert_eq!([waiting[0], waiting[waiting.len() - 1]], [NO_MARK; 2]);
    }
}

/// What is lent, without what stands around it.
fn inner<T>(column: &mut [T]) -> &mut [T] {
    let end = column.len() - 1;
    &mut column[1..end]
}

#[test]
fn a_column_of_zeros_is_a_fresh_viewer() {
    for hint in HINTS {
        let mut lent = Lent::fresh(1);
        assert_eq!(lent.offer(0, hint, 0), SENT);
        assert_eq!(lent, Lent::fresh(1));
    }
    let mut lent = Lent::fresh(1);
    assert_eq!(lent.tick(1, 5), 0);
    assert_eq!(lent.offer(0, DROPPABLE, 5), SENT);
    assert_eq!(lent, Lent::fresh(1));
}

#[test]
fn any_mark_but_0_is_one_who_waits() {
    for mark in 1..=u8::MAX {
        let mut lent = Lent::new(&[9], &[mark]);
        assert_eq!(lent.offer(0, DROPPABLE, 1), DROPPED, "{mark}");
        assert_eq!(lent, Lent::new(&[9], &[1]));
        let mut lent = Lent::new(&[9], &[mark]);
        assert_eq!(lent.offer(0, CRITICAL, 1), SENT, "{mark}");
        assert_eq!(lent, Lent::new(&[8], &[mark]));
        assert_eq!(lent.offer(0, RESYNC_POINT, 1), SENT, "{mark}");
        assert_eq!(lent, Lent::new(&[7], &[0]));
    }
}

#[test]
fn a_number_of_viewers_is_1_to_64() {
    let fresh = Lent::fresh(100);
    for viewers in 1..=MOST_VIEWERS {
        let mut lent = fresh.clone();
        assert_eq!(lent.tick(viewers, 64), 0);
        let share = 64 / viewers as i32;
        assert!(lent.credits()[..viewers].iter().all(|is| *is == share));
        assert!(lent.credits()[viewers..].iter().all(|is| *is == 0));
        let call = OfferCall {
            viewers,
            viewer: viewers - 1,
            hint: CRITICAL,
            length: 1,
        };
        assert_eq!(lent.call(call), SENT);
        assert_eq!(lent.credits()[viewers - 1], share - 1);
    }
    for viewers in NO_VIEWERS {
        let mut lent = fresh.clone();
        assert_eq!(lent.tick(viewers, 9), -32);
        for hint in HINTS {
            let call = OfferCall {
                viewers,
                viewer: 0,
                hint,
                length: 0,
            };
            assert_eq!(lent.call(call), OUT_OF_RANGE);
        }
        assert_eq!(lent, fresh);
    }
}

#[test]
fn no_entry_behind_the_viewers_is_judged_or_changed() {
    for behind in NO_CREDITS {
        let mut lent = Lent::new(&[0, 0, behind, behind], &[0, 0, 7]);
        let mut call = |viewer, hint, length| {
            lent.call(OfferCall {
                viewers: 2,
                viewer,
                hint,
                length,
            })
        };
        assert_eq!(call(0, RESYNC_POINT, 1), DROPPED);
        assert_eq!(call(1, CRITICAL, 3), SENT);
        assert_eq!(call(2, CRITICAL, 0), OUT_OF_RANGE);
        assert_eq!(lent.tick(2, 9), 0);
        assert_eq!(lent, Lent::new(&[4, 1, behind, behind], &[1, 0, 7]));
    }
}

#[test]
fn a_column_with_fewer_entries_than_viewers_is_out_of_range() {
    for (credits, waiting) in [(2, 3), (3, 2), (0, 3), (3, 0), (0, 0)] {
        let before = Lent::new(&vec![9; credits], &vec![0; waiting]);
        let mut lent = before.clone();
        for hint in HINTS {
            let call = OfferCall {
                viewers: 3,
                viewer: 0,
                hint,
                length: 1,
            };
            assert_eq!(lent.call(call), OUT_OF_RANGE, "{credits} {waiting}");
        }
        assert_eq!(lent, before);
        // A tick has no marks.
        let error = if credits < 3 { -32 } else { 0 };
        assert_eq!(lent.tick(3, 9), error);
        assert_eq!(lent == before, error != 0);
    }
}

#[test]
fn of_unused_credit_a_share_is_kept() {
    for (old, new) in [(0, 4), (3, 7), (4, 8), (5, 8), (8, 8), (9, 8), (5_000, 8)] {
        let mut lent = Lent::of(&[old, 0]);
        assert_eq!(lent.tick(2, 9), 0);
        assert_eq!(lent.credits(), [new, 4], "{old}");
    }
}

#[test]
fn the_largest_credit_is_two_shares_of_the_largest_uplink() {
    let mut lent = Lent::fresh(1);
    for credit in [16_777_215, MOST_CREDIT, MOST_CREDIT] {
        assert_eq!(lent.tick(1, MOST_BYTES), 0);
        assert_eq!(lent.credits(), [credit]);
    }
}

#[test]
fn a_debt_is_paid_back_by_ticks() {
    for (old, new) in [(-1, 3), (-4, 0), (-10, -6), (-MOST_DEBT, -MOST_DEBT + 4)] {
        let mut lent = Lent::of(&[old, 0]);
        assert_eq!(lent.tick(2, 9), 0);
        assert_eq!(lent.credits(), [new, 4], "{old}");
    }
}

#[test]
fn the_share_is_rounded_down() {
    for (viewers, uplink, share) in [
        (1, 9, 9),
        (2, 9, 4),
        (3, 9, 3),
        (4, 9, 2),
        (9, 9, 1),
        (10, 9, 0),
        (64, 63, 0),
        (64, 127, 1),
        (64, MOST_BYTES, 262_143),
    ] {
        let mut lent = Lent::fresh(viewers);
        assert_eq!(lent.tick(viewers, uplink), 0);
        assert!(lent.credits().iter().all(|credit| *credit == share));
    }
}

#[test]
fn a_share_of_0_cuts_credits_and_leaves_debts() {
    for uplink in [0, 1, 3] {
        let mut lent = Lent::of(&[7, 0, -7, MOST_CREDIT]);
        assert_eq!(lent.tick(4, uplink), 0);
        assert_eq!(lent.credits(), [0, 0, -7, 0]);
    }
}

#[test]
fn an_uplink_over_the_limit_is_out_of_range() {
    for uplink in [MOST_BYTES + 1, 1 << 25, u32::MAX] {
        let mut lent = Lent::of(&[1, 2]);
        assert_eq!(lent.tick(2, uplink), -32);
        assert_eq!(lent.credits(), [1, 2]);
    }
}

#[test]
fn a_tick_is_for_all_viewers_or_for_none() {
    for bad in NO_CREDITS {
        for place in 0..3 {
            let mut credits = [9, -9, 0];
            credits[place] = bad;
            let mut lent = Lent::of(&credits);
            assert_eq!(lent.tick(3, 9), -32, "{credits:?}");
            assert_eq!(lent.credits(), credits);
        }
    }
    let mut lent = Lent::of(&[MOST_CREDIT, -MOST_DEBT]);
    assert_eq!(lent.tick(2, 9), 0);
    assert_eq!(lent.credits(), [8, -MOST_DEBT + 4]);
}

#[test]
fn a_frame_as_long_as_the_credit_is_sent_and_a_longer_one_dropped() {
    for hint in [RESYNC_POINT, DROPPABLE] {
        for (credit, length, answer) in [
            (4, 3, SENT),
            (4, 4, SENT),
            (4, 5, DROPPED),
            (0, 0, SENT),
            (0, 1, DROPPED),
            (-1, 0, DROPPED),
            (-1, 1, DROPPED),
            (-MOST_DEBT, 0, DROPPED),
            (MOST_CREDIT, 33_554_430, SENT),
            (MOST_CREDIT, 33_554_431, DROPPED),
            // Lengths that are small, or below 0, in 32 or 64 bits.
            (4, 1 << 32, DROPPED),
            (4, 1 << 63, DROPPED),
            (4, usize::MAX, DROPPED),
            (-1, usize::MAX, DROPPED),
        ] {
            let mut lent = Lent::of(&[credit]);
            assert_eq!(lent.offer(0, hint, length), answer, "{credit} {length}");
            let expected = if answer == SENT {
                Lent::of(&[credit - length as i32])
            } else {
                Lent::new(&[credit], &[1])
            };
            assert_eq!(lent, expected, "{credit} {length}");
        }
    }
}

#[test]
fn a_critical_frame_is_sent_whatever_the_credit_is() {
    for mark in [0, 1] {
        for (credit, length, left) in [(9, 5, 4), (3, 5, -2), (0, 0, 0), (-7, 0, -7), (-7, 5, -12)]
        {
            let mut lent = Lent::new(&[credit], &[mark]);
            assert_eq!(lent.offer(0, CRITICAL, length), SENT);
            assert_eq!(lent, Lent::new(&[left], &[mark]));
        }
    }
}

#[test]
fn the_debt_after_a_critical_frame_is_judged() {
    let mut lent = Lent::fresh(1);
    for (length, answer) in [(2_000_000_000, SENT), (0, SENT), (1, DEBT_LIMIT), (0, SENT)] {
        assert_eq!(lent.offer(0, CRITICAL, length), answer, "{length}");
        assert_eq!(lent, Lent::of(&[-MOST_DEBT]));
    }
    for (credit, most) in [
        (0, 2_000_000_000),
        (5, 2_000_000_005),
        (-5, 1_999_999_995),
        (MOST_CREDIT, 2_033_554_430),
        (-MOST_DEBT, 0),
    ] {
        for length in [most, most + 1, 1 << 32, 1 << 63, usize::MAX] {
            let before = Lent::of(&[credit]);
            let mut lent = before.clone();
            let answer = lent.offer(0, CRITICAL, length);
            if length == most {
                assert_eq!((answer, lent), (SENT, Lent::of(&[-MOST_DEBT])));
            } else {
                assert_eq!((answer, lent), (DEBT_LIMIT, before), "{credit} {length}");
            }
        }
    }
}

#[test]
fn a_dropped_point_to_resume_from_is_a_drop() {
    let mut lent = Lent::of(&[6]);
    assert_eq!(lent.offer(0, RESYNC_POINT, 7), DROPPED);
    assert_eq!(lent.offer(0, DROPPABLE, 1), DROPPED);
    assert_eq!(lent, Lent::new(&[6], &[1]));
}

#[test]
fn only_a_point_to_resume_from_that_is_sent_ends_the_waiting() {
    let mut lent = Lent::of(&[6]);
    assert_eq!(lent.offer(0, DROPPABLE, 7), DROPPED);
    assert_eq!(lent.offer(0, CRITICAL, 0), SENT);
    assert_eq!(lent.offer(0, DROPPABLE, 0), DROPPED);
    assert_eq!(lent.tick(1, 10), 0);
    assert_eq!(lent.offer(0, DROPPABLE, 0), DROPPED);
    assert_eq!(lent.offer(0, RESYNC_POINT, 17), DROPPED);
    assert_eq!(lent.offer(0, DROPPABLE, 0), DROPPED);
    assert_eq!(lent, Lent::new(&[16], &[1]));
    assert_eq!(lent.offer(0, RESYNC_POINT, 16), SENT);
    assert_eq!(lent.offer(0, DROPPABLE, 0), SENT);
    assert_eq!(lent, Lent::of(&[0]));
}

#[test]
fn a_refused_frame_is_no_drop() {
    let mut lent = Lent::of(&[5, 5]);
    assert_eq!(lent.offer(0, CRITICAL, 2_000_000_006), DEBT_LIMIT);
    assert_eq!(lent.offer(0, 3, 6), OUT_OF_RANGE);
    assert_eq!(lent.offer(2, DROPPABLE, 6), OUT_OF_RANGE);
    assert_eq!(lent, Lent::of(&[5, 5]));
    assert_eq!(lent.offer(0, DROPPABLE, 5), SENT);
}

#[test]
fn an_offer_looks_at_its_viewer_alone() {
    for bad in NO_CREDITS {
        let mut lent = Lent::of(&[0, bad]);
        assert_eq!(lent.offer(0, CRITICAL, 1), SENT);
        assert_eq!(lent.credits(), [-1, bad]);
        assert_eq!(lent.tick(2, 9), -32);
        for hint in HINTS {
            assert_eq!(lent.offer(1, hint, 0), OUT_OF_RANGE);
        }
        assert_eq!(lent, Lent::of(&[-1, bad]));
    }
}

#[test]
fn an_offer_changes_its_viewer_alone() {
    for viewer in 0..3 {
        for (hint, length, credit, mark) in [
            (CRITICAL, 9, -4, 1),
            (RESYNC_POINT, 4, 1, 0),
            (RESYNC_POINT, 6, 5, 1),
            (DROPPABLE, 1, 5, 1),
        ] {
            // The marks of the others are told apart from one that is set.
            let (mut credits, mut waiting) = ([5; 3], [7; 3]);
            waiting[viewer] = 1;
            let mut lent = Lent::new(&credits, &waiting);
            lent.offer(viewer, hint, length);
            credits[viewer] = credit;
            waiting[viewer] = mark;
            assert_eq!(lent, Lent::new(&credits, &waiting));
        }
    }
}

/// Also where an entry behind the viewers has a credit.
#[test]
fn viewers_are_numbered_below_their_number() {
    for viewers in [1, 2, MOST_VIEWERS] {
        let before = Lent::of(&[5; 100]);
        let mut lent = before.clone();
        let mut offer = |viewer, hint| {
            lent.call(OfferCall {
                viewers,
                viewer,
                hint,
                length: 1,
            })
        };
        for viewer in [viewers, viewers + 1, 99, 100, 1 << 32, usize::MAX] {
            assert_eq!(HINTS.map(|hint| offer(viewer, hint)), [OUT_OF_RANGE; 3]);
        }
        for viewer in 0..viewers {
            assert_eq!(HINTS.map(|hint| offer(viewer, hint)), [SENT; 3]);
        }
        assert!(lent.credits()[..viewers].iter().all(|is| *is == 2));
        assert!(lent.credits()[viewers..].iter().all(|is| *is == 5));
        assert_eq!(lent.waiting, before.waiting);
    }
}

#[test]
fn hints_are_0_to_2() {
    for hint in [3, 4, 256, 257, 258, 1 << 31, u32::MAX] {
        for length in [0, 1, usize::MAX] {
            let mut lent = Lent::fresh(1);
            assert_eq!(lent.offer(0, hint, length), OUT_OF_RANGE);
            assert_eq!(lent, Lent::fresh(1));
        }
    }
}

#[test]
fn out_of_range_goes_before_the_debt() {
    const LONG: usize = usize::MAX;
    let mut lent = Lent::of(&[0, MOST_CREDIT + 1, -MOST_DEBT - 1]);
    assert_eq!(lent.offer(0, CRITICAL, LONG), DEBT_LIMIT);
    for (viewer, hint) in [(3, CRITICAL), (1, CRITICAL), (2, CRITICAL), (0, 3)] {
        assert_eq!(lent.offer(viewer, hint, LONG), OUT_OF_RANGE);
    }
    for viewers in NO_VIEWERS {
        let call = OfferCall {
            viewers,
            viewer: 0,
            hint: CRITICAL,
            length: LONG,
        };
        assert_eq!(lent.call(call), OUT_OF_RANGE);
    }
}

#[test]
fn empty_slices_are_taken() {
    for viewers in [0, 1] {
        assert_eq!(uplink_tick(viewers, 0, &mut []), -32);
        let call = OfferCall {
            viewers,
            ..OfferCall::default()
        };
        assert_eq!(uplink_offer(call, &mut [], &mut []), OUT_OF_RANGE);
    }
}

const ROWS: &[u8] = include_bytes!("../../../crates/uplink_cases/stdin");

/// So many bytes off the front.
fn taken<'a>(bytes: &mut &'a [u8], count: usize) -> &'a [u8] {
    let (front, rest) = bytes.split_at(count);
    *bytes = rest;
    front
}

fn number(bytes: &mut &[u8], count: usize) -> usize {
    let bytes = taken(bytes, count).iter();
    bytes.fold(0, |number, byte| number << 8 | usize::from(*byte))
}

fn columns(bytes: &mut &[u8], credits: usize, marks: usize) -> Lent {
    let credits: Vec<i32> = (0..credits)
        .map(|_| number(bytes, 4) as u32 as i32)
        .collect();
    Lent::new(&credits, taken(bytes, marks))
}

#[test]
fn the_entries_say_what_is_stored() {
    let mut rows = ROWS;
    let mut compared = [0, 0];
    while !rows.is_empty() {
        let row = &mut rows;
        let operation = number(row, 1);
        let (credits, marks) = (number(row, 1), number(row, 1));
        let answer = HozgrimOffer {
            error: -(number(row, 1) as i32),
            decision: number(row, 1) as u32,
        };
        let uplink_or_hint = number(row, 4) as u32;
        let call = OfferCall {
            hint: uplink_or_hint,
            viewers: number(row, 8),
            viewer: number(row, 8),
            length: number(row, 8),
        };
        let mut lent = columns(row, credits, marks);
        let then = columns(row, credits, marks);
        match operation as u8 {
            b't' => {
                assert_eq!(lent.tick(call.viewers, uplink_or_hint), answer.error);
                compared[0] += 1;
            }
            _ => {
                assert_eq!(lent.call(call), answer, "{call:?}");
                compared[1] += 1;
            }
        }
        assert_eq!(lent, then, "{call:?}");
    }
    assert_eq!(compared, [34, 86]);
}
