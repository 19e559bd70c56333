//! A sharer of an uplink as it is written in safe Rust, from the words of request N10, with the
//! same checks as the port's. It is called, as the port is: nothing of it is compiled into the
//! caller.

use std::ops::RangeInclusive;

use common::requirement::{DEBT_LIMIT, OUT_OF_RANGE};

use crate::port::{HozgrimOffer, OfferCall};

const VIEWERS: RangeInclusive<usize> = 1..=64;
const MOST_UPLINK: u32 = 16_777_215;
const MOST_DEBT: i64 = 2_000_000_000;
const CREDITS: RangeInclusive<i32> = -2_000_000_000..=33_554_430;

#[inline(never)]
pub fn tick(viewers: usize, uplink: u32, credits: &mut [i32]) -> i32 {
    if !VIEWERS.contains(&viewers) || uplink > MOST_UPLINK {
        return OUT_OF_RANGE;
    }
    let Some(credits) = credits.get_mut(..viewers) else {
        return OUT_OF_RANGE;
    };
    if !credits.iter().all(|credit| CREDITS.contains(credit)) {
        return OUT_OF_RANGE;
    }
    let share = (uplink / viewers as u32) as i32;
    for credit in credits {
        *credit = (*credit).min(share) + share;
    }
    0
}

#[inline(never)]
pub fn offer(call: OfferCall, credits: &mut [i32], waiting: &mut [u8]) -> HozgrimOffer {
    let viewers = call.viewers;
    if !VIEWERS.contains(&viewers) || call.hint > 2 {
        return refused(OUT_OF_RANGE);
    }
    let (Some(credits), Some(waiting)) = (credits.get_mut(..viewers), waiting.get_mut(..viewers))
    else {
        return refused(OUT_OF_RANGE);
    };
    let (Some(credit), Some(waiting)) =
        (credits.get_mut(call.viewer), waiting.get_mut(call.viewer))
    else {
        return refused(OUT_OF_RANGE);
    };
    if !CREDITS.contains(credit) {
        return refused(OUT_OF_RANGE);
    }
    let fits = |most: i64| usize::try_from(most).is_ok_and(|most| call.length <= most);
    let left = i64::from(*credit);
    let goes = match call.hint {
        0 if !fits(left + MOST_DEBT) => return refused(DEBT_LIMIT),
        0 => true,
        1 => fits(left),
        _ => fits(left) && *waiting == 0,
    };
    if !goes {
        *waiting = 1;
        return HozgrimOffer {
            error: 0,
            decision: 2,
        };
    }
    *credit = (left - call.length as i64) as i32;
    if call.hint == 1 {
        *waiting = 0;
    }
    HozgrimOffer {
        error: 0,
        decision: 1,
    }
}

fn refused(error: i32) -> HozgrimOffer {
    HozgrimOffer { error, decision: 0 }
}
