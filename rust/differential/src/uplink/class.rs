//! The classes of histories, by the last call and by what it finds; of two histories that differ in
//! the frames of others; and of histories whose bytes are counted.

use common::requirement::{DEBT_LIMIT, OUT_OF_RANGE};
use hozgrim_sys::{HozgrimOffer, OfferCall};

use super::alone::{
    CRITICAL, MOST_CREDIT, MOST_DEBT, MOST_UPLINK, MOST_VIEWERS, RESYNC_POINT, Reason, SENT,
    in_range, reasons,
};
use super::apart::{Apart, In};
use super::counted::{Account, Counted};
use super::line::Line;
use super::{Answer, Call, Columns};

/// Refused calls are by the reason; other ticks by the viewers, by U and by what is cut off, of one
/// viewer by its credit; other offers by hint and decision, by the length beside the credit, and by
/// whether the viewer waits. An input is of the first class that fits it.
pub const CLASSES: &[&str] = &[
    "no call",
    "tick, -32, 0 viewers",
    "tick, -32, 65 viewers",
    "tick, -32, more viewers",
    "tick, -32, credits one short",
    "tick, -32, credits shorter",
    "tick, -32, no credits",
    "tick, -32, U 16,777,216",
    "tick, -32, a higher U",
    "tick, -32, the only credit 33,554,431",
    "tick, -32, the only credit -2,000,000,001",
    "tick, -32, the only credit 2,147,483,647",
    "tick, -32, the only credit -2,147,483,648",
    "tick, -32, the only credit further off",
    "tick, -32, the first credit 33,554,431",
    "tick, -32, the first credit -2,000,000,001",
    "tick, -32, the first credit 2,147,483,647",
    "tick, -32, the first credit -2,147,483,648",
    "tick, -32, the first credit further off",
    "tick, -32, a credit between 33,554,431",
    "tick, -32, a credit between -2,000,000,001",
    "tick, -32, a credit between 2,147,483,647",
    "tick, -32, a credit between -2,147,483,648",
    "tick, -32, a credit between further off",
    "tick, -32, the last credit 33,554,431",
    "tick, -32, the last credit -2,000,000,001",
    "tick, -32, the last credit 2,147,483,647",
    "tick, -32, the last credit -2,147,483,648",
    "tick, -32, the last credit further off",
    "tick, -32, several credits",
    "tick, -32, several reasons",
    "tick, one viewer, U 0, a debt",
    "tick, one viewer, U 0, no credit",
    "tick, one viewer, U 0, credit cut off",
    "tick, one viewer, credit 33,554,430",
    "tick, one viewer, up to a credit of 33,554,430",
    "tick, one viewer, a debt of 2,000,000,000",
    "tick, one viewer, a debt that stays",
    "tick, one viewer, a debt paid",
    "tick, one viewer, a debt paid, some left",
    "tick, one viewer, no credit",
    "tick, one viewer, less than a share left",
    "tick, one viewer, a share left",
    "tick, one viewer, one byte cut off",
    "tick, one viewer, more cut off",
    "tick, two viewers, U 0, nothing cut off",
    "tick, two viewers, U 0, nothing cut off, entries behind",
    "tick, two viewers, U 0, some cut off",
    "tick, two viewers, U 0, some cut off, entries behind",
    "tick, two viewers, U below the viewers, nothing cut off",
    "tick, two viewers, U below the viewers, nothing cut off, entries behind",
    "tick, two viewers, U below the viewers, some cut off",
    "tick, two viewers, U below the viewers, some cut off, entries behind",
    "tick, two viewers, U 16,777,215, nothing cut off",
    "tick, two viewers, U 16,777,215, nothing cut off, entries behind",
    "tick, two viewers, U 16,777,215, some cut off",
    "tick, two viewers, U 16,777,215, some cut off, entries behind",
    "tick, two viewers, a rest, nothing cut off",
    "tick, two viewers, a rest, nothing cut off, entries behind",
    "tick, two viewers, a rest, some cut off",
    "tick, two viewers, a rest, some cut off, entries behind",
    "tick, two viewers, no rest, nothing cut off",
    "tick, two viewers, no rest, nothing cut off, entries behind",
    "tick, two viewers, no rest, some cut off",
    "tick, two viewers, no rest, some cut off, entries behind",
    "tick, three viewers, U 0, nothing cut off",
    "tick, three viewers, U 0, nothing cut off, entries behind",
    "tick, three viewers, U 0, some cut off",
    "tick, three viewers, U 0, some cut off, entries behind",
    "tick, three viewers, U below the viewers, nothing cut off",
    "tick, three viewers, U below the viewers, nothing cut off, entries behind",
    "tick, three viewers, U below the viewers, some cut off",
    "tick, three viewers, U below the viewers, some cut off, entries behind",
    "tick, three viewers, U 16,777,215, nothing cut off",
    "tick, three viewers, U 16,777,215, nothing cut off, entries behind",
    "tick, three viewers, U 16,777,215, some cut off",
    "tick, three viewers, U 16,777,215, some cut off, entries behind",
    "tick, three viewers, a rest, nothing cut off",
    "tick, three viewers, a rest, nothing cut off, entries behind",
    "tick, three viewers, a rest, some cut off",
    "tick, three viewers, a rest, some cut off, entries behind",
    "tick, three viewers, no rest, nothing cut off",
    "tick, three viewers, no rest, nothing cut off, entries behind",
    "tick, three viewers, no rest, some cut off",
    "tick, three viewers, no rest, some cut off, entries behind",
    "tick, 64 viewers, U 0, nothing cut off",
    "tick, 64 viewers, U 0, nothing cut off, entries behind",
    "tick, 64 viewers, U 0, some cut off",
    "tick, 64 viewers, U 0, some cut off, entries behind",
    "tick, 64 viewers, U below the viewers, nothing cut off",
    "tick, 64 viewers, U below the viewers, nothing cut off, entries behind",
    "tick, 64 viewers, U below the viewers, some cut off",
    "tick, 64 viewers, U below the viewers, some cut off, entries behind",
    "tick, 64 viewers, U 16,777,215, nothing cut off",
    "tick, 64 viewers, U 16,777,215, nothing cut off, entries behind",
    "tick, 64 viewers, U 16,777,215, some cut off",
    "tick, 64 viewers, U 16,777,215, some cut off, entries behind",
    "tick, 64 viewers, a rest, nothing cut off",
    "tick, 64 viewers, a rest, nothing cut off, entries behind",
    "tick, 64 viewers, a rest, some cut off",
    "tick, 64 viewers, a rest, some cut off, entries behind",
    "tick, 64 viewers, no rest, nothing cut off",
    "tick, 64 viewers, no rest, nothing cut off, entries behind",
    "tick, 64 viewers, no rest, some cut off",
    "tick, 64 viewers, no rest, some cut off, entries behind",
    "tick, other viewers, U 0, nothing cut off",
    "tick, other viewers, U 0, nothing cut off, entries behind",
    "tick, other viewers, U 0, some cut off",
    "tick, other viewers, U 0, some cut off, entries behind",
    "tick, other viewers, U below the viewers, nothing cut off",
    "tick, other viewers, U below the viewers, nothing cut off, entries behind",
    "tick, other viewers, U below the viewers, some cut off",
    "tick, other viewers, U below the viewers, some cut off, entries behind",
    "tick, other viewers, U 16,777,215, nothing cut off",
    "tick, other viewers, U 16,777,215, nothing cut off, entries behind",
    "tick, other viewers, U 16,777,215, some cut off",
    "tick, other viewers, U 16,777,215, some cut off, entries behind",
    "tick, other viewers, a rest, nothing cut off",
    "tick, other viewers, a rest, nothing cut off, entries behind",
    "tick, other viewers, a rest, some cut off",
    "tick, other viewers, a rest, some cut off, entries behind",
    "tick, other viewers, no rest, nothing cut off",
    "tick, other viewers, no rest, nothing cut off, entries behind",
    "tick, other viewers, no rest, some cut off",
    "tick, other viewers, no rest, some cut off, entries behind",
    "offer, -32, also a debt over the limit",
    "offer, -32, 0 viewers",
    "offer, -32, 65 viewers",
    "offer, -32, more viewers",
    "offer, -32, credits one short",
    "offer, -32, credits shorter",
    "offer, -32, no credits",
    "offer, -32, marks one short",
    "offer, -32, marks shorter",
    "offer, -32, no marks",
    "offer, -32, viewer behind the last",
    "offer, -32, viewer further on",
    "offer, -32, hint 3",
    "offer, -32, a higher hint",
    "offer, -32, credit 33,554,431",
    "offer, -32, credit -2,000,000,001",
    "offer, -32, credit 2,147,483,647",
    "offer, -32, credit -2,147,483,648",
    "offer, -32, credit further off",
    "offer, -32, several reasons",
    "Critical, -33, one byte over, credit",
    "Critical, -33, one byte over, credit, waiting",
    "Critical, -33, one byte over, no credit",
    "Critical, -33, one byte over, no credit, waiting",
    "Critical, -33, one byte over, a debt",
    "Critical, -33, one byte over, a debt, waiting",
    "Critical, -33, one byte over, a debt of 2,000,000,000",
    "Critical, -33, one byte over, a debt of 2,000,000,000, waiting",
    "Critical, -33, more over, credit",
    "Critical, -33, more over, credit, waiting",
    "Critical, -33, more over, no credit",
    "Critical, -33, more over, no credit, waiting",
    "Critical, -33, more over, a debt",
    "Critical, -33, more over, a debt, waiting",
    "Critical, -33, more over, a debt of 2,000,000,000",
    "Critical, -33, more over, a debt of 2,000,000,000, waiting",
    "Critical, -33, length 2^64-1, credit",
    "Critical, -33, length 2^64-1, credit, waiting",
    "Critical, -33, length 2^64-1, no credit",
    "Critical, -33, length 2^64-1, no credit, waiting",
    "Critical, -33, length 2^64-1, a debt",
    "Critical, -33, length 2^64-1, a debt, waiting",
    "Critical, -33, length 2^64-1, a debt of 2,000,000,000",
    "Critical, -33, length 2^64-1, a debt of 2,000,000,000, waiting",
    "Critical, sent, length 0",
    "Critical, sent, length 0, waiting",
    "Critical, sent, length 0, waiting by another mark",
    "Critical, sent, length 0, a debt",
    "Critical, sent, length 0, a debt, waiting",
    "Critical, sent, length 0, a debt, waiting by another mark",
    "Critical, sent, within the credit",
    "Critical, sent, within the credit, waiting",
    "Critical, sent, within the credit, waiting by another mark",
    "Critical, sent, all of the credit",
    "Critical, sent, all of the credit, waiting",
    "Critical, sent, all of the credit, waiting by another mark",
    "Critical, sent, into debt",
    "Critical, sent, into debt, waiting",
    "Critical, sent, into debt, waiting by another mark",
    "Critical, sent, further into debt",
    "Critical, sent, further into debt, waiting",
    "Critical, sent, further into debt, waiting by another mark",
    "Critical, sent, to a debt of 2,000,000,000",
    "Critical, sent, to a debt of 2,000,000,000, waiting",
    "Critical, sent, to a debt of 2,000,000,000, waiting by another mark",
    "ResyncPoint, sent, length 0, no credit",
    "ResyncPoint, sent, length 0, no credit, waiting",
    "ResyncPoint, sent, length 0, no credit, waiting by another mark",
    "ResyncPoint, sent, length 0",
    "ResyncPoint, sent, length 0, waiting",
    "ResyncPoint, sent, length 0, waiting by another mark",
    "ResyncPoint, sent, within the credit",
    "ResyncPoint, sent, within the credit, waiting",
    "ResyncPoint, sent, within the credit, waiting by another mark",
    "ResyncPoint, sent, all of the credit",
    "ResyncPoint, sent, all of the credit, waiting",
    "ResyncPoint, sent, all of the credit, waiting by another mark",
    "ResyncPoint, dropped, one byte over",
    "ResyncPoint, dropped, one byte over, waiting",
    "ResyncPoint, dropped, one byte over, waiting by another mark",
    "ResyncPoint, dropped, more over",
    "ResyncPoint, dropped, more over, waiting",
    "ResyncPoint, dropped, more over, waiting by another mark",
    "ResyncPoint, dropped, length 2^64-1",
    "ResyncPoint, dropped, length 2^64-1, waiting",
    "ResyncPoint, dropped, length 2^64-1, waiting by another mark",
    "ResyncPoint, dropped, length 0, a debt",
    "ResyncPoint, dropped, length 0, a debt, waiting",
    "ResyncPoint, dropped, length 0, a debt, waiting by another mark",
    "ResyncPoint, dropped, a debt",
    "ResyncPoint, dropped, a debt, waiting",
    "ResyncPoint, dropped, a debt, waiting by another mark",
    "Droppable, sent, length 0, no credit",
    "Droppable, sent, length 0",
    "Droppable, sent, within the credit",
    "Droppable, sent, all of the credit",
    "Droppable, dropped, length 0, no credit, waiting",
    "Droppable, dropped, length 0, no credit, waiting by another mark",
    "Droppable, dropped, length 0, waiting",
    "Droppable, dropped, length 0, waiting by another mark",
    "Droppable, dropped, within the credit, waiting",
    "Droppable, dropped, within the credit, waiting by another mark",
    "Droppable, dropped, all of the credit, waiting",
    "Droppable, dropped, all of the credit, waiting by another mark",
    "Droppable, dropped, one byte over",
    "Droppable, dropped, one byte over, waiting",
    "Droppable, dropped, one byte over, waiting by another mark",
    "Droppable, dropped, more over",
    "Droppable, dropped, more over, waiting",
    "Droppable, dropped, more over, waiting by another mark",
    "Droppable, dropped, length 2^64-1",
    "Droppable, dropped, length 2^64-1, waiting",
    "Droppable, dropped, length 2^64-1, waiting by another mark",
    "Droppable, dropped, length 0, a debt",
    "Droppable, dropped, length 0, a debt, waiting",
    "Droppable, dropped, length 0, a debt, waiting by another mark",
    "Droppable, dropped, a debt",
    "Droppable, dropped, a debt, waiting",
    "Droppable, dropped, a debt, waiting by another mark",
    "Critical, sent, beside a credit out of range",
    "Critical, -33, beside a credit out of range",
    "ResyncPoint, sent, beside a credit out of range",
    "ResyncPoint, dropped, beside a credit out of range",
    "Droppable, sent, beside a credit out of range",
    "Droppable, dropped, beside a credit out of range",
    "apart, others put in, all sent",
    "apart, others put in, all dropped",
    "apart, others put in, sent and dropped",
    "apart, others put in, also -33",
    "apart, others put in, also -32",
    "apart, others taken out, all sent",
    "apart, others taken out, all dropped",
    "apart, others taken out, sent and dropped",
    "apart, others taken out, also -33",
    "apart, others taken out, also -32",
    "apart, others changed, all sent",
    "apart, others changed, all dropped",
    "apart, others changed, sent and dropped",
    "apart, others changed, also -33",
    "apart, others changed, also -32",
    "apart, nothing of others",
    "apart, no offer to the viewer",
    "apart, one viewer",
    "apart, viewer out of range",
    "apart, number of viewers out of range",
    "apart, U out of range",
    "counted, one viewer, no tick, nothing sent",
    "counted, one viewer, no tick, a debt left",
    "counted, one viewer, nothing sent, nothing left",
    "counted, one viewer, nothing sent, credit left",
    "counted, one viewer, sent, a debt left",
    "counted, one viewer, sent, nothing left",
    "counted, one viewer, sent, credit left",
    "counted, one viewer, nothing sent, credit left, some cut off",
    "counted, one viewer, sent, a debt left, some cut off",
    "counted, one viewer, sent, nothing left, some cut off",
    "counted, one viewer, sent, credit left, some cut off",
    "counted, several viewers, no tick, nothing sent",
    "counted, several viewers, no tick, a debt left",
    "counted, several viewers, nothing sent, nothing left",
    "counted, several viewers, nothing sent, credit left",
    "counted, several viewers, sent, a debt left",
    "counted, several viewers, sent, nothing left",
    "counted, several viewers, sent, credit left",
    "counted, several viewers, nothing sent, credit left, some cut off",
    "counted, several viewers, sent, a debt left, some cut off",
    "counted, several viewers, sent, nothing left, some cut off",
    "counted, several viewers, sent, credit left, some cut off",
    "counted, 64 viewers, no tick, nothing sent",
    "counted, 64 viewers, no tick, a debt left",
    "counted, 64 viewers, nothing sent, nothing left",
    "counted, 64 viewers, nothing sent, credit left",
    "counted, 64 viewers, sent, a debt left",
    "counted, 64 viewers, sent, nothing left",
    "counted, 64 viewers, sent, credit left",
    "counted, 64 viewers, nothing sent, credit left, some cut off",
    "counted, 64 viewers, sent, a debt left, some cut off",
    "counted, 64 viewers, sent, nothing left, some cut off",
    "counted, 64 viewers, sent, credit left, some cut off",
];

/// The parts of its name, put together.
fn listed(parts: &[&str]) -> &'static str {
    let name = parts.concat();
    let known = CLASSES.iter().find(|known| **known == name);
    known.unwrap_or_else(|| panic!("no history is of the class {name}"))
}

/// The class of a history that ends with this call, by the columns before it.
pub fn of_last(before: &Columns, call: &Call, answer: &Answer) -> &'static str {
    let reasons = reasons(before, call);
    match (call, answer) {
        (Call::Tick { viewers, uplink }, Answer::Tick(OUT_OF_RANGE)) => {
            let credits = &before.credits;
            let credit = |at: usize| {
                let place = place(at, *viewers);
                format!("{place}{}", off(credits[at]))
            };
            let why = match reasons[..] {
                [Reason::Uplink] if *uplink == MOST_UPLINK + 1 => "U 16,777,216".into(),
                [Reason::Uplink] => "a higher U".into(),
                [Reason::Credit(at)] => credit(at),
                [Reason::Credit(_), .., Reason::Credit(_)] => "several credits".into(),
                _ => of_columns(before, *viewers, &reasons).into(),
            };
            listed(&["tick, -32, ", &why])
        }
        (Call::Tick { viewers, uplink }, _) => of_tick(before, *viewers, *uplink),
        (Call::Offer(offer), Answer::Offer(answer)) => match answer.error {
            OUT_OF_RANGE => {
                let why = of_refused(before, offer, &reasons);
                listed(&["offer, -32, ", &why])
            }
            _ => of_offer(before, offer, answer),
        },
        (Call::Offer(_), Answer::Tick(_)) => unreachable!("an offer has an answer of its own"),
    }
}

/// Why a call is refused, if it is the number of viewers or a column.
fn of_columns(before: &Columns, viewers: usize, reasons: &[Reason]) -> &'static str {
    match reasons {
        [Reason::Viewers] => match viewers {
            0 => "0 viewers",
            _ if viewers == MOST_VIEWERS + 1 => "65 viewers",
            _ => "more viewers",
        },
        [Reason::Credits] => match before.credits.len() {
            0 => "no credits",
            length if length + 1 == viewers => "credits one short",
            _ => "credits shorter",
        },
        [Reason::Marks] => match before.marks.len() {
            0 => "no marks",
            length if length + 1 == viewers => "marks one short",
            _ => "marks shorter",
        },
        _ => "several reasons",
    }
}

fn place(at: usize, viewers: usize) -> &'static str {
    match at {
        0 if viewers == 1 => "the only credit ",
        0 => "the first credit ",
        _ if at + 1 == viewers => "the last credit ",
        _ => "a credit between ",
    }
}

/// A credit that is out of range.
fn off(credit: i32) -> &'static str {
    match credit {
        33_554_431 => "33,554,431",
        -2_000_000_001 => "-2,000,000,001",
        i32::MAX => "2,147,483,647",
        i32::MIN => "-2,147,483,648",
        _ => "further off",
    }
}

/// Of a tick that is not refused.
fn of_tick(before: &Columns, viewers: usize, uplink: u32) -> &'static str {
    let share = i128::from(uplink) / viewers as i128;
    let credits = &before.credits[..viewers];
    if let [credit] = credits {
        return listed(&["tick, one viewer, ", of_credit((*credit).into(), share)]);
    }
    let number = match viewers {
        2 => "two viewers, ",
        3 => "three viewers, ",
        MOST_VIEWERS => "64 viewers, ",
        _ => "other viewers, ",
    };
    let bytes = match uplink {
        0 => "U 0, ",
        MOST_UPLINK => "U 16,777,215, ",
        _ if share == 0 => "U below the viewers, ",
        _ if uplink.is_multiple_of(viewers as u32) => "no rest, ",
        _ => "a rest, ",
    };
    let cut = match credits.iter().any(|credit| i128::from(*credit) > share) {
        true => "some cut off",
        false => "nothing cut off",
    };
    let behind = match before.credits.len() > viewers {
        true => ", entries behind",
        false => "",
    };
    listed(&["tick, ", number, bytes, cut, behind])
}

/// Of the only viewer of a tick.
fn of_credit(credit: i128, share: i128) -> &'static str {
    let after = credit + share;
    match credit {
        ..0 if share == 0 => "U 0, a debt",
        0 if share == 0 => "U 0, no credit",
        _ if share == 0 => "U 0, credit cut off",
        MOST_CREDIT => "credit 33,554,430",
        _ if credit >= share && 2 * share == MOST_CREDIT => "up to a credit of 33,554,430",
        0 => "no credit",
        ..0 if -credit == MOST_DEBT => "a debt of 2,000,000,000",
        ..0 if after < 0 => "a debt that stays",
        ..0 if after == 0 => "a debt paid",
        ..0 => "a debt paid, some left",
        _ if credit < share => "less than a share left",
        _ if credit == share => "a share left",
        _ if credit == share + 1 => "one byte cut off",
        _ => "more cut off",
    }
}

/// Why an offer is refused.
fn of_refused(before: &Columns, offer: &OfferCall, reasons: &[Reason]) -> String {
    let over = offer.length as i128 > MOST_CREDIT + MOST_DEBT;
    let why = match reasons {
        [_] if offer.hint == CRITICAL && over => "also a debt over the limit",
        [Reason::Viewer] if offer.viewer == offer.viewers => "viewer behind the last",
        [Reason::Viewer] => "viewer further on",
        [Reason::Hint] if offer.hint == 3 => "hint 3",
        [Reason::Hint] => "a higher hint",
        [Reason::Credit(at)] => return format!("credit {}", off(before.credits[*at])),
        _ => of_columns(before, offer.viewers, reasons),
    };
    why.into()
}

/// Of an offer that is in range.
fn of_offer(before: &Columns, offer: &OfferCall, answer: &HozgrimOffer) -> &'static str {
    let hint = match offer.hint {
        CRITICAL => "Critical",
        RESYNC_POINT => "ResyncPoint",
        _ => "Droppable",
    };
    let decision = match (answer.error, answer.decision) {
        (DEBT_LIMIT, _) => ", -33",
        (_, SENT) => ", sent",
        _ => ", dropped",
    };
    let viewers = &before.credits[..offer.viewers];
    if viewers.iter().any(|credit| !in_range(*credit)) {
        return listed(&[hint, decision, ", beside a credit out of range"]);
    }
    let credit = before.credits[offer.viewer].into();
    let length = offer.length as i128;
    let how = match decision {
        ", -33" => of_debt_limit(credit, length),
        ", sent" if offer.hint == CRITICAL => of_critical(credit, length).into(),
        _ => of_fit(credit, length).into(),
    };
    let waiting = match before.marks[offer.viewer] {
        0 => "",
        1 => ", waiting",
        _ if decision == ", -33" => ", waiting",
        _ => ", waiting by another mark",
    };
    listed(&[hint, decision, ", ", &how, waiting])
}

/// Of a frame that is refused for its debt.
fn of_debt_limit(credit: i128, length: i128) -> String {
    let over = match length - credit - MOST_DEBT {
        _ if length == usize::MAX as i128 => "length 2^64-1",
        1 => "one byte over",
        _ => "more over",
    };
    let credit = match credit {
        0 => "no credit",
        1.. => "credit",
        _ if -credit == MOST_DEBT => "a debt of 2,000,000,000",
        _ => "a debt",
    };
    format!("{over}, {credit}")
}

fn of_critical(credit: i128, length: i128) -> &'static str {
    match credit - length {
        _ if length == 0 && credit < 0 => "length 0, a debt",
        _ if length == 0 => "length 0",
        1.. => "within the credit",
        0 => "all of the credit",
        left if -left == MOST_DEBT => "to a debt of 2,000,000,000",
        _ if credit >= 0 => "into debt",
        _ => "further into debt",
    }
}

/// Of a frame that goes, or would go, if it is no longer than the credit.
fn of_fit(credit: i128, length: i128) -> &'static str {
    match credit - length {
        _ if length == usize::MAX as i128 => "length 2^64-1",
        ..0 if credit < 0 && length == 0 => "length 0, a debt",
        ..0 if credit < 0 => "a debt",
        -1 => "one byte over",
        ..0 => "more over",
        0 if length == 0 => "length 0, no credit",
        _ if length == 0 => "length 0",
        0 => "all of the credit",
        1.. => "within the credit",
    }
}

/// By the line, or by what differs and what the viewer is answered.
pub fn of_apart(apart: &Apart, answers: &[Answer]) -> &'static str {
    let Line { viewers, uplink } = apart.line;
    let has = |side| apart.events.iter().any(|(of, _)| *of == side);
    let differs = match (has(In::First), has(In::Second)) {
        (false, false) => return "apart, nothing of others",
        _ if !(1..=MOST_VIEWERS).contains(&viewers) => {
            return "apart, number of viewers out of range";
        }
        _ if uplink > MOST_UPLINK => return "apart, U out of range",
        _ if apart.watched >= viewers => return "apart, viewer out of range",
        _ if answers.is_empty() => return "apart, no offer to the viewer",
        _ if viewers == 1 => return "apart, one viewer",
        (false, true) => "others put in",
        (true, false) => "others taken out",
        (true, true) => "others changed",
    };
    let any = |is: fn(&HozgrimOffer) -> bool| {
        let mut offers = answers.iter();
        offers.any(|answer| matches!(answer, Answer::Offer(offer) if is(offer)))
    };
    let answered = if any(|offer| offer.error == DEBT_LIMIT) {
        "also -33"
    } else if any(|offer| offer.error == OUT_OF_RANGE) {
        "also -32"
    } else {
        let dropped = any(|offer| offer.decision != SENT);
        match any(|offer| offer.decision == SENT) {
            true if dropped => "sent and dropped",
            true => "all sent",
            false => "all dropped",
        }
    };
    listed(&["apart, ", differs, ", ", answered])
}

/// By the viewers, and by what the shares of one of them became.
pub fn of_counted(counted: &Counted, account: &Account) -> &'static str {
    let number = match counted.line.viewers {
        1 => "one viewer, ",
        MOST_VIEWERS => "64 viewers, ",
        _ => "several viewers, ",
    };
    let left = match account.left {
        ..0 => "a debt left",
        0 => "nothing left",
        1.. => "credit left",
    };
    let became = match (account.ticks, account.sent) {
        (0, 0) => "no tick, nothing sent".into(),
        (0, _) => format!("no tick, {left}"),
        (_, 0) => format!("nothing sent, {left}"),
        _ => format!("sent, {left}"),
    };
    let cut_off = match account.cut_off {
        0 => "",
        _ => ", some cut off",
    };
    listed(&["counted, ", number, &became, cut_off])
}
