//! The classes of sequences, by the last frame and by what the store held before it.

use std::borrow::Cow;

use common::requirement::UNKNOWN_FRAME_TYPE;
use sheet_check::starts::kind_and_hint;

use super::history::{AUDIO_HEADER, History, KEYFRAME, KINDS, Offer, VIDEO_HEADER};

/// Those of no frame, and of one that is not kept by its kind, stand in sevens, by how many frames
/// are held, and whether another slot has a length past its buffer. Those of refused frames stand in
/// twos, by whether something is held that the frame would change, if it were not refused. Those of
/// frames that are kept, or too long, stand in threes, by the kind: of unpeeled ones by what the slot
/// held, and of peeled ones by the length of the result alone, and of the payload. The last ones are
/// of video headers that empty the keyframe; those are of no class before.
pub const CLASSES: &[&str] = &[
    "no frame, nothing held",
    "no frame, one held",
    "no frame, two held",
    "no frame, three held",
    "no frame, nothing held, a length past its buffer",
    "no frame, one held, a length past its buffer",
    "no frame, two held, a length past its buffer",
    "live only, nothing held",
    "live only, one held",
    "live only, two held",
    "live only, three held",
    "live only, nothing held, a length past its buffer",
    "live only, one held, a length past its buffer",
    "live only, two held, a length past its buffer",
    "refused with -21, nothing held",
    "refused with -21, some held",
    "refused with -22, live only, nothing held",
    "refused with -22, live only, some held",
    "refused with -22, video header, nothing held",
    "refused with -22, video header, some held",
    "refused with -22, audio header, nothing held",
    "refused with -22, audio header, some held",
    "refused with -22, keyframe, nothing held",
    "refused with -22, keyframe, some held",
    "refused with -3, live only, nothing held",
    "refused with -3, live only, some held",
    "refused with -3, video header, nothing held",
    "refused with -3, video header, some held",
    "refused with -3, audio header, nothing held",
    "refused with -3, audio header, some held",
    "refused with -3, keyframe, nothing held",
    "refused with -3, keyframe, some held",
    "video header, shorter than its slot, over nothing",
    "audio header, shorter than its slot, over nothing",
    "keyframe, shorter than its slot, over nothing",
    "video header, shorter than its slot, over a length past its buffer",
    "audio header, shorter than its slot, over a length past its buffer",
    "keyframe, shorter than its slot, over a length past its buffer",
    "video header, shorter than its slot, over the same",
    "audio header, shorter than its slot, over the same",
    "keyframe, shorter than its slot, over the same",
    "video header, shorter than its slot, over another",
    "audio header, shorter than its slot, over another",
    "keyframe, shorter than its slot, over another",
    "video header, as long as its slot, over nothing",
    "audio header, as long as its slot, over nothing",
    "keyframe, as long as its slot, over nothing",
    "video header, as long as its slot, over a length past its buffer",
    "audio header, as long as its slot, over a length past its buffer",
    "keyframe, as long as its slot, over a length past its buffer",
    "video header, as long as its slot, over the same",
    "audio header, as long as its slot, over the same",
    "keyframe, as long as its slot, over the same",
    "video header, as long as its slot, over another",
    "audio header, as long as its slot, over another",
    "keyframe, as long as its slot, over another",
    "video header, one byte too long, over nothing",
    "audio header, one byte too long, over nothing",
    "keyframe, one byte too long, over nothing",
    "video header, one byte too long, over a length past its buffer",
    "audio header, one byte too long, over a length past its buffer",
    "keyframe, one byte too long, over a length past its buffer",
    "video header, one byte too long, over another",
    "audio header, one byte too long, over another",
    "keyframe, one byte too long, over another",
    "video header, too long, over nothing",
    "audio header, too long, over nothing",
    "keyframe, too long, over nothing",
    "video header, too long, over a length past its buffer",
    "audio header, too long, over a length past its buffer",
    "keyframe, too long, over a length past its buffer",
    "video header, too long, over another",
    "audio header, too long, over another",
    "keyframe, too long, over another",
    "video header, slot of 0 bytes, over nothing",
    "audio header, slot of 0 bytes, over nothing",
    "keyframe, slot of 0 bytes, over nothing",
    "video header, slot of 0 bytes, over a length past its buffer",
    "audio header, slot of 0 bytes, over a length past its buffer",
    "keyframe, slot of 0 bytes, over a length past its buffer",
    "video header, peeled, shorter than its slot",
    "audio header, peeled, shorter than its slot",
    "keyframe, peeled, shorter than its slot",
    "video header, peeled, shorter than its slot, payload too long",
    "audio header, peeled, shorter than its slot, payload too long",
    "keyframe, peeled, shorter than its slot, payload too long",
    "video header, peeled, as long as its slot",
    "audio header, peeled, as long as its slot",
    "keyframe, peeled, as long as its slot",
    "video header, peeled, one byte too long",
    "audio header, peeled, one byte too long",
    "keyframe, peeled, one byte too long",
    "video header, peeled, too long",
    "audio header, peeled, too long",
    "keyframe, peeled, too long",
    "video header, peeled, slot of 0 bytes",
    "audio header, peeled, slot of 0 bytes",
    "keyframe, peeled, slot of 0 bytes",
    "video header, a keyframe held, kept over nothing",
    "video header, a keyframe held, kept over the same",
    "video header, a keyframe held, kept over another",
    "video header, a keyframe held, too long",
    "video header, a keyframe held, peeled, kept",
    "video header, a keyframe held, peeled, too long",
    "video header, a keyframe past its buffer, kept",
    "video header, a keyframe past its buffer, too long",
];

/// The class of a sequence with this history.
pub fn class(history: &History) -> &'static str {
    let Some((last, earlier)) = history.offers.split_last() else {
        return listed(&["no frame", of_store(history)]);
    };
    let before = history.first(earlier.len());
    match (last.passed.report.error, last.kind()) {
        (0, 0) => listed(&["live only", of_store(&before)]),
        (0, VIDEO_HEADER) if before.length(KEYFRAME) > 0 => of_emptying(&before, last),
        (0, kind) => of_kept(&before, last, kind),
        (error, _) => of_refused(&before, last, error),
    }
}

/// The parts of its name, put together.
fn listed(parts: &[&str]) -> &'static str {
    let name = parts.concat();
    let known = CLASSES.iter().find(|known| **known == name);
    known.unwrap_or_else(|| panic!("no sequence is of the class {name}"))
}

fn of_store(history: &History) -> &'static str {
    let past = KINDS.iter().any(|&kind| is_past(history, kind));
    match (history.late().len(), past) {
        (0, false) => ", nothing held",
        (1, false) => ", one held",
        (2, false) => ", two held",
        (_, false) => ", three held",
        (0, true) => ", nothing held, a length past its buffer",
        (1, true) => ", one held, a length past its buffer",
        (_, true) => ", two held, a length past its buffer",
    }
}

/// Whether the length of a slot is past its buffer.
fn is_past(history: &History, kind: u32) -> bool {
    history.length(kind) > history.slot(kind).buffer.len()
}

fn of_refused(before: &History, last: &Offer, error: i32) -> &'static str {
    let kind = kind_without_refusal(last);
    // Of a frame that is not kept, all slots: none may change.
    let slots: &[u32] = match kind {
        VIDEO_HEADER => &[VIDEO_HEADER, KEYFRAME],
        AUDIO_HEADER => &[AUDIO_HEADER],
        KEYFRAME => &[KEYFRAME],
        _ => &KINDS,
    };
    let held = if slots.iter().any(|&kind| before.held(kind).is_some()) {
        ", some held"
    } else {
        ", nothing held"
    };
    let refused = format!("refused with {error}");
    match error {
        UNKNOWN_FRAME_TYPE => listed(&[&refused, held]),
        _ => listed(&[&refused, ", ", name(kind), held]),
    }
}

/// The kind that a refused frame would have.
fn kind_without_refusal(offer: &Offer) -> u32 {
    let lent = &offer.frame.lent;
    let (Some(known), Some(result)) = (lent.known_type(), lent.result()) else {
        return 0;
    };
    let (kind, _) = kind_and_hint(known, &result, offer.frame.flag != 0);
    kind.into()
}

fn name(kind: u32) -> &'static str {
    match kind {
        VIDEO_HEADER => "video header",
        AUDIO_HEADER => "audio header",
        KEYFRAME => "keyframe",
        _ => "live only",
    }
}

fn of_kept(before: &History, last: &Offer, kind: u32) -> &'static str {
    let slot = before.slot(kind).buffer.len();
    let length = last.result().len();
    let fit = match slot {
        0 => ", slot of 0 bytes",
        _ if length < slot => ", shorter than its slot",
        _ if length == slot => ", as long as its slot",
        _ if length == slot + 1 => ", one byte too long",
        _ => ", too long",
    };
    if !is_peeled(last) {
        return listed(&[name(kind), fit, over(before, last, kind)]);
    }
    let payload = if length < slot && last.frame.lent.payload.len() > slot {
        ", payload too long"
    } else {
        ""
    };
    listed(&[name(kind), ", peeled", fit, payload])
}

/// What the slot held.
fn over(before: &History, last: &Offer, kind: u32) -> &'static str {
    match before.held(kind) {
        None if is_past(before, kind) => ", over a length past its buffer",
        None => ", over nothing",
        Some(held) if held == last.result() => ", over the same",
        Some(_) => ", over another",
    }
}

fn is_peeled(offer: &Offer) -> bool {
    matches!(offer.frame.lent.result(), Some(Cow::Owned(_)))
}

/// Of a video header behind a keyframe.
fn of_emptying(before: &History, last: &Offer) -> &'static str {
    let fits = last.result().len() <= before.slot(VIDEO_HEADER).buffer.len();
    if is_past(before, KEYFRAME) {
        let fit = if fits { ", kept" } else { ", too long" };
        return listed(&["video header, a keyframe past its buffer", fit]);
    }
    let how = match (is_peeled(last), fits) {
        (true, true) => ", peeled, kept",
        (true, false) => ", peeled, too long",
        (false, false) => ", too long",
        (false, true) => match before.held(VIDEO_HEADER) {
            None => ", kept over nothing",
            Some(held) if held == last.result() => ", kept over the same",
            Some(_) => ", kept over another",
        },
    };
    listed(&["video header, a keyframe held", how])
}
