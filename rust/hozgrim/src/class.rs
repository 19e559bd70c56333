use crate::excluded::case;
use crate::number::{UnknownNumber, numbered};

/// What a cache for late viewers, such as a [`Store`](crate::Store), does with a frame.
///
/// ```
/// use hozgrim::CacheKind;
///
/// let kind = CacheKind::try_from(1u8)?;
/// assert_eq!(kind, CacheKind::VideoSequenceHeader);
/// assert_eq!(kind.to_string(), "video sequence header");
/// assert_eq!(u8::from(kind), 1);
/// assert!(CacheKind::try_from(4u8).is_err());
/// # Ok::<(), hozgrim::UnknownNumber>(())
/// ```
#[derive(Clone, Copy, Debug, PartialEq, Eq, Hash)]
#[repr(u8)]
pub enum CacheKind {
    /// It is not kept.
    LiveOnly = 0,
    /// It starts a video sequence, and all its records are [valid](crate::Verdict::Valid).
    VideoSequenceHeader = 1,
    /// It starts an audio sequence, and all its records are [valid](crate::Verdict::Valid).
    AudioSequenceHeader = 2,
    /// It is a video keyframe.
    VideoKeyframe = 3,
}

numbered!(CacheKind, UnknownNumber: |number| UnknownNumber::of("cache kind", number), {
    LiveOnly: "live only",
    VideoSequenceHeader: "video sequence header",
    AudioSequenceHeader: "audio sequence header",
    VideoKeyframe: "video keyframe",
});

/// What may be done with a frame when a receiver is slow.
///
/// ```
/// use hozgrim::DeliveryHint;
///
/// let hint = DeliveryHint::try_from(1u8)?;
/// assert_eq!(hint, DeliveryHint::ResyncPoint);
/// assert_eq!(hint.to_string(), "resync point");
/// assert_eq!(hint.to_u8(), 1);
/// assert_eq!(DeliveryHint::from_u8(3), None);
/// # Ok::<(), hozgrim::UnknownNumber>(())
/// ```
#[derive(Clone, Copy, Debug, PartialEq, Eq, Hash)]
#[repr(u8)]
pub enum DeliveryHint {
    /// It must be sent: what follows depends on it, or it is not sent again.
    Critical = 0,
    /// A receiver that missed frames can start again from it.
    ResyncPoint = 1,
    /// It may be dropped.
    Droppable = 2,
}

numbered!(DeliveryHint, UnknownNumber: |number| UnknownNumber::of("delivery hint", number), {
    Critical: "critical",
    ResyncPoint: "resync point",
    Droppable: "droppable",
});

impl DeliveryHint {
    /// The number, under librtmp2's name: what `u8::from` gives.
    #[must_use]
    pub const fn to_u8(self) -> u8 {
        self as u8
    }

    /// The hint of a number, under librtmp2's name: what `try_from` gives, and none of a number
    /// above 2.
    #[must_use]
    pub fn from_u8(code: u8) -> Option<Self> {
        Self::try_from(code).ok()
    }
}

/// What [`classify`](crate::classify) answers.
#[derive(Clone, Copy, Debug, PartialEq, Eq, Hash)]
pub struct Class {
    /// What a cache does with the frame.
    pub kind: CacheKind,
    /// What may be done with the frame when a receiver is slow.
    pub hint: DeliveryHint,
}

impl Class {
    /// Of the numbers that an entry gives.
    pub(crate) fn of(kind: u32, hint: u32) -> Self {
        Self {
            kind: case(kind, "kind_number, init_cache/specs/Kind"),
            hint: case(hint, "hint_number, delivery/specs/Hint"),
        }
    }
}

#[cfg(test)]
mod tests {
    use super::*;

    #[test]
    #[should_panic(expected = "cache kind 4 is excluded")]
    fn no_other_kind_becomes_one() {
        Class::of(4, 0);
    }

    #[test]
    #[should_panic(expected = "delivery hint 3 is excluded")]
    fn no_other_hint_becomes_one() {
        Class::of(0, 3);
    }
}
