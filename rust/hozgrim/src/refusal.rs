use core::error::Error;
use core::fmt;

use crate::excluded::excluded;

/// Why a call was refused.
///
/// A frame that is longer than its slot of a [`Store`](crate::Store) is not refused, and has an
/// error of its own, [`SlotTooShort`](crate::SlotTooShort).
#[derive(Clone, Copy, Debug, PartialEq, Eq, Hash)]
#[non_exhaustive]
pub enum Refusal {
    /// Layers are to be peeled off, and one of the type
    /// [`TIMESTAMP_OFFSET_NANO`](crate::ModexType::TIMESTAMP_OFFSET_NANO) has an offset over
    /// 999,999 nanoseconds, or under three data bytes.
    Protocol,
    /// No frame type has this number, or it is [`FrameType::Metadata`](crate::FrameType::Metadata),
    /// for which FLV has no tag.
    UnknownFrameType,
    /// The output is shorter than the result, or a column has fewer entries than there are tracks.
    /// A payload over 16,777,215 bytes, which no RTMP message has, is not walked into columns
    /// either.
    OutputTooShort,
    /// The container has fewer tracks.
    NoSuchTrack {
        /// How many it has.
        count: usize,
    },
    /// The payload is anything but an accepted container. One that names a container inside it is
    /// not accepted.
    NotAContainer,
    /// The FLV file stops short: it ends inside its header, a tag or a back-pointer, or before the
    /// place that was asked for.
    Truncated,
    /// There are too few or too many tracks or layers to be written, a column is too short, or a
    /// part is not within what was lent.
    OutOfBounds,
    /// A body to be written is longer than its length can say, or a layer has no data or too many.
    BadLength,
    /// A value cannot be written: a packet type or a layer's type above 15, a container inside a
    /// container, a video frame type of 5 or above 7, FourCCs that differ where there is one, or a
    /// payload that ModEx layers cannot be around.
    BadValue,
    /// The file does not begin as FLV: it has another signature, version or data offset.
    NotFlv,
    /// A back-pointer of the FLV file does not match: it is not the length of the tag before it,
    /// or the first one is not 0.
    WrongBackPointer,
    /// An [`Uplink`](crate::Uplink) has no viewer of this number, too few or too many viewers, or
    /// more bytes a tick than it takes.
    OutOfRange,
    /// With this critical frame, a viewer of an [`Uplink`](crate::Uplink) would owe more than
    /// 2,000,000,000 bytes.
    DebtLimit,
}

impl Refusal {
    /// The number that `include/hozgrim.h` gives it.
    #[must_use]
    pub const fn number(self) -> i32 {
        match self {
            Self::Protocol => -3,
            Self::UnknownFrameType => -21,
            Self::OutputTooShort => -22,
            Self::NoSuchTrack { .. } => -23,
            Self::NotAContainer => -24,
            Self::Truncated => -25,
            Self::OutOfBounds => -26,
            Self::BadLength => -27,
            Self::BadValue => -28,
            Self::NotFlv => -29,
            Self::WrongBackPointer => -30,
            Self::OutOfRange => -32,
            Self::DebtLimit => -33,
        }
    }

    /// What an entry's error says, with the count beside it.
    #[inline]
    pub(crate) fn check(error: i32, count: usize) -> Result<(), Self> {
        match error {
            0 => Ok(()),
            _ => Err(Self::of(error, count)),
        }
    }

    /// Of an error that is not 0.
    fn of(error: i32, count: usize) -> Self {
        match error {
            -3 => Self::Protocol,
            -21 => Self::UnknownFrameType,
            -22 => Self::OutputTooShort,
            -23 => Self::NoSuchTrack { count },
            -24 => Self::NotAContainer,
            -25 => Self::Truncated,
            -26 => Self::OutOfBounds,
            -27 => Self::BadLength,
            -28 => Self::BadValue,
            -29 => Self::NotFlv,
            -30 => Self::WrongBackPointer,
            -32 => Self::OutOfRange,
            -33 => Self::DebtLimit,
            _ => excluded(
                "error",
                error,
                "pass_error, frame/specs/Pass; track_info, multitrack_media/specs/Answer; \
                 columns_error and column_track, track_columns/specs/Columns; container_error and \
                 modex_error, writers/specs; start_error and tag_error, flv/specs/Files; \
                 frame_write_error, flv/specs/Calls; tick_error and offer_answer, uplink/specs/Uplink",
            ),
        }
    }
}

impl fmt::Display for Refusal {
    fn fmt(&self, f: &mut fmt::Formatter<'_>) -> fmt::Result {
        match self {
            Self::Protocol => {
                f.write_str("a ModEx layer has an offset over 999,999 ns, or too few bytes for one")
            }
            Self::UnknownFrameType => {
                f.write_str("no frame type has this number, or FLV has no tag for it")
            }
            Self::OutputTooShort => f.write_str(
                "the output or a column is shorter than the result, or the payload too long for \
                 columns",
            ),
            Self::NoSuchTrack { count } => {
                write!(f, "no track has this number: the container has {count}")
            }
            Self::NotAContainer => f.write_str("the payload is not an accepted container"),
            Self::Truncated => f.write_str("the FLV file stops short"),
            Self::OutOfBounds => {
                f.write_str("a number of tracks or layers, a column or a part is out of bounds")
            }
            Self::BadLength => f.write_str("a body or a layer has a length that cannot be written"),
            Self::BadValue => f.write_str("a value or a payload cannot be written"),
            Self::NotFlv => f.write_str("the file is not FLV of version 1 with data offset 9"),
            Self::WrongBackPointer => f.write_str("a back-pointer of the FLV file does not match"),
            Self::OutOfRange => {
                f.write_str("a viewer, a number of viewers or the bytes of a tick are out of range")
            }
            Self::DebtLimit => f.write_str("the viewer would owe more than 2,000,000,000 bytes"),
        }
    }
}

impl Error for Refusal {}

#[cfg(test)]
mod tests {
    use super::*;

    #[test]
    fn every_number_of_a_refusal_gives_the_refusal() {
        assert_eq!(Refusal::check(0, 7), Ok(()));
        for number in (-33..=-32).chain(-30..=-21).chain([-3]) {
            let refusal = Refusal::check(number, 7).unwrap_err();
            assert_eq!(refusal.number(), number);
        }
        let none = Refusal::check(-23, 7);
        assert_eq!(none, Err(Refusal::NoSuchTrack { count: 7 }));
    }

    #[test]
    #[should_panic(expected = "error -20 is excluded")]
    fn no_other_error_becomes_one() {
        let _ = Refusal::check(-20, 0);
    }

    #[test]
    #[should_panic(expected = "error -34 is excluded")]
    fn no_further_error_becomes_one() {
        let _ = Refusal::check(-34, 0);
    }

    #[test]
    #[should_panic(expected = "error -4 is excluded")]
    fn no_other_error_of_the_original_becomes_one() {
        let _ = Refusal::check(-4, 0);
    }

    #[test]
    #[should_panic(expected = "error -31 is excluded")]
    fn a_slot_that_is_too_short_becomes_none() {
        let _ = Refusal::check(-31, 0);
    }
}
