//! Numbers that no contract gives.

use core::fmt::Display;

use crate::UnknownNumber;

/// For a number that the named definition, and so the contract of an entry, does not give. It
/// cannot come from the proved archive. This is a panic and not some answer, so that an archive
/// that is not the proved one is found out.
#[cold]
pub fn excluded(what: &str, number: impl Display, definition: &str) -> ! {
    unreachable!(
        "{what} {number} is excluded by the contract ({definition}): \
         the linked archive is not the proved one"
    )
}

/// The case of a number that an entry gives by the named definition.
pub fn case<T: TryFrom<u32, Error = UnknownNumber>>(number: u32, definition: &str) -> T {
    T::try_from(number).unwrap_or_else(|unknown| excluded(unknown.what, unknown.number, definition))
}
