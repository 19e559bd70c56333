//! Numbers and their names: those of the wire that may have none, and those of enums.

use core::error::Error;
use core::fmt;

/// A type over a number of the wire, with constants for the numbers that have a name.
macro_rules! wire_number {
    (
        $(#[$about:meta])*
        $type:ident {
            $($(#[$meaning:meta])* $constant:ident = $number:literal, $name:literal;)+
        }
    ) => {
        $(#[$about])*
        #[derive(Clone, Copy, PartialEq, Eq, PartialOrd, Ord, Hash)]
        pub struct $type(u8);

        impl $type {
            $($(#[$meaning])* pub const $constant: Self = Self($number);)+

            /// The one of this number. Every number is taken, also one without a name.
            #[must_use]
            pub const fn new(number: u8) -> Self {
                Self(number)
            }

            /// The number that the wire has.
            #[must_use]
            pub const fn number(self) -> u8 {
                self.0
            }

            /// The name, of a number that has one.
            #[must_use]
            pub const fn name(self) -> Option<&'static str> {
                match self {
                    $(Self::$constant => Some($name),)+
                    _ => None,
                }
            }
        }

        impl From<u8> for $type {
            fn from(number: u8) -> Self {
                Self::new(number)
            }
        }

        impl From<$type> for u8 {
            fn from(named: $type) -> Self {
                named.number()
            }
        }

        /// The name, or else the number.
        impl core::fmt::Display for $type {
            fn fmt(&self, f: &mut core::fmt::Formatter<'_>) -> core::fmt::Result {
                match self.name() {
                    Some(name) => f.pad(name),
                    None => self.number().fmt(f),
                }
            }
        }

        impl core::fmt::Debug for $type {
            fn fmt(&self, f: &mut core::fmt::Formatter<'_>) -> core::fmt::Result {
                f.debug_tuple(stringify!($type))
                    .field(&format_args!("{self}"))
                    .finish()
            }
        }
    };
}

/// What an enum with numbers has: conversions from and to them, and the words of each case. The
/// error of a number that no case has is made by a function of that number.
macro_rules! numbered {
    ($type:ident, $error:ty: $unknown:expr, { $($case:ident: $words:literal),+ $(,)? }) => {
        impl TryFrom<u32> for $type {
            type Error = $error;

            fn try_from(number: u32) -> Result<Self, $error> {
                match number {
                    $(_ if number == Self::$case as u32 => Ok(Self::$case),)+
                    _ => Err($unknown(number)),
                }
            }
        }

        impl TryFrom<u8> for $type {
            type Error = $error;

            fn try_from(number: u8) -> Result<Self, $error> {
                u32::from(number).try_into()
            }
        }

        impl From<$type> for u8 {
            fn from(case: $type) -> Self {
                case as u8
            }
        }

        impl From<$type> for u32 {
            fn from(case: $type) -> Self {
                case as u32
            }
        }

        impl core::fmt::Display for $type {
            fn fmt(&self, f: &mut core::fmt::Formatter<'_>) -> core::fmt::Result {
                f.pad(match self {
                    $(Self::$case => $words,)+
                })
            }
        }
    };
}

pub(crate) use {numbered, wire_number};

/// A number was to become a [`CacheKind`], a [`DeliveryHint`], a [`Verdict`] or a [`Form`], and none
/// has it.
///
/// [`CacheKind`]: crate::CacheKind
/// [`DeliveryHint`]: crate::DeliveryHint
/// [`Form`]: crate::Form
/// [`Verdict`]: crate::Verdict
#[derive(Clone, Copy, Debug, PartialEq, Eq, Hash)]
pub struct UnknownNumber {
    pub(crate) what: &'static str,
    pub(crate) number: u32,
}

impl UnknownNumber {
    /// The number.
    #[must_use]
    pub const fn number(self) -> u32 {
        self.number
    }

    /// The error of numbers that are not `what`.
    pub(crate) const fn of(what: &'static str, number: u32) -> Self {
        Self { what, number }
    }
}

impl fmt::Display for UnknownNumber {
    fn fmt(&self, f: &mut fmt::Formatter<'_>) -> fmt::Result {
        write!(f, "no {} has the number {}", self.what, self.number)
    }
}

impl Error for UnknownNumber {}
