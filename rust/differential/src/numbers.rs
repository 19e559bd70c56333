//! `multitrack_parse` on every sort of number: the track type.

use common::rng::Rng;
use oracle::types::MultitrackType;

use crate::descriptor::{descriptor, same_descriptor};
use crate::run::{Comparison, Difference};

const SIGN: u64 = 1 << 63;
const INFINITY: u64 = 0x7FF << 52;
const QUIET: u64 = 1 << 51;

/// Patterns of doubles that are easily taken for one another, and their neighbours.
pub const NUMBERS: [u64; 28] = [
    0.0f64.to_bits(),
    1,
    2,
    SIGN,
    SIGN | 1,
    1.0f64.to_bits(),
    1.0f64.to_bits() - 1,
    1.0f64.to_bits() + 1,
    (-1.0f64).to_bits(),
    2.0f64.to_bits(),
    (-2.0f64).to_bits(),
    0.5f64.to_bits(),
    // The largest subnormal, and the smallest number that is none.
    (1 << 52) - 1,
    SIGN | ((1 << 52) - 1),
    1 << 52,
    f64::MAX.to_bits(),
    f64::MIN.to_bits(),
    INFINITY,
    SIGN | INFINITY,
    // Signalling.
    INFINITY | 1,
    SIGN | INFINITY | 1,
    INFINITY | (QUIET - 1),
    // Quiet.
    INFINITY | QUIET,
    SIGN | INFINITY | QUIET,
    u64::MAX,
    // Bytes that would be small integers.
    1 << 56,
    1 << 32,
    0xFF,
];

pub struct Numbers;

impl Comparison for Numbers {
    const NAME: &'static str = "numbers";

    const CLASSES: &'static [&'static str] = &[
        "Audio by 0",
        "Audio by -0",
        "Video",
        "Metadata by a NaN",
        "Metadata otherwise",
    ];

    type Input = Vec<u8>;

    /// The numbers, also with each bit changed, and every pair of first bytes: each sign and
    /// exponent. Each stands before a name, and alone, where a refusal keeps the type.
    fn listed() -> impl Iterator<Item = Vec<u8>> {
        let changed = NUMBERS
            .into_iter()
            .flat_map(|number| (0..u64::BITS).map(move |bit| number ^ 1 << bit));
        let upper = (0..=u16::MAX).flat_map(|upper| {
            let number = u64::from(upper) << 48;
            [number, number | 1]
        });
        let numbers = NUMBERS.into_iter().chain(changed).chain(upper);
        numbers.flat_map(|number| {
            let whole = descriptor(number, b"name");
            [whole[..9].to_vec(), whole]
        })
    }

    /// Listed ones as they are, next to one, or with a bit changed; NaNs; any others.
    fn random(rng: &mut Rng) -> Vec<u8> {
        let listed = *rng.pick(&NUMBERS);
        let number = match rng.below(6) {
            0 => listed,
            1 => listed.wrapping_add(rng.below(8) as u64),
            2 => listed.wrapping_sub(rng.below(8) as u64),
            3 => listed ^ 1 << rng.below(64),
            4 => INFINITY | rng.number(),
            _ => rng.number(),
        };
        let length = rng.below(8);
        let mut payload = descriptor(number, &rng.bytes(length));
        if rng.one_in(4) {
            payload.truncate(9 + rng.below(12));
        }
        payload
    }

    fn compare(payload: &Vec<u8>) -> Result<&'static str, Difference> {
        let answer = same_descriptor(payload)?;
        let (class, track_type) = class(payload);
        assert_eq!(answer.track_type, track_type as u8, "{class}");
        Ok(class)
    }
}

/// The class of a descriptor, and its track type. One without a number is not counted: only the
/// search for a smaller input meets one.
pub fn class(payload: &[u8]) -> (&'static str, MultitrackType) {
    let Some([0x00, number @ ..]) = payload.first_chunk::<9>() else {
        return ("no number", MultitrackType::Audio);
    };
    match u64::from_be_bytes(*number) {
        0 => ("Audio by 0", MultitrackType::Audio),
        SIGN => ("Audio by -0", MultitrackType::Audio),
        0x3FF0_0000_0000_0000 => ("Video", MultitrackType::Video),
        bits if bits & !SIGN > INFINITY => ("Metadata by a NaN", MultitrackType::Metadata),
        _ => ("Metadata otherwise", MultitrackType::Metadata),
    }
}
