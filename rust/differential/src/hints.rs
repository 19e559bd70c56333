//! `DeliveryHint::from_u8`, and `to_u8` of what it gives.

use common::rng::Rng;
use oracle::media::delivery::DeliveryHint;

use crate::leaf::{self, LeafNumber};
use crate::run::{Comparison, Difference, same};

/// The number of what the Rust says by `None`.
const NO_HINT: i32 = -1;

pub struct Hints;

impl Comparison for Hints {
    const NAME: &'static str = "hints";

    const CLASSES: &'static [&'static str] = &["Critical", "ResyncPoint", "Droppable", "no hint"];

    type Input = u8;

    /// Every code.
    fn listed() -> impl Iterator<Item = u8> {
        0..=u8::MAX
    }

    fn random(rng: &mut Rng) -> u8 {
        rng.byte()
    }

    fn compare(code: &u8) -> Result<&'static str, Difference> {
        let answer = same(of_rust(*code), leaf::delivery_hint_from_u8(*code))?;
        let class = usize::from(*code).min(3);
        assert_eq!(answer.error == 0, class < 3, "{code}");
        Ok(Self::CLASSES[class])
    }
}

fn of_rust(code: u8) -> LeafNumber {
    match DeliveryHint::from_u8(code) {
        Some(hint) => LeafNumber {
            error: 0,
            value: hint.to_u8(),
        },
        None => LeafNumber {
            error: NO_HINT,
            value: 0,
        },
    }
}
