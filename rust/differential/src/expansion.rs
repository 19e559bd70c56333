//! The values of G.711 codes beside a reading of the request, signs included, which no level shows:
//! the Rust expands none.

use common::g711::{Law, expansion};
use common::rng::Rng;

use crate::leaf;
use crate::run::{Comparison, Difference, same};

pub struct Expansion;

impl Comparison for Expansion {
    const NAME: &'static str = "expansion";

    const CLASSES: &'static [&'static str] = &["positive", "negative", "0 in mu-law"];

    const SIDES: [&'static str; 2] = ["requirement", "port"];

    type Input = u8;

    /// Every code.
    fn listed() -> impl Iterator<Item = u8> {
        0..=u8::MAX
    }

    fn random(rng: &mut Rng) -> u8 {
        rng.byte()
    }

    /// In both laws.
    fn compare(code: &u8) -> Result<&'static str, Difference> {
        let asked = [Law::A, Law::Mu].map(|law| expansion(law, *code));
        let found = [leaf::a_law(*code), leaf::mu_law(*code)].map(i32::from);
        Ok(match same(asked, found)? {
            [_, 0] => "0 in mu-law",
            [_, value] if value > 0 => "positive",
            _ => "negative",
        })
    }
}
