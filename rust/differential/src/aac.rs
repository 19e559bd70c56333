//! `validate_aac_config`.

use common::rng::Rng;
use common::strings;
use oracle::media::codec_config::validate_aac_config;

use crate::leaf;
use crate::run::{Class, Comparison, Difference, fitting, same};

pub struct Aac;

impl Comparison for Aac {
    const NAME: &'static str = "aac";

    const CLASSES: &'static [&'static str] = &[
        "plain",
        "escape object type",
        "explicit frequency",
        "escape object type, explicit frequency",
        "refused: short",
        "refused: object type 0",
        "refused: index 13",
        "refused: index 14",
    ];

    type Input = Vec<u8>;

    /// Every record of 0 to 3 bytes.
    fn listed() -> impl Iterator<Item = Vec<u8>> {
        strings::up_to_two_bytes().chain(strings::three_bytes())
    }

    /// Up to eight bytes, most of them with an object type and an index that mean something.
    fn random(rng: &mut Rng) -> Vec<u8> {
        let mut bits = rng.number();
        if !rng.one_in(4) {
            let object = *rng.pick(&[0, 1, 2, 30, 31, 31, 31]);
            let index = *rng.pick(&[0, 4, 12, 13, 14, 15, 15, 15]);
            let below = if object == 31 { 49 } else { 55 };
            bits = bits & !(31 << 59) | object << 59;
            bits = bits & !(15 << below) | index << below;
        }
        bits.to_be_bytes()[..rng.below(9)].to_vec()
    }

    fn compare(record: &Vec<u8>) -> Result<&'static str, Difference> {
        let valid = same(
            validate_aac_config(record),
            leaf::validate_aac_config(record),
        )?;
        Ok(fitting(class(record), valid))
    }
}

/// No rule looks behind bit 43.
pub fn class(record: &[u8]) -> Class {
    let mut front = [0; 8];
    let known = record.len().min(8);
    front[..known].copy_from_slice(&record[..known]);
    let (bits, there) = (u64::from_be_bytes(front), 8 * known);
    if there == 0 {
        return Err("refused: short");
    }
    let object = bits >> 59;
    if object == 0 {
        return Err("refused: object type 0");
    }
    let before_index = if object == 31 { 11 } else { 5 };
    if there < before_index + 4 {
        return Err("refused: short");
    }
    let index = bits << before_index >> 60;
    let needed = match index {
        13 => return Err("refused: index 13"),
        14 => return Err("refused: index 14"),
        15 => before_index + 4 + 24 + 4,
        _ => before_index + 4 + 4,
    };
    if there < needed {
        return Err("refused: short");
    }
    Ok(match (object, index) {
        (31, 15) => "escape object type, explicit frequency",
        (31, _) => "escape object type",
        (_, 15) => "explicit frequency",
        _ => "plain",
    })
}
