//! G.711 as request N4 has it (docs/REQUIREMENTS.md, section 23), read apart from the definitions:
//! by the standard's decision values, from an interval and a sign to the code that stands for them.

use std::sync::LazyLock;

use crate::writing::{AUDIO, Reason, unknown};

/// The two laws of ITU-T G.711.
#[derive(Clone, Copy, Debug, PartialEq)]
pub enum Law {
    A,
    Mu,
}

impl Law {
    /// The widths of the 128 intervals, from 0 on.
    fn widths(self) -> Vec<i32> {
        let (mut widths, wider): (_, &[i32]) = match self {
            Self::A => (vec![2; 32], &[4, 8, 16, 32, 64, 128]),
            Self::Mu => ([&[1][..], &[2; 15]].concat(), &[4, 8, 16, 32, 64, 128, 256]),
        };
        widths.extend(wider.iter().flat_map(|width| [*width; 16]));
        widths
    }

    /// The ends of the intervals.
    fn decision_values(self) -> Vec<i32> {
        let mut values = vec![0];
        for width in self.widths() {
            values.push(values[values.len() - 1] + width);
        }
        values
    }

    /// The middle of each interval, without its half: that of mu-law's first, from 0 to 1, is 0.
    fn outputs(self) -> Vec<i32> {
        let values = self.decision_values();
        let ends = values.iter().zip(&values[1..]);
        ends.map(|(low, high)| (low + high) / 2).collect()
    }

    /// What is transmitted for an interval, which has 7 bits, and a sign.
    fn code(self, interval: u8, negative: bool) -> u8 {
        let sign = |set| if set { 0x80 } else { 0x00 };
        match self {
            Self::A => (sign(!negative) | interval) ^ 0x55,
            Self::Mu => !(sign(negative) | interval),
        }
    }

    /// The value of every code.
    fn expansions(self) -> [i32; 256] {
        let mut values = [None; 256];
        for (interval, output) in (0..).zip(self.outputs()) {
            values[usize::from(self.code(interval, false))] = Some(output);
            values[usize::from(self.code(interval, true))] = Some(-output);
        }
        values.map(|value| value.expect("every code stands for an interval"))
    }
}

/// Those of each law, by its number.
static EXPANSIONS: LazyLock<[[i32; 256]; 2]> =
    LazyLock::new(|| [Law::A, Law::Mu].map(Law::expansions));

/// The signed linear value of a code, on the law's own scale.
pub fn expansion(law: Law, code: u8) -> i32 {
    EXPANSIONS[law as usize][usize::from(code)]
}

/// The law and the samples of a frame, if it is audio of sound format 7 or 8.
pub fn samples(frame_type: u32, payload: &[u8]) -> Option<(Law, &[u8])> {
    let (first, codes) = payload.split_first()?;
    let law = match (frame_type, first >> 4) {
        (AUDIO, 7) => Law::A,
        (AUDIO, 8) => Law::Mu,
        _ => return None,
    };
    Some((law, codes))
}

/// The largest magnitude among the samples of a frame; 0 if it has none.
pub fn level(frame_type: u32, payload: &[u8]) -> Result<u32, Reason> {
    if let Some(reason) = unknown(frame_type) {
        return Err(reason);
    }
    let samples = samples(frame_type, payload);
    let level = samples.and_then(|(law, codes)| {
        let values = codes.iter().map(|code| expansion(law, *code));
        values.map(i32::unsigned_abs).max()
    });
    Ok(level.unwrap_or(0))
}

#[cfg(test)]
mod tests {
    use std::collections::HashSet;

    use super::*;

    const LAWS: [Law; 2] = [Law::A, Law::Mu];

    /// The values of the codes from one on.
    fn from<const N: usize>(law: Law, first: u8) -> [i32; N] {
        let mut codes = first..;
        [(); N].map(|()| expansion(law, codes.next().expect("there are more")))
    }

    #[test]
    fn segments_end_at_these_decision_values() {
        let a_law = Law::A.decision_values();
        assert_eq!(a_law[..4], [0, 2, 4, 6]);
        let ends = [32, 48, 64, 80, 96, 112, 128].map(|at| a_law[at]);
        assert_eq!(ends, [64, 128, 256, 512, 1_024, 2_048, 4_096]);
        let mu_law = Law::Mu.decision_values();
        assert_eq!(mu_law[..4], [0, 1, 3, 5]);
        let ends = [16, 32, 48, 64, 80, 96, 112, 128].map(|at| mu_law[at]);
        assert_eq!(ends, [31, 95, 223, 479, 991, 2_015, 4_063, 8_159]);
        assert_eq!([a_law.len(), mu_law.len()], [129; 2]);
    }

    #[test]
    fn the_loudest_and_the_quietest() {
        let a_law = [0x2A, 0xAA, 0x55, 0xD5].map(|code| expansion(Law::A, code));
        assert_eq!(a_law, [-4_032, 4_032, -1, 1]);
        let mu_law = [0x00, 0x80, 0x7F, 0xFF].map(|code| expansion(Law::Mu, code));
        assert_eq!(mu_law, [-8_031, 8_031, 0, 0]);
    }

    #[test]
    fn some_codes_in_their_order() {
        assert_eq!(from(Law::A, 0x00), [-688, -656, -752, -720, -560, -528]);
        assert_eq!(from(Law::A, 0x50), [-11, -9, -15, -13, -3, -1, -7, -5]);
        assert_eq!(from(Law::A, 0xEA), [252, 244, 204, 196, 220, 212, 86, 82]);
        assert_eq!(from(Law::Mu, 0x0E), [-4_447, -4_191, -3_999, -3_871]);
        assert_eq!(from(Law::Mu, 0x7A), [-10, -8, -6, -4, -2, 0, 8_031, 7_775]);
        assert_eq!(from(Law::Mu, 0xDE), [107, 99, 93, 89, 85]);
    }

    #[test]
    fn every_magnitude_has_both_signs() {
        for law in LAWS {
            let mut magnitudes = HashSet::new();
            for code in 0x80..=0xFF {
                let value = expansion(law, code);
                assert!(value >= 0 && magnitudes.insert(value), "{law:?} {code:02X}");
                assert_eq!(expansion(law, code ^ 0x80), -value, "{law:?} {code:02X}");
            }
        }
    }

    #[test]
    fn the_level_of_one_sample_is_its_magnitude() {
        for (law, format) in LAWS.into_iter().zip([0x70, 0x80]) {
            for code in 0..=u8::MAX {
                let magnitude = expansion(law, code).unsigned_abs();
                assert_eq!(level(0, &[format, code]), Ok(magnitude));
            }
        }
    }

    #[test]
    fn the_examples_of_the_request() {
        assert_eq!(level(0, b"\x87\x00\x00\x00"), Ok(8_031));
        assert_eq!(level(0, b"\x80\x2A"), Ok(1_343));
        assert_eq!(level(0, b"\x7F\x00\x02"), Ok(752));
        assert_eq!(level(0, b"\x7F\x02\x00"), Ok(752));
        assert_eq!(level(0, b"\x70\xAA\xD5\x55"), Ok(4_032));
    }

    #[test]
    fn no_sample_and_other_frames() {
        for payload in [&b""[..], b"\x70", b"\x80", b"\x97\x00", b"\x60\x2A"] {
            assert_eq!(level(0, payload), Ok(0), "{payload:02X?}");
        }
        for frame_type in 1..=3 {
            assert_eq!(level(frame_type, b"\x80\x00"), Ok(0));
        }
        for frame_type in [4, 256, u32::MAX] {
            let refused = level(frame_type, b"\x70\x2A").map_err(|(error, _)| error);
            assert_eq!(refused, Err(-21));
        }
    }
}
