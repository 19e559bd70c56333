//! Levels of audio frames, by the port and by the samples that another decoder makes of them.

use hozgrim_sys::{HozgrimLevel, level};

/// What the port says, on the scale of a decoder whose samples have 16 bits: it makes 8 times the
/// values of G.711 from A-law, 4 times from mu-law.
pub fn found(frames: &[&[u8]]) -> Vec<HozgrimLevel> {
    let scaled = |frame: &&[u8]| {
        let scale = match frame {
            [0x70..=0x7F, ..] => 8,
            [0x80..=0x8F, ..] => 4,
            _ => 1,
        };
        let answer = level(0, frame);
        HozgrimLevel {
            level: answer.level.saturating_mul(scale),
            ..answer
        }
    };
    frames.iter().map(scaled).collect()
}

/// The largest magnitude of each frame's samples, which are decoded one behind the other, the low
/// byte first.
pub fn asked(frames: &[&[u8]], decoded: &[u8]) -> Result<Vec<HozgrimLevel>, String> {
    let samples = |frame: &&[u8]| frame.len().saturating_sub(1);
    let count: usize = frames.iter().map(samples).sum();
    if decoded.len() != 2 * count {
        let bytes = decoded.len();
        return Err(format!("{count} samples were decoded to {bytes} bytes"));
    }
    let values = decoded.chunks(2).map(|two| [two[0], two[1]]);
    let mut magnitudes = values.map(|value| i16::from_le_bytes(value).unsigned_abs());
    let largest = |frame: &&[u8]| {
        let own = magnitudes.by_ref().take(samples(frame));
        HozgrimLevel {
            error: 0,
            level: own.max().unwrap_or(0).into(),
        }
    };
    Ok(frames.iter().map(largest).collect())
}

#[cfg(test)]
mod tests {
    use super::*;

    #[test]
    fn samples_frame_by_frame() {
        let frames: [&[u8]; 4] = [&[0x72, 1, 2], &[0x72], &[], &[0x82, 3]];
        let decoded = [[1, 0], [0, 0x80], [0xFE, 0xFF]].concat();
        let levels = [0x8000, 0, 0, 2].map(|level| HozgrimLevel { error: 0, level });
        assert_eq!(asked(&frames, &decoded).as_deref(), Ok(&levels[..]));
    }

    #[test]
    fn too_few_samples_or_too_many() {
        for bytes in [0, 3, 5, 6] {
            let decoded = vec![0; bytes];
            let line = format!("2 samples were decoded to {bytes} bytes");
            assert_eq!(asked(&[&[0x72, 1, 2]], &decoded), Err(line));
        }
    }
}
