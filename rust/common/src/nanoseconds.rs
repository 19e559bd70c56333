//! The time of a frame in nanoseconds, read from the words of request N6 (docs/REQUIREMENTS.md,
//! section 23): out of what the Rust says of the layers and of the header, which it does not put
//! together.

use crate::requirement::BAD_OFFSET;

/// A millisecond. Every offset that is taken is shorter.
pub const MILLISECOND: i64 = 1_000_000;

/// The offset of a chain that is peeled off, 0 if none of its layers has one. Of each layer, in the
/// order of the bytes, comes the offset; none if it has another type than 0; or an error if it has
/// too few data bytes for one. That refuses the frame, and so does an offset that is too large.
pub fn offset_of_chain<E>(
    layers: impl IntoIterator<Item = Result<Option<u64>, E>>,
) -> Result<i64, i32> {
    let offsets = layers.into_iter().map(|layer| match layer {
        Ok(Some(offset @ 0..=999_999)) => Ok(Some(offset as i64)),
        Ok(None) => Ok(None),
        Ok(Some(_)) | Err(_) => Err(BAD_OFFSET),
    });
    let offsets: Vec<Option<i64>> = offsets.collect::<Result<_, _>>()?;
    Ok(offsets.into_iter().flatten().last().unwrap_or(0))
}

/// Of the milliseconds of a readable video header, or of 0, and an offset.
pub fn time(milliseconds: i32, offset: i64) -> i64 {
    i64::from(milliseconds) * MILLISECOND + offset
}

/// The milliseconds and the offset of a time.
pub fn split(time: i64) -> (i64, u32) {
    let offset = time.rem_euclid(MILLISECOND) as u32;
    (time.div_euclid(MILLISECOND), offset)
}

#[cfg(test)]
mod tests {
    use super::*;

    /// Without a layer that is too short.
    fn of(offsets: &[Option<u64>]) -> Result<i64, i32> {
        offset_of_chain(offsets.iter().map(|offset| Ok::<_, ()>(*offset)))
    }

    #[test]
    fn the_last_offset_counts() {
        assert_eq!(of(&[None]), Ok(0));
        assert_eq!(of(&[Some(1), Some(0)]), Ok(0));
        assert_eq!(of(&[Some(0), Some(1)]), Ok(1));
        assert_eq!(of(&[Some(3), Some(5), None]), Ok(5));
        assert_eq!(of(&[None, Some(999_999), None]), Ok(999_999));
    }

    #[test]
    fn every_layer_is_judged() {
        for at in 0..3 {
            let mut large = [Some(1); 3];
            large[at] = Some(1_000_000);
            assert_eq!(of(&large), Err(-3));
            let mut short = [Ok(Some(1)); 3];
            short[at] = Err(());
            assert_eq!(offset_of_chain(short), Err(-3));
        }
        assert_eq!(of(&[Some(0xFF_FFFF)]), Err(-3));
    }

    #[test]
    fn times_and_their_parts() {
        for (time, parts) in [
            (i64::MIN, (-9_223_372_036_855, 224_192)),
            (i64::MAX, (9_223_372_036_854, 775_807)),
        ] {
            assert_eq!(split(time), parts);
        }
        for (milliseconds, offset, sum) in [
            (0, 1, 1),
            (-1, 1, -999_999),
            (-1, 0, -1_000_000),
            (-1, 999_999, -1),
            (-8_388_608, 0, -8_388_608_000_000),
            (8_388_607, 999_999, 8_388_607_999_999),
        ] {
            assert_eq!(time(milliseconds, offset), sum);
            assert_eq!(split(sum), (milliseconds.into(), offset as u32));
        }
    }
}
