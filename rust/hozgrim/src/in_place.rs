use core::ops::Range;

use hozgrim_sys::HozgrimPlaced;

use crate::excluded::excluded;
use crate::{FrameType, Refusal, Report};

/// Peels the ModEx layers off a payload without a copy, reports on the result, and says where in
/// the payload it stands: `payload[range]` is the result, and ends where the payload ends.
///
/// The report is the one of [`pass`] with an output as long as the payload.
///
/// - If layers are peeled off, the result starts at the last option byte, the one before the body.
///   That byte becomes byte 0 of the result, which is byte 0 of the payload with its low nibble
///   replaced. Every other byte is kept, those of the layers too.
/// - Else the payload is its own result, as with [`pass`]: the range is all of it, and no byte
///   changes.
///
/// # Lend a payload once
///
/// The call is for a payload as it was received. Once layers are peeled off, the payload as a whole
/// is no frame any more: lend only the result to [`tracks`] and to any other call. A second pass
/// over the whole payload would read the byte that changed as the option byte of a layer of another
/// type, and so lose the offset of that layer. A second pass over the result changes no byte; it
/// reports no offset, since the result has no layers.
///
/// # Errors
///
/// [`Refusal::Protocol`], where [`pass`] has it; the payload then keeps all its bytes. There is
/// always room, so [`Refusal::OutputTooShort`] cannot arise.
///
/// ```
/// use hozgrim::{CAPS_EX_MODEX, FrameType, Refusal, pass_in_place};
///
/// // One layer, with an offset of 42 nanoseconds.
/// let mut payload = *b"\x97\x02\x00\x00\x2A\x01Opus\xBB";
/// let (report, range) = pass_in_place(FrameType::Audio, &mut payload, CAPS_EX_MODEX, true)?;
/// assert_eq!(range, 5..11);
/// assert_eq!(payload[range], *b"\x91Opus\xBB");
/// assert_eq!(report.composition_time.offset(), 42);
///
/// // An offset of one data byte.
/// let mut payload = *b"\x97\x00\xAA\x01";
/// let refused = pass_in_place(FrameType::Audio, &mut payload, CAPS_EX_MODEX, true);
/// assert_eq!(refused, Err(Refusal::Protocol));
/// assert_eq!(payload, *b"\x97\x00\xAA\x01");
///
/// // The layer stays.
/// let (_, range) = pass_in_place(FrameType::Audio, &mut payload, 0, true)?;
/// assert_eq!(range, 0..4);
/// assert_eq!(payload, *b"\x97\x00\xAA\x01");
/// # Ok::<(), Refusal>(())
/// ```
///
/// [`pass`]: crate::pass
/// [`tracks`]: crate::tracks
pub fn pass_in_place(
    frame_type: FrameType,
    payload: &mut [u8],
    caps_ex_mask: u32,
    route_has_video: bool,
) -> Result<(Report, Range<usize>), Refusal> {
    let placed = hozgrim_sys::pass_in_place(
        frame_type.into(),
        payload,
        caps_ex_mask,
        route_has_video.into(),
    );
    Refusal::check(placed.report.error, 0)?;
    let report = Report::of(frame_type, &placed.report);
    Ok((report, place(&placed, payload.len())))
}

/// Where the result stands in a payload of this length: at its end.
fn place(placed: &HozgrimPlaced, payload_len: usize) -> Range<usize> {
    if placed.start.checked_add(placed.report.result_length) != Some(payload_len) {
        excluded(
            "start",
            placed.start,
            "ResultStands, frame/specs/InPlaceClaims",
        );
    }
    placed.start..payload_len
}

#[cfg(test)]
mod tests {
    use super::*;

    use hozgrim_sys::HozgrimReport;

    fn placed(start: usize, result_length: usize) -> HozgrimPlaced {
        let report = HozgrimReport {
            result_length,
            ..HozgrimReport::default()
        };
        HozgrimPlaced { report, start }
    }

    #[test]
    fn a_result_at_the_end_has_a_place() {
        assert_eq!(place(&placed(5, 6), 11), 5..11);
        assert_eq!(place(&placed(0, 0), 0), 0..0);
    }

    #[test]
    #[should_panic(expected = "start 4 is excluded")]
    fn no_result_ends_before_the_payload() {
        place(&placed(4, 6), 11);
    }

    #[test]
    #[should_panic(expected = "start 18446744073709551615 is excluded")]
    fn no_result_ends_behind_the_payload() {
        place(&placed(usize::MAX, 12), 11);
    }
}
