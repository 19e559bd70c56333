use hozgrim_sys::ModexCall;

use crate::number::wire_number;
use crate::{FrameType, Refusal};

wire_number! {
    /// The type of a ModEx layer: `modExType` of Enhanced RTMP v2.
    ///
    /// It is a nibble, so a layer with a number above 15 is not written.
    ModexType {
        /// An offset to the frame's time in nanoseconds, 0 to 999,999: the first three data bytes,
        /// the first one the highest.
        TIMESTAMP_OFFSET_NANO = 0, "TimestampOffsetNano";
    }
}

/// A ModEx layer to be written, for [`write_modex`](crate::write_modex).
#[derive(Clone, Copy, Debug, PartialEq, Eq, Hash)]
pub struct NewLayer<'a> {
    /// The type.
    pub modex_type: ModexType,
    /// The data: 1 to 65,536 bytes, which need not be what the type asks for. Where they are no
    /// offset, and the type asks for one, [`pass`](crate::pass) refuses the frame.
    pub data: &'a [u8],
}

impl<'a> From<&NewLayer<'a>> for NewLayer<'a> {
    fn from(layer: &NewLayer<'a>) -> Self {
        *layer
    }
}

/// ModEx layers to be written, in columns: entry `i` of each says one thing of layer `i`. Layer 0
/// is the outermost.
///
/// There are as many layers as `types`. The other columns may be longer; what they have behind is
/// not looked at. Data may overlap, stand in any order, and leave bytes between them unused.
///
/// ```
/// use hozgrim::{CAPS_EX_MODEX, FrameType, LayerColumns, Refusal, pass};
///
/// let columns = LayerColumns {
///     types: &[0, 1],
///     starts: &[0, 3],
///     lengths: &[3, 1],
///     data: b"\x00\x00\x2A\xAA",
/// };
/// let payload = b"\x91Opus\xBB";
/// let mut written = [0; 32];
/// let length = columns.write_modex(FrameType::Audio, payload, &mut written)?;
/// assert_eq!(length, columns.modex_len(payload));
/// assert_eq!(written[..length], *b"\x97\x02\x00\x00\x2A\x07\x00\xAA\x11Opus\xBB");
///
/// let mut output = [0; 32];
/// let report = pass(FrameType::Audio, &written[..length], CAPS_EX_MODEX, true, &mut output)?;
/// assert_eq!(report.result(&output), payload);
/// # Ok::<(), Refusal>(())
/// ```
#[derive(Clone, Copy, Debug, Default, PartialEq, Eq, Hash)]
pub struct LayerColumns<'a> {
    /// The numbers of the [types](ModexType).
    pub types: &'a [u8],
    /// Where the data of each layer start in `data`.
    pub starts: &'a [usize],
    /// How many data bytes each layer has.
    pub lengths: &'a [usize],
    /// What the data of the layers are parts of.
    pub data: &'a [u8],
}

/// The most data bytes that are written with one size byte.
const SHORT_SIZE: usize = 255;

impl LayerColumns<'_> {
    /// How long the payload is behind these layers; `usize::MAX` if no memory holds it.
    #[must_use]
    pub fn modex_len(&self, payload: &[u8]) -> usize {
        let lengths = self.lengths.iter().take(self.types.len());
        lengths.fold(payload.len(), |sum, &length| {
            // The size and the option byte.
            let beside = if length > SHORT_SIZE { 4 } else { 2 };
            sum.saturating_add(beside).saturating_add(length)
        })
    }

    /// Writes the payload behind these layers to the front of `output`, and says how long that is.
    /// `output` keeps its bytes behind it.
    ///
    /// Data and payload are copied once, and nothing is allocated.
    ///
    /// # Errors
    ///
    /// `output` then keeps all its bytes. In this order:
    ///
    /// - [`Refusal::OutOfBounds`] if there is no layer, more than 32, a column that is shorter than
    ///   `types`, or data that are not within `data`;
    /// - [`Refusal::BadLength`] if a layer has no data, or over 65,536 bytes;
    /// - [`Refusal::BadValue`] if a type is above 15, or if the payload cannot be behind layers:
    ///   its byte 0 must have bit 7 set, a low nibble other than 7 and, in audio, the high nibble
    ///   9; its other bytes are not looked at;
    /// - [`Refusal::OutputTooShort`] if `output` is shorter than [`modex_len`](Self::modex_len).
    pub fn write_modex(
        &self,
        frame_type: FrameType,
        payload: &[u8],
        output: &mut [u8],
    ) -> Result<usize, Refusal> {
        let call = ModexCall {
            frame_type: frame_type.into(),
            count: self.types.len(),
            types: self.types,
            starts: self.starts,
            lengths: self.lengths,
            data: self.data,
            payload,
        };
        let written = hozgrim_sys::write_modex(&call, output);
        Refusal::check(written.error, 0)?;
        Ok(written.length)
    }
}
