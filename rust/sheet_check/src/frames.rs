//! Frames to try the sheet on.

use common::flv::TYPE_BYTES;
use common::layers::mend_offsets;
use common::recordings::Recording;
use common::rng::Rng;
use common::shapes;

use crate::reading::{HEAD, LONGEST};

/// Inputs that begin with a refused frame, and the refusals that docs/REQUIREMENTS.md, section 17,
/// gives them.
pub const REFUSED: &[(&[u8], i32)] = &[
    // A head that is cut short, whatever its type and length.
    (b"\x00", -25),
    (b"\x04", -25),
    (b"\x01\x00", -25),
    (b"\x09\x00", -25),
    (b"\x03\x80\x00", -25),
    (b"\xFF\xFF\xFF", -25),
    // A type above 3, also where the length is over the longest and the body is cut short.
    (b"\x04\x00\x00\x00", -21),
    (b"\x09\x00\x00\x01\xAA\x02\x00\x00\x00", -21),
    (b"\x04\x00\x80\x01", -21),
    (b"\x80\x00\x80\x00\xAA", -21),
    (b"\xFF\x00\x00\x05\x17", -21),
    (b"\xFF\xFF\xFF\xFF", -21),
    // A length over the longest, in each type; also with bytes behind it.
    (b"\x00\x00\x80\x01", -22),
    (b"\x01\x00\x80\x01\x17\x01\x00\x00\x00", -22),
    (b"\x02\x00\x80\x01\xAA", -22),
    (b"\x03\x00\x80\x02", -22),
    (b"\x00\x00\xFF\xFF", -22),
    (b"\x03\x01\x00\x00\xAA", -22),
    (b"\x01\x01\x00\x05\x17\x01\x00\x00\x00", -22),
    (b"\x01\xFF\xFF\xFF", -22),
    // A body that is cut short: all of it is missing, or its end.
    (b"\x00\x00\x00\x01", -25),
    (b"\x02\x00\x01\x00", -25),
    (b"\x03\x00\x80\x00", -25),
    (b"\x00\x00\x80\x00\xAA", -25),
    (b"\x01\x00\x00\x05", -25),
    (b"\x01\x00\x00\x05\x17", -25),
    (b"\x01\x00\x00\x05\x17\x01", -25),
    (b"\x01\x00\x00\x05\x17\x01\x00\x00", -25),
    (b"\x00\x00\x00\x0B\x95\x11Opus\x01\x00\x00\x01", -25),
    (b"\x00\x00\x00\x08\x97\x00\xAA\x00Opu", -25),
    // An offset that the pass refuses (section 23, N6): too short in each type, also with bytes
    // behind it; too large; in each layer of several. Before it comes what the head is refused for,
    // and a body that is cut short behind such a layer.
    (b"\x00\x00\x00\x04\x97\x00\xAA\x01", -3),
    (b"\x01\x00\x00\x04\x87\x00\x00\x00\x02\x00\x00\x00", -3),
    (b"\x02\x00\x00\x05\x87\x01\x00\x00\x00", -3),
    (b"\x03\x00\x00\x07\x87\xFF\x00\x01\x00\x00\x00", -3),
    (b"\x00\x00\x00\x06\x97\x02\x0F\x42\x40\x00", -3),
    (b"\x01\x00\x00\x06\x87\x02\xFF\xFF\xFF\x00", -3),
    (b"\x00\x00\x00\x09\x97\x00\x00\x07\x02\x00\x00\x00\x00", -3),
    (b"\x00\x00\x00\x09\x97\x02\x00\x00\x00\x07\x00\x00\x00", -3),
    (b"\x04\x00\x00\x04\x97\x00\xAA\x01", -21),
    (b"\x00\x00\x80\x01\x97\x00\xAA\x01", -22),
    (b"\x00\x00\x00\x05\x97\x00\xAA\x01", -25),
];

/// Payloads with an offset that the pass refuses in every type: too short and too large; the only
/// one, and in the first and the last layer of several, the other ones of which are taken.
pub const REFUSED_OFFSETS: &[&[u8]] = &[
    b"\x97\x00\xAA\x01",
    b"\x97\x01\x00\x00\x01Opus",
    b"\x97\xFF\x00\x01\x00\x00\x01",
    b"\x97\x02\x0F\x42\x40\x00Opus",
    b"\x97\x03\xFF\xFF\xFF\xFF\x00",
    b"\x97\x00\x00\x07\x02\x00\x00\x00\x00\x00\x00",
    b"\x97\x02\x0F\x42\x40\x07\x02\x00\x00\x00\x07\x00\x00\x21",
    b"\x97\x02\x00\x00\x00\x07\x00\x00\x17\x02\x0F\x42\x40\x01avc1",
];

/// Starts with sets that name another type than their list: the lists exchanged, legacy and in
/// audio; the extension; a track beside a valid one; the low six bits in HEVC.
pub const MISNAMED: &[(u8, &[u8])] = &[
    (
        1,
        b"\x17\x00\x00\x00\x00\x01\x42\x00\x1E\xFF\xE1\x00\x01\x68\x01\x00\x01\x67",
    ),
    (
        0,
        b"\x90avc1\x01\x42\x00\x1E\xFF\xE1\x00\x01\x68\x01\x00\x01\x67",
    ),
    (
        1,
        b"\x90avc1\x01\x64\x00\x1E\xFF\xE1\x00\x01\x67\x01\x00\x01\x68\xFD\xF8\xF8\x01\x00\x01\x67",
    ),
    (
        1,
        b"\x96\x20av01\x00\x00\x00\x01\xAAavc1\x01\x00\x00\x0D\
        \x01\x42\x00\x1E\xFF\xE1\x00\x01\x67\x01\x00\x01\x67",
    ),
    (
        1,
        b"\x90hvc1\x01\0\0\0\0\0\0\0\0\0\0\0\0\0\0\0\0\0\0\0\0\0\x02\
        \x21\x00\x01\x00\x01\x21\x22\x00\x01\x00\x01\x22",
    ),
];

/// A frame to put into an input.
#[derive(Clone)]
pub struct Frame {
    pub frame_type: u8,
    pub payload: Vec<u8>,
}

impl Frame {
    pub fn new(frame_type: u8, payload: &[u8]) -> Self {
        Self {
            frame_type,
            payload: payload.to_vec(),
        }
    }

    pub fn bytes(&self) -> Vec<u8> {
        let head = head(self.frame_type, self.payload.len());
        [&head, &self.payload[..]].concat()
    }

    /// Puts it behind the tags of a file, unless its type is one that no tag has.
    pub fn record(&self, timestamp: u32, recording: &mut Recording) {
        if let Some(type_byte) = TYPE_BYTES.get(usize::from(self.frame_type)) {
            recording.push(*type_byte, timestamp, &self.payload);
        }
    }
}

/// A type and a length.
pub fn head(frame_type: u8, length: usize) -> [u8; HEAD] {
    let [.., high, middle, low] = length.to_be_bytes();
    [frame_type, high, middle, low]
}

/// An input of these frames.
pub fn bytes(frames: &[Frame]) -> Vec<u8> {
    frames.iter().flat_map(Frame::bytes).collect()
}

/// An FLV file of these frames, but for those that it cannot hold. No two have the same time.
pub fn recording<'a>(frames: impl IntoIterator<Item = &'a Frame>) -> Vec<u8> {
    let mut recording = Recording::default();
    for (frame, count) in frames.into_iter().zip(0..) {
        frame.record(0x0001_0028 * count, &mut recording);
    }
    recording.bytes
}

pub fn listed() -> Vec<Frame> {
    let frame = |(frame_type, payload)| Frame {
        frame_type,
        payload,
    };
    shapes::listed().map(frame).collect()
}

/// A listed frame, or one in sixteen times another start, varied. A few are long. The pass refuses
/// none of them.
pub fn random(rng: &mut Rng, listed: &[Frame]) -> Frame {
    let Frame {
        mut frame_type,
        mut payload,
    } = match rng.one_in(16) {
        true => misnamed(rng),
        false => rng.pick(listed).clone(),
    };
    shapes::vary(rng, &mut frame_type, &mut payload);
    let more = match rng.below(10_000) {
        0 => rng.below(LONGEST - payload.len() + 1),
        1..500 => rng.below(300),
        _ => 0,
    };
    payload.extend(rng.bytes(more));
    mend_offsets(&mut payload);
    Frame {
        frame_type,
        payload,
    }
}

fn misnamed(rng: &mut Rng) -> Frame {
    let (frame_type, payload) = *rng.pick(MISNAMED);
    Frame::new(frame_type, payload)
}

#[cfg(test)]
mod tests {
    use oracle::FRAME_TYPES;

    use super::*;
    use crate::reading::frames;
    use crate::starts::is_left_out;

    #[test]
    fn misnamed_starts_are_what_they_are_called() {
        for (frame_type, payload) in MISNAMED {
            let known = FRAME_TYPES[usize::from(*frame_type)];
            assert!(is_left_out(known, payload), "{payload:02X?}");
        }
    }

    #[test]
    fn the_first_200_bytes_hold_many_sorts() {
        let input = bytes(&listed());
        let seen = || frames(&input[..200]).flatten().map(|frame| frame.seen());
        assert!(seen().count() >= 10);
        assert!(seen().any(|seen| seen.tracks > 0));
        assert!(seen().any(|seen| seen.peeled));
    }
}
