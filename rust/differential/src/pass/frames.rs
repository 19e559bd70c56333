//! Frames with masks, flags and outputs: the inputs of the comparison.

use common::layers::Form::{Long, Short};
use common::layers::{self, Layer, behind, mend_offsets, random_offset, wrap};
use common::rng::Rng;
use common::strings;
use oracle::types::CAPS_EX_MASK_MODEX;

use super::Frame;
use crate::classify;
use crate::classify::frames::{FEW_FLAGS, FLAGS};
use crate::containers::Candidate;
use crate::containers::tiled::{self, AUDIO, FORMS, Track, UNKNOWN, VIDEO, container};
use crate::modex::{self, KNOWN, masks, random_mask, result_length};
use crate::records::{avc, hevc};
use crate::starts::{TAG, TYPES};

/// The masks that most payloads have.
const FEW_MASKS: [u32; 2] = [0, CAPS_EX_MASK_MODEX];

/// What stands before the record of a legacy AVC start.
const LEGACY_START: &[u8] = b"\x17\x00\x00\x00\x00";

/// Frames of some shapes, which are also wrapped.
const FEW: &[&[u8]] = &[
    b"\x17\x00\x00\x00\x00\x01",
    b"\xAF\x00\x12\x10",
    b"\x90mp4a\x12\x10",
    b"\x91avc1\x80\x00\x00\xAA",
    b"\x95\x11Opus\x01\x00\x00\x01\xAA",
    b"\x95\x15Opus\x01\x00\x00\x01\xAA",
    b"\x95\x16Opus\x01\x00\x00\x01\xAA",
    b"\x96\x20av01\x00\x00\x00\x01\xAAOpus\x01\x00\x00\x00",
    b"\x96\x26av01\x00\x00\x00\x01\xAAOpus\x01\x00\x00\x00",
    b"\x96\x05av01\x00\xAA",
];

/// Frame type, mask and payload: those by which the readings of request N6 are told apart, and some
/// around them.
const TIMED: &[(u32, u32, &[u8])] = &[
    // An offset without milliseconds: audio, Script, Metadata, a time that is cut off.
    (0, 4, b"\x97\x02\x00\x00\x01\x00"),
    (2, 4, b"\x87\x02\x00\x00\x01\x00"),
    (3, 4, b"\x87\x02\x00\x00\x01\x00"),
    (1, 4, b"\x97\x02\x00\x00\x01\x01avc1\xFF\xFF"),
    // The last one counts, whatever is behind it.
    (0, 4, b"\x97\x02\x00\x00\x01\x07\x02\x00\x00\x00\x00"),
    (0, 4, b"\x97\x02\x00\x00\x00\x07\x02\x00\x00\x01\x00"),
    (0, 4, b"\x97\x02\x00\x00\x01\x07\x00\xAA\x11"),
    // The first three bytes, big-endian.
    (1, 4, b"\x87\x03\x00\x00\x00\x01\x00"),
    (1, 4, b"\x87\x02\x01\x00\x00\x00"),
    (1, 4, b"\x87\xFF\x00\x02\x00\x01\x02\x00"),
    // 999,999 and 1,000,000.
    (0, 4, b"\x97\x02\x0F\x42\x3F\x00"),
    (0, 4, b"\x97\x02\x0F\x42\x40\x00"),
    // Every layer is judged.
    (0, 4, b"\x97\x00\x00\x07\x02\x00\x00\x00\x00"),
    (0, 4, b"\x97\x02\x00\x00\x00\x07\x00\x00\x00"),
    // One and two data bytes; the long form.
    (1, 4, b"\x87\x00\x00\x00"),
    (1, 4, b"\x87\x01\x00\x00\x00"),
    (0, 4, b"\x97\xFF\x00\x01\x00\x00\x01"),
    (0, 4, b"\x97\x00\xAA\x01"),
    // Other types.
    (0, 4, b"\x97\x00\x00\x10"),
    (0, 4, b"\x97\x02\x0F\x42\x40\x11"),
    // What is not peeled off is not judged: another mask, mu-law, a chain that is cut.
    (1, 0, b"\x87\x00\x00\x00"),
    (1, !4, b"\x97\x02\x00\x00\x01\x00"),
    (0, 4, b"\x87\x00\x00\x00"),
    (1, 4, b"\x97\x00\xAA\x07\x02"),
    // Each type is judged.
    (2, 4, b"\x87\x00\x00\x00"),
    (3, 4, b"\x87\x00\x00\x00"),
    (0, 4, b"\x97\x00\x00\x00"),
    (4, 4, b"\x97\x00\xAA\x01"),
    // Negative times, with an offset and without; both ends.
    (1, 4, b"\x97\x02\x00\x00\x01\x01avc1\xFF\xFF\xFF"),
    (1, 4, b"\x97\x02\x0F\x42\x3F\x01hvc1\xFF\xFF\xFF"),
    (1, 4, b"\x07\x00\x80\x00\x00"),
    (1, 4, b"\x97\x02\x00\x00\x00\x01vvc1\x80\x00\x00"),
    (1, 4, b"\x97\x02\x0F\x42\x3F\x01avc1\x7F\xFF\xFF"),
    (1, 4, b"\x97\x02\x0F\x42\x40\x01avc1\x7F\xFF\xFF"),
];

/// Video with a negative time.
const NEGATIVE: &[u8] = b"\x91avc1\xFF\xFF\xFF\xAA";

/// What stands behind layers: video with a time of either sign, with one that is cut off, and
/// without; audio, a start, a container; a command; nothing.
const INNER: &[&[u8]] = &[
    NEGATIVE,
    b"\x81hvc1\x00\x00\x01",
    b"\x91avc1\xFF\xFF",
    b"\x91av01\xAA",
    b"\x91Opus\xAA",
    b"\x90mp4a\x12\x10",
    b"\x95\x11Opus\x01\x00\x00\x01\xAA",
    b"\xD0\x01",
    b"\x81",
];

/// Those of each shape, and every payload of 3 bytes.
pub fn listed() -> impl Iterator<Item = Frame> {
    of_each_shape().chain(three_bytes())
}

/// Some payloads of each shape with every mask, flag and frame type; records, and the frames of
/// `classify`; chains of layers, as they are and with offsets that are taken, and short payloads
/// with few masks and flags; offsets; large ones.
pub fn of_each_shape() -> impl Iterator<Item = Frame> {
    let layered = modex::layered().flat_map(and_mended);
    let layered = layered.chain(strings::up_to_two_bytes());
    let layered = layered.flat_map(|payload| frames(payload, &FEW_MASKS, &KNOWN, &FEW_FLAGS));
    let numbers = [&KNOWN[..], &UNKNOWN].concat();
    let few = few().flat_map(move |payload| frames(payload, &masks(), &numbers, &FLAGS));
    let large = tiled::large().map(|candidate| alone(candidate, CAPS_EX_MASK_MODEX, 0));
    few.chain(timed())
        .chain(offsets())
        .chain(recorded())
        .chain(classified())
        .chain(layered)
        .chain(large)
}

/// The payload with these masks, frame types and flags, and with outputs around the result's
/// length.
fn frames(payload: Vec<u8>, masks: &[u32], numbers: &[u32], flags: &[u32]) -> Vec<Frame> {
    let lent = modex::frames(payload, masks, numbers);
    let with = |&flag| lent.iter().cloned().map(move |lent| Frame { lent, flag });
    flags.iter().flat_map(with).collect()
}

fn few() -> impl Iterator<Item = Vec<u8>> {
    let shapes = FEW.iter().flat_map(|frame| {
        let with = |offset| wrap(frame, 2, offset);
        [frame.to_vec(), with(None), with(Some(1))]
    });
    modex::few_payloads().flat_map(and_mended).chain(shapes)
}

/// The payload, and if it differs the one with offsets that are taken.
pub fn and_mended(payload: Vec<u8>) -> impl Iterator<Item = Vec<u8>> {
    let mut mended = payload.clone();
    mend_offsets(&mut mended);
    let other = (mended != payload).then_some(mended);
    [payload].into_iter().chain(other)
}

/// Each with an output that is too short, one that is as long as the result, and a longer one; and
/// as many layers as are peeled off, and one more, in video.
pub fn timed() -> impl Iterator<Item = Frame> {
    let short = TIMED.iter().flat_map(|&(frame_type, mask, payload)| {
        let candidate = Candidate {
            frame_type,
            payload: payload.to_vec(),
        };
        let longer = alone(candidate, mask, 0);
        [0, 1, 2].map(|less| {
            let mut frame = longer.clone();
            frame.lent.room -= less;
            frame
        })
    });
    let long = many_offsets().into_iter().map(|layers| {
        let candidate = Candidate {
            frame_type: 1,
            payload: behind(&layers, NEGATIVE),
        };
        alone(candidate, CAPS_EX_MASK_MODEX, 0)
    });
    short.chain(long)
}

/// Chains of layers with offsets that are taken and that are refused, in each place, before frames
/// of several shapes; some of them cut off at every byte.
fn offsets() -> impl Iterator<Item = Frame> {
    let whole = chains_of_offsets().into_iter().flat_map(|layers| {
        let payload = move |inner: &&[u8]| behind(&layers, inner);
        INNER.iter().map(payload).collect::<Vec<_>>()
    });
    let cut = pairs_of_offsets().into_iter().flat_map(|layers| {
        let whole = behind(&layers, INNER[0]);
        layers::truncations(whole)
    });
    let numbers = [&KNOWN[..], &UNKNOWN[..1]].concat();
    let payloads = whole.chain(cut);
    payloads.flat_map(move |payload| frames(payload, &FEW_MASKS, &numbers, &[0]))
}

/// A layer of type 0 with so many bytes of an offset and 0 behind it.
pub fn offset_of(form: layers::Form, offset: u32, size: usize) -> Layer {
    let [_, data @ ..] = offset.to_be_bytes();
    let mut data = data.to_vec();
    data.resize(size, 0);
    (form, 0, data)
}

/// One layer each: offsets around the limits, also in the long form; of too few bytes, and of more;
/// other types, of which none has an offset.
fn offsets_alone() -> Vec<Layer> {
    let mut alone = vec![];
    for form in [Short, Long] {
        let numbers = [0, 1, 0x01_0000, 999_999, 1_000_000, 0x10_0000, 0xFF_FFFF];
        alone.extend(numbers.map(|offset| offset_of(form, offset, 3)));
        alone.extend([1, 2, 4, 255].map(|size| offset_of(form, 0x01_0203, size)));
        alone.push((form, 1, vec![0xFF]));
        alone.push((form, 15, vec![0xFF; 3]));
    }
    alone.push(offset_of(Long, 0x01_0203, 256));
    alone
}

/// Every two of some layers.
fn pairs_of_offsets() -> Vec<Vec<Layer>> {
    let pairs = |first: Layer| some_offsets().map(|second| vec![first.clone(), second]);
    some_offsets().into_iter().flat_map(pairs).collect()
}

/// Taken, refused, and of another type.
fn some_offsets() -> [Layer; 7] {
    [
        offset_of(Short, 0, 3),
        offset_of(Short, 1, 3),
        offset_of(Long, 999_999, 4),
        offset_of(Short, 1_000_000, 3),
        offset_of(Short, 1, 1),
        offset_of(Short, 1, 2),
        (Short, 1, vec![0xFF]),
    ]
}

/// One, two and three of them, and many.
fn chains_of_offsets() -> Vec<Vec<Layer>> {
    let mut chains: Vec<Vec<Layer>> = offsets_alone().into_iter().map(|one| vec![one]).collect();
    for pair in pairs_of_offsets() {
        chains.extend(some_offsets().map(|third| [&pair[..], &[third]].concat()));
        chains.push(pair);
    }
    chains.extend(many_offsets());
    chains
}

/// 32 and 33, of which the first, the last or another one is refused, or none.
fn many_offsets() -> Vec<Vec<Layer>> {
    let mut chains = vec![];
    for count in [32, 33] {
        let numbers = 1..=count as u32;
        let taken: Vec<Layer> = numbers.map(|number| offset_of(Short, number, 3)).collect();
        chains.push(taken.clone());
        for at in [0, 1, 15, count - 2, count - 1] {
            for refused in [offset_of(Short, 1_000_000, 3), offset_of(Short, 1, 2)] {
                let mut chain = taken.clone();
                chain[at] = refused;
                chains.push(chain);
            }
        }
    }
    chains
}

/// Every payload of 3 bytes, as audio and as video. None of them is peeled.
fn three_bytes() -> impl Iterator<Item = Frame> {
    strings::three_bytes().flat_map(|payload| {
        [0, 1].into_iter().flat_map(move |frame_type| {
            FEW_MASKS.into_iter().zip(FEW_FLAGS).map({
                let payload = payload.clone();
                move |(mask, flag)| {
                    let payload = payload.clone();
                    alone(
                        Candidate {
                            frame_type,
                            payload,
                        },
                        mask,
                        flag,
                    )
                }
            })
        })
    })
}

/// The frames of `classify` as a relay would take them.
pub fn classified() -> impl Iterator<Item = Frame> {
    classify::frames::listed().map(|frame| alone(frame.candidate, CAPS_EX_MASK_MODEX, frame.flag))
}

/// Records of AVC and HEVC, most of them valid, where a start has them, as audio and as video; also
/// behind layers. Of some a set names another type than its list.
pub fn recorded() -> impl Iterator<Item = Frame> {
    let avc = || avc::small().chain(avc::misnamed()).chain(avc::large());
    let hevc = hevc::small().chain(hevc::misnamed()).chain(hevc::large());
    let legacy = avc().map(|record| [LEGACY_START, &record[..]].concat());
    let avc = avc().flat_map(|record| starts(b"avc1", &record));
    let hevc = hevc.flat_map(|record| starts(b"hvc1", &record));
    let unwrapped = legacy.chain(avc).chain(hevc);
    let payloads = unwrapped.flat_map(|payload| {
        let with = |offset| wrap(&payload, 2, offset);
        [with(None), with(Some(1)), payload]
    });
    payloads.flat_map(|payload| {
        TYPES.map(|frame_type| {
            let candidate = Candidate {
                frame_type: frame_type as u32,
                payload: payload.clone(),
            };
            alone(candidate, CAPS_EX_MASK_MODEX, 0)
        })
    })
}

/// The record alone, and twice in containers; of OneTrack, the second one is a part of the body.
fn starts(fourcc: &[u8; 4], record: &[u8]) -> Vec<Vec<u8>> {
    let tracks = [1, 2].map(|id| Track {
        id,
        fourcc: *fourcc,
        body: record.to_vec(),
    });
    let mut payloads = vec![[&[TAG], &fourcc[..], record].concat()];
    for first in [AUDIO, VIDEO] {
        payloads.extend(FORMS.map(|form| container(first, form, 0, &tracks)));
    }
    payloads
}

/// With one output, a byte longer than the result.
pub fn alone(candidate: Candidate, mask: u32, flag: u32) -> Frame {
    let Candidate {
        frame_type,
        payload,
    } = candidate;
    Frame {
        lent: modex::Frame {
            room: result_length(&payload, mask, frame_type) + 1,
            payload,
            mask,
            frame_type,
            filling: 0xA5,
        },
        flag,
    }
}

/// The random ones of `classify`, one in four of them wrapped. Of most the offsets are taken.
pub fn random(rng: &mut Rng) -> Frame {
    let classify::Frame { candidate, flag } = classify::frames::random(rng);
    let mut payload = candidate.payload;
    if rng.one_in(4) {
        let count = 1 + rng.below(3) as u8;
        let offset = random_offset(rng);
        payload = wrap(&payload, count, offset);
    }
    if !rng.one_in(4) {
        mend_offsets(&mut payload);
    }
    let mask = random_mask(rng);
    Frame {
        lent: modex::Frame::lend(rng, payload, mask, candidate.frame_type),
        flag,
    }
}
