//! Stores, and sequences of frames that are offered to them: the inputs of the comparison.

use common::layers::{random_offset, wrap};
use common::rng::Rng;
use common::shapes;
use common::store_frames::{A, H, H2, K, K2, L, W};
use common::strings;
use oracle::types::CAPS_EX_MASK_MODEX;

use super::history::{KINDS, Offer};
use super::{Sequence, Slot};
use crate::classify::frames::FLAGS;
use crate::containers::Candidate;
use crate::modex::{self, random_mask, result_length};
use crate::pass::Frame;
use crate::pass::frames::{self, alone};

/// Frame type and payload of the frames by which the readings of request N8 are told apart: two
/// video headers, the first of them behind a layer, an audio header, two keyframes, and a frame that
/// is not kept.
const TABLE: [(u32, &[u8]); 7] = [(1, H), (1, H2), (1, W), (0, A), (1, K), (1, K2), (1, L)];

/// The output that each of them fits in.
const OUTPUT: usize = 8;

/// Buffers that each of them fits in, with no byte to spare.
const FITTING: [usize; 3] = [6, 4, 2];

/// The length of a long keyframe.
const LONG_KEYFRAME: usize = 257;

/// The first video header behind an offset that is refused.
const REFUSED: &[u8] = b"\x97\x00\xAA\x00vp09\x00";

/// Further frames of few bytes, of each kind that is kept.
const SHORT: [(u32, &[u8]); 11] = [
    (1, b"\x90av01"),
    (1, b"\x90vp08\xAA\xBB"),
    (1, b"\x96\x00av01\x00"),
    (0, b"\x90Opus"),
    (0, b"\x90mp4a\x12\x10"),
    (0, b"\xAF\x00\x12\x10\x56"),
    (0, b"\x95\x00Opus\x00"),
    (1, b"\x17\x01\x00\x00\x00"),
    (1, b"\x91av01\xAA"),
    (1, b"\x93vp09"),
    (1, b"\x96\x11av01\x00\x00\x00\x00"),
];

/// Lengths of the three buffers: none; around those of the frames of the table; longer.
const BUFFERS: [[usize; 3]; 8] = [
    [0, 0, 0],
    [5, 3, 1],
    [6, 4, 1],
    [6, 4, 2],
    [5, 4, 2],
    [7, 5, 3],
    [9, 9, 9],
    [24, 24, 24],
];

/// A length past every buffer, which a number of 32 bits has.
const FAR: usize = u32::MAX as usize;

/// A length in the record, by that of the buffer.
type Start = fn(usize) -> usize;

/// Of an empty store; past the buffer, also where the low bits are not; within it.
const STARTS: [Start; 7] = [
    |_| 0,
    |buffer| buffer + 1,
    |_| usize::MAX,
    |buffer| 1 << 32 | buffer,
    |buffer| buffer,
    |buffer| buffer / 2,
    |_| 1,
];

/// Listed payloads with records are shorter.
const LONG: usize = 100;

/// The most frames of a random sequence.
const MOST: usize = 12;

/// The examples; sequences over the table, also with frames that are refused; frames of each shape.
pub fn listed() -> impl Iterator<Item = Sequence> {
    let alike = STARTS.map(|start| [start; 3]).to_vec();
    let few = alike[..5].to_vec();
    let with_refused = [&table()[..], &refused()].concat();
    let with_refused = strings::up_to(3, with_refused);
    let with_refused = with_refused.flat_map(move |frames| in_stores(frames, few.clone()));
    let mixed = strings::up_to(2, table().into());
    let mixed = mixed.flat_map(|frames| in_stores(frames, mixed_starts()));
    let longer = strings::up_to(5, table().into());
    let longer = longer.flat_map(move |frames| in_stores(frames, alike.clone()));
    let examples = examples().into_iter();
    examples
        .chain(with_refused)
        .chain(mixed)
        .chain(longer)
        .chain(of_each_shape())
}

/// Lengths of the buffers, the record at the start, and the frames.
type Example<'a> = ([usize; 3], [usize; 3], &'a [&'a Frame]);

/// The histories by which the readings of request N8 are told apart.
pub fn examples() -> Vec<Sequence> {
    let [header, other, layered, audio, keyframe, longer, live] = &table();
    let refused = &offered(1, REFUSED);
    let unknown = &offered(4, &header.lent.payload);
    let short = &with_output(header.clone(), 5);
    let long = [&keyframe.lent.payload[..], &[0xAA; LONG_KEYFRAME - 1]].concat();
    let long = &with_output(offered(1, &long), LONG_KEYFRAME);
    let mut unpeeled = with_output(layered.clone(), layered.lent.payload.len());
    unpeeled.lent.mask = 0;
    let without_video = |frame: &Frame| Frame {
        flag: 0,
        ..frame.clone()
    };
    let [header_alone, audio_alone, keyframe_alone] = &[header, audio, keyframe].map(without_video);
    let empty = [0; 3];
    let far = [FAR; 3];
    let [no_header, no_audio, no_longer] = [[5, 4, 2], [6, 3, 2], [6, 4, 1]];
    let examples: [Example; 22] = [
        // What is kept is peeled; what is not peeled is not kept.
        (FITTING, empty, &[layered]),
        (FITTING, empty, &[&unpeeled, header]),
        // The route flag has no say.
        (
            FITTING,
            empty,
            &[header_alone, audio_alone, keyframe_alone, live],
        ),
        // A slot that is too short is emptied, its bytes kept; the pass has refused first.
        (no_header, empty, &[header]),
        (no_header, empty, &[short]),
        (no_longer, empty, &[keyframe, longer]),
        // Every video header empties the keyframe, and nothing else does.
        (FITTING, empty, &[header, keyframe, header]),
        (FITTING, empty, &[header, keyframe, other]),
        (FITTING, empty, &[header, keyframe, layered]),
        (no_header, empty, &[keyframe, header]),
        (FITTING, empty, &[longer, audio, live, header]),
        (no_audio, empty, &[keyframe, audio]),
        (no_longer, empty, &[header, audio, longer]),
        // A refused frame changes nothing.
        (
            FITTING,
            empty,
            &[header, audio, keyframe, short, refused, unknown],
        ),
        // Bytes past the held length; the last frame counts.
        (FITTING, empty, &[longer, keyframe]),
        (FITTING, empty, &[header, other]),
        ([24; 3], empty, &[layered, audio, longer, other, keyframe]),
        // A length that no byte has.
        ([6, 4, LONG_KEYFRAME], empty, &[long, keyframe]),
        // Lengths past their buffers, and within.
        (FITTING, [0, 9, 0], &[live, audio]),
        (FITTING, far, &[live, short, keyframe, audio, header]),
        (FITTING, [5, 3, 1], &[live, audio, longer, header]),
        // Buffers without a byte.
        (empty, empty, &[header, audio, keyframe, live]),
    ];
    let sequence = |(lengths, record, frames): Example| Sequence {
        slots: slots(lengths, record),
        frames: frames.iter().map(|&frame| frame.clone()).collect(),
    };
    examples.map(sequence).into()
}

fn table() -> [Frame; 7] {
    TABLE.map(|(frame_type, payload)| offered(frame_type, payload))
}

/// By a capable receiver, on a route with video.
fn offered(frame_type: u32, payload: &[u8]) -> Frame {
    let candidate = Candidate {
        frame_type,
        payload: payload.to_vec(),
    };
    with_output(alone(candidate, CAPS_EX_MASK_MODEX, 1), OUTPUT)
}

/// With an output of this length.
fn with_output(mut frame: Frame, room: usize) -> Frame {
    frame.lent.room = room;
    frame
}

/// The frames of the table with outputs that are a byte too short; then an offset that is refused,
/// in an output that is long enough and in one that is not; and an unknown frame type.
fn refused() -> Vec<Frame> {
    let short = table().map(|frame| {
        let room = length_of_result(&frame) - 1;
        with_output(frame, room)
    });
    let (_, header) = TABLE[0];
    let others = [
        offered(1, REFUSED),
        with_output(offered(1, REFUSED), header.len() - 1),
        offered(4, header),
    ];
    [&short[..], &others].concat()
}

fn length_of_result(frame: &Frame) -> usize {
    let lent = &frame.lent;
    result_length(&lent.payload, lent.mask, lent.frame_type)
}

/// The frames with buffers of each length, and with each of these starts of the slots.
fn in_stores(frames: Vec<Frame>, starts: Vec<[Start; 3]>) -> impl Iterator<Item = Sequence> {
    BUFFERS.into_iter().flat_map(move |lengths| {
        let with = |starts: &[Start; 3]| Sequence {
            slots: slots(lengths, [0, 1, 2].map(|at| starts[at](lengths[at]))),
            frames: frames.clone(),
        };
        starts.iter().map(with).collect::<Vec<_>>()
    })
}

/// Every start of each slot.
fn mixed_starts() -> Vec<[Start; 3]> {
    let mut mixed = vec![];
    for video in STARTS {
        for audio in STARTS {
            mixed.extend(STARTS.map(|keyframe| [video, audio, keyframe]));
        }
    }
    mixed
}

/// Slots with these lengths of the buffers and in the record. The bytes of each differ.
fn slots(rooms: [usize; 3], lengths: [usize; 3]) -> [Slot; 3] {
    [0, 1, 2].map(|at| {
        let byte = |place| (0xB0 + 0x10 * at + place) as u8;
        Slot {
            buffer: (0..rooms[at]).map(byte).collect(),
            length: lengths[at],
        }
    })
}

/// Frames of each shape, as they are and behind layers, and those of the pass that have records and
/// are not long.
fn of_each_shape() -> impl Iterator<Item = Sequence> {
    let short = SHORT.map(|(frame_type, payload)| (frame_type as u8, payload.to_vec()));
    let shapes = shapes::listed().chain(short);
    let shapes = shapes.flat_map(|(frame_type, payload)| {
        let with = |offset| wrap(&payload, 2, offset);
        let payloads = [with(None), with(Some(1)), payload.clone()];
        payloads.map(|payload| offered(frame_type.into(), &payload))
    });
    let recorded = frames::recorded().filter(|frame| frame.lent.payload.len() < LONG);
    shapes.chain(recorded).flat_map(around)
}

/// The frame, once and twice, in buffers around the length of its result, behind frames that fill
/// the slots, if they fit, and behind none.
fn around(frame: Frame) -> impl Iterator<Item = Sequence> {
    let length = length_of_result(&frame);
    let frame = with_output(frame, length + 1);
    let [header, _, _, audio, keyframe, ..] = table();
    let fronts = [vec![header, audio, keyframe], vec![]];
    fronts.into_iter().flat_map(move |front| {
        let once = [front, vec![frame.clone()]].concat();
        let twice = [once.clone(), vec![frame.clone()]].concat();
        [once, twice].into_iter().flat_map(move |frames| {
            let rooms = [length.saturating_sub(1), length, length + 1, length + 8];
            rooms.map(|room| Sequence {
                slots: slots([room; 3], [0; 3]),
                frames: frames.clone(),
            })
        })
    })
}

/// Up to the most frames, all of them from few, so that many come again; half of the stores are
/// empty.
pub fn random(rng: &mut Rng) -> Sequence {
    let few = 1 + rng.below(5);
    let few = (0..few).map(|_| {
        let frame = random_frame(rng);
        let room = length_of_result(&frame);
        with_output(frame, room)
    });
    let few: Vec<Frame> = few.collect();
    let slots = random_slots(rng, &few);
    let count = rng.below(MOST + 1);
    let frames = (0..count).map(|_| {
        let frame = rng.pick(&few).clone();
        offered_again(rng, frame)
    });
    Sequence {
        frames: frames.collect(),
        slots,
    }
}

/// Most are short: those of the table and others, also with a byte more.
fn random_frame(rng: &mut Rng) -> Frame {
    let (mut frame_type, mut payload) = match rng.below(8) {
        0 => return frames::random(rng),
        1 | 2 => {
            let shapes: Vec<_> = shapes::listed().collect();
            rng.pick(&shapes).clone()
        }
        _ => {
            let table = [&TABLE[..], &SHORT].concat();
            let (frame_type, payload) = *rng.pick(&table);
            (frame_type as u8, payload.to_vec())
        }
    };
    match rng.below(4) {
        0 => shapes::vary(rng, &mut frame_type, &mut payload),
        1 => payload.push(rng.byte()),
        _ => {}
    }
    Frame {
        flag: *rng.pick(&FLAGS),
        ..offered(frame_type.into(), &payload)
    }
}

/// Mostly as it was; or behind a layer, with another mask, flag or type. The output is a new one.
fn offered_again(rng: &mut Rng, frame: Frame) -> Frame {
    let Frame { lent, mut flag } = frame;
    let modex::Frame {
        mut payload,
        mut mask,
        mut frame_type,
        ..
    } = lent;
    match rng.below(16) {
        0 => mask = random_mask(rng),
        1 => flag = *rng.pick(&FLAGS),
        2 => frame_type = rng.below(6) as u32,
        3..6 => {
            let count = 1 + rng.below(2) as u8;
            payload = wrap(&payload, count, random_offset(rng));
        }
        _ => {}
    }
    Frame {
        lent: modex::Frame::lend(rng, payload, mask, frame_type),
        flag,
    }
}

/// A slot for each kind, by the frames of it. Their outputs are long enough.
fn random_slots(rng: &mut Rng, frames: &[Frame]) -> [Slot; 3] {
    let offers: Vec<Offer> = frames.iter().map(Offer::new).collect();
    let empty = rng.one_in(2);
    KINDS.map(|kind| {
        let of_kind = offers.iter().filter(|offer| offer.kind() == kind);
        let results: Vec<&[u8]> = of_kind.map(Offer::result).collect();
        let room = random_room(rng, &results);
        let mut buffer = rng.bytes(room);
        let mut length = random_length(rng, room);
        if let Some(&result) = results.first()
            && result.len() <= room
            && rng.one_in(4)
        {
            // The store holds the frame already.
            buffer[..result.len()].copy_from_slice(result);
            length = result.len();
        }
        Slot {
            buffer,
            length: if empty { 0 } else { length },
        }
    })
}

/// Mostly around the length of a result, else up to 24; few are longer.
fn random_room(rng: &mut Rng, results: &[&[u8]]) -> usize {
    match rng.below(16) {
        0 => 0,
        1 => rng.below(300),
        2..5 => rng.below(25),
        _ if results.is_empty() => rng.below(25),
        _ => {
            let length = rng.pick(results).len();
            let more = *rng.pick(&[0, 1, 1, 2, 3, 9]);
            (length + more).saturating_sub(1)
        }
    }
}

/// Half are within the buffer, the others past it.
fn random_length(rng: &mut Rng, room: usize) -> usize {
    match rng.below(8) {
        0 => room + 1,
        1 => room + 1 + rng.below(300),
        2 => usize::MAX - rng.below(2),
        3 => 1 << 32 | rng.below(room + 1),
        4 => room,
        _ => rng.below(room + 1),
    }
}
