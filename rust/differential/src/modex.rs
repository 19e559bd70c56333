//! `normalize_modex_payload` and `normalize_modex_payload_with_frame_type`: peeling.

use std::borrow::Cow;
use std::iter;

use common::layers;
use common::layers::Form::{Long, Short};
use common::requirement::{OUTPUT_TOO_SHORT, UNKNOWN_FRAME_TYPE};
use common::rng::Rng;
use oracle::FRAME_TYPES;
use oracle::media::modex::{
    ERTMP_PACKET_TYPE_MODEX as MODEX, normalize_modex_payload,
    normalize_modex_payload_with_frame_type,
};
use oracle::types::{CAPS_EX_MASK_MODEX, FrameType};
use oracle::{ModexLayer, parse_modex_layer};

use crate::input::{Input, lower};
use crate::leaf::{self, LeafPeel};
use crate::run::{Comparison, Difference, same};

pub const KNOWN: [u32; 4] = [0, 1, 2, 3];
const UNKNOWN: [u32; 3] = [4, 255, u32::MAX];

/// The most layers that are peeled off.
const MOST_LAYERS: usize = 32;

pub struct Modex;

impl Comparison for Modex {
    const NAME: &'static str = "modex";

    const CLASSES: &'static [&'static str] = &[
        "unknown frame type",
        "output refused, peeled",
        "output refused, unpeeled",
        "empty",
        "not capable",
        "legacy byte",
        "other packet type",
        "audio without nibble 9",
        "truncated chain",
        "33 or more layers",
        "peeled, 1 layer",
        "peeled, 2 to 31 layers",
        "peeled, 32 layers",
        "peeled, with a long size",
    ];

    type Input = Frame;

    fn listed() -> impl Iterator<Item = Frame> {
        let capable = [CAPS_EX_MASK_MODEX];
        let few_masks = [0, CAPS_EX_MASK_MODEX, !CAPS_EX_MASK_MODEX, u32::MAX];
        let short = layers::up_to_three_bytes()
            .flat_map(move |payload| frames(payload, &few_masks, &KNOWN));
        let others = layered().flat_map(move |payload| frames(payload, &capable, &KNOWN));
        let every_mask = few_payloads().flat_map(|payload| frames(payload, &masks(), &KNOWN));
        let unknown = few_payloads().flat_map(|payload| frames(payload, &masks(), &UNKNOWN));
        short.chain(others).chain(every_mask).chain(unknown)
    }

    /// Mostly capable frames of a known type, with an output that is long enough.
    fn random(rng: &mut Rng) -> Frame {
        let payload = layers::random_payload(rng);
        let mask = random_mask(rng);
        let frame_type = match rng.below(32) {
            0 => rng.number() as u32,
            number => number as u32 % 4,
        };
        Frame::lend(rng, payload, mask, frame_type)
    }

    fn compare(frame: &Frame) -> Result<&'static str, Difference> {
        let answers = same(Answers::of_rust(frame), Answers::of_port(frame))?;
        Ok(class(frame, answers.typed.error))
    }
}

/// A payload to peel, and the output that is lent for the result.
#[derive(Clone, PartialEq)]
pub struct Frame {
    pub payload: Vec<u8>,
    pub mask: u32,
    pub frame_type: u32,
    /// The output's length, and the byte that it is full of.
    pub room: usize,
    pub filling: u8,
}

impl Frame {
    /// Mostly with an output that is long enough.
    pub fn lend(rng: &mut Rng, payload: Vec<u8>, mask: u32, frame_type: u32) -> Self {
        let result = result_length(&payload, mask, frame_type);
        let room = match rng.below(8) {
            0 => rng.below(result + 1),
            1 => rng.below(payload.len() + 1),
            2 | 3 => result,
            _ => result + rng.below(20),
        };
        Self {
            payload,
            mask,
            frame_type,
            room,
            filling: rng.byte(),
        }
    }

    pub fn known_type(&self) -> Option<FrameType> {
        FRAME_TYPES.get(self.frame_type as usize).copied()
    }

    /// What the Rust peels, or lends as it is.
    pub fn result(&self) -> Option<Cow<'_, [u8]>> {
        let known = self.known_type()?;
        let result = normalize_modex_payload_with_frame_type(&self.payload, self.mask, known);
        Some(result)
    }

    /// The output between two bytes that are not lent.
    pub fn memory(&self) -> Vec<u8> {
        vec![self.filling; self.room + 2]
    }
}

impl Input for Frame {
    fn smaller(&self) -> impl Iterator<Item = Self> {
        let payloads = self.payload.smaller().flat_map(|payload| {
            let removed = self.payload.len() - payload.len();
            let rooms = [self.room, self.room.saturating_sub(removed)];
            rooms.map(|room| Self {
                payload: payload.clone(),
                room,
                ..*self
            })
        });
        let rooms = lower(self.room as u64).map(|room| Self {
            room: room as usize,
            ..self.clone()
        });
        let masks = lower(self.mask.into()).map(|mask| Self {
            mask: mask as u32,
            ..self.clone()
        });
        let types = lower(self.frame_type.into()).map(|number| Self {
            frame_type: number as u32,
            ..self.clone()
        });
        let fillings = lower(self.filling.into()).map(|byte| Self {
            filling: byte as u8,
            ..self.clone()
        });
        payloads
            .chain(rooms)
            .chain(masks)
            .chain(types)
            .chain(fillings)
    }

    fn show(&self) -> String {
        format!(
            "frame type {}, mask {:#X}, output of {} times {:02X}, payload of {}",
            self.frame_type,
            self.mask,
            self.room,
            self.filling,
            self.payload.show()
        )
    }
}

/// The payload with these masks and frame types, and with outputs around the result's length.
pub fn frames(payload: Vec<u8>, masks: &[u32], frame_types: &[u32]) -> Vec<Frame> {
    let mut frames = vec![];
    for &mask in masks {
        for &frame_type in frame_types {
            let exact = result_length(&payload, mask, frame_type);
            for room in [0, exact.saturating_sub(1), exact, exact + 1, exact + 100] {
                for filling in [0x00, 0xA5] {
                    frames.push(Frame {
                        payload: payload.clone(),
                        mask,
                        frame_type,
                        room,
                        filling,
                    });
                }
            }
        }
    }
    frames
}

/// How long an output must be.
pub fn result_length(payload: &[u8], mask: u32, frame_type: u32) -> usize {
    match FRAME_TYPES.get(frame_type as usize) {
        Some(&known) => normalize_modex_payload_with_frame_type(payload, mask, known).len(),
        None => payload.len(),
    }
}

/// 0, each bit alone, all bits, all but the one for ModEx.
pub fn masks() -> Vec<u32> {
    let bits = (0..u32::BITS).map(|bit| 1 << bit);
    bits.chain([0, u32::MAX, !CAPS_EX_MASK_MODEX]).collect()
}

/// Mostly the bit for ModEx alone.
pub fn random_mask(rng: &mut Rng) -> u32 {
    match rng.below(16) {
        0 => !CAPS_EX_MASK_MODEX,
        1 => rng.number() as u32,
        2 => rng.number() as u32 | CAPS_EX_MASK_MODEX,
        _ => CAPS_EX_MASK_MODEX,
    }
}

/// Layers and chains of them, whole and cut off.
pub fn layered() -> impl Iterator<Item = Vec<u8>> {
    one_byte_layers()
        .chain(chains())
        .chain(truncated_chains())
        .chain(layers::large_layers().map(layers::wrapped))
}

/// Every listed byte 0 before, and every option byte behind, one data byte.
fn one_byte_layers() -> impl Iterator<Item = Vec<u8>> {
    layers::BYTES
        .into_iter()
        .flat_map(|first| (0..=u8::MAX).map(move |option| vec![first, 0x00, 0xAA, option]))
}

/// Chains of 0 to 34 layers that are all alike, with nothing or with two bytes behind them.
fn chains() -> Vec<Vec<u8>> {
    let mut chains = vec![];
    for (form, size) in [(Short, 1), (Short, 3), (Short, 255), (Long, 1), (Long, 256)] {
        for count in 0..=MOST_LAYERS + 2 {
            for last in [0, 1, MODEX] {
                let mut payload = layers::chain(&vec![(form, size); count], last);
                chains.push(payload.clone());
                payload.extend([0x17, 0x01]);
                chains.push(payload);
            }
        }
    }
    chains
}

/// As many layers as are peeled off, and one more.
pub fn long_chains() -> [Vec<u8>; 2] {
    [MOST_LAYERS, MOST_LAYERS + 1].map(|count| layers::chain(&vec![(Short, 1); count], 1))
}

/// A chain of every form and the long ones, each cut off at every byte.
fn truncated_chains() -> impl Iterator<Item = Vec<u8>> {
    let mixed = [(Short, 1), (Long, 1), (Short, 255), (Long, 256), (Short, 3)];
    let chains = iter::once(layers::chain(&mixed, 1)).chain(long_chains());
    chains.flat_map(layers::truncations)
}

/// One of each kind that matters to a mask or a frame type.
pub fn few_payloads() -> impl Iterator<Item = Vec<u8>> {
    let others: [&[u8]; 5] = [
        &[],
        &[0x17, 0x01],
        &[0x91, 0x01],
        &[0x97, 0x00, 0xAA, 0x01],
        &[0xD7, 0x00, 0xAA, 0x01, 0xBB],
    ];
    long_chains().into_iter().chain(others.map(<[u8]>::to_vec))
}

/// What the two functions answer.
#[derive(Debug, PartialEq)]
struct Answers {
    typed: Peeled,
    untyped: Peeled,
}

/// What one function answers, and the output afterwards, between two bytes that were not lent.
#[derive(Debug, PartialEq)]
pub struct Peeled {
    pub error: i32,
    length: usize,
    pub memory: Vec<u8>,
}

impl Answers {
    fn of_rust(frame: &Frame) -> Self {
        let untyped = normalize_modex_payload(&frame.payload, frame.mask);
        Self {
            typed: Peeled::of_result(frame, frame.result().as_deref()),
            untyped: Peeled::of_result(frame, Some(&untyped)),
        }
    }

    fn of_port(frame: &Frame) -> Self {
        let (payload, mask, number) = (&frame.payload, frame.mask, frame.frame_type);
        Self {
            typed: Peeled::of_port(frame, |output| {
                leaf::normalize_modex_payload_with_frame_type(payload, mask, number, output)
            }),
            untyped: Peeled::of_port(frame, |output| {
                leaf::normalize_modex_payload(payload, mask, output)
            }),
        }
    }
}

impl Peeled {
    /// The Rust's result, put into the output if it fits. The Rust has no frame type for a number
    /// above 3, and so no result: docs/REQUIREMENTS.md decides.
    pub fn of_result(frame: &Frame, result: Option<&[u8]>) -> Self {
        let Some(result) = result else {
            return Self::refused(frame, UNKNOWN_FRAME_TYPE);
        };
        if frame.room < result.len() {
            return Self::refused(frame, OUTPUT_TOO_SHORT);
        }
        let mut memory = frame.memory();
        memory[1..=result.len()].copy_from_slice(result);
        Self {
            error: 0,
            length: result.len(),
            memory,
        }
    }

    /// The output keeps its bytes.
    fn refused(frame: &Frame, error: i32) -> Self {
        Self {
            error,
            length: 0,
            memory: frame.memory(),
        }
    }

    fn of_port(frame: &Frame, call: impl FnOnce(&mut [u8]) -> LeafPeel) -> Self {
        let mut memory = frame.memory();
        let LeafPeel { error, length } = call(&mut memory[1..=frame.room]);
        Self {
            error,
            length,
            memory,
        }
    }
}

/// The class of a frame that has this error. The Rust copies what it peels and lends the rest.
pub fn class(frame: &Frame, error: i32) -> &'static str {
    match (frame.result(), error) {
        (None, _) => "unknown frame type",
        (Some(Cow::Owned(_)), 0) => peeled_class(&frame.payload),
        (Some(Cow::Owned(_)), _) => "output refused, peeled",
        (Some(Cow::Borrowed(_)), 0) => unpeeled_class(frame),
        (Some(Cow::Borrowed(_)), _) => "output refused, unpeeled",
    }
}

fn peeled_class(payload: &[u8]) -> &'static str {
    if chain_of(payload).any(|(pos, _)| payload[pos] == u8::MAX) {
        return "peeled, with a long size";
    }
    match chain_of(payload).count() {
        1 => "peeled, 1 layer",
        MOST_LAYERS => "peeled, 32 layers",
        _ => "peeled, 2 to 31 layers",
    }
}

fn unpeeled_class(frame: &Frame) -> &'static str {
    let Some(first) = frame.payload.first() else {
        return "empty";
    };
    if frame.mask & CAPS_EX_MASK_MODEX == 0 {
        "not capable"
    } else if first & 0x80 == 0 {
        "legacy byte"
    } else if first & 0x0F != MODEX {
        "other packet type"
    } else if frame.known_type() == Some(FrameType::Audio) && first >> 4 != 9 {
        "audio without nibble 9"
    } else if chain_of(&frame.payload).count() < MOST_LAYERS {
        "truncated chain"
    } else {
        "33 or more layers"
    }
}

/// The readable layers from byte 1 on, each with its place.
pub fn chain_of(payload: &[u8]) -> impl Iterator<Item = (usize, ModexLayer)> {
    let at = |pos| Some((pos, parse_modex_layer(payload, pos)?));
    iter::successors(at(1), move |(_, layer)| {
        if layer.next_packet_type == MODEX {
            at(layer.next_pos)
        } else {
            None
        }
    })
}
