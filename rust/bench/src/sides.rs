//! What is measured beside each other.

use std::borrow::Cow;
use std::hint::black_box;

use oracle::types::CAPS_EX_MASK_MODEX;

use crate::frames::Frame;
use crate::original::{self, Said};
use crate::port::{self, HozgrimPlaced, HozgrimReport};

/// The route has video.
pub const ROUTE_HAS_VIDEO: u32 = 1;

/// Some work, on a frame if nothing else is said, whose payload stands in one buffer, with another
/// one to write to. An answer is kept where it was made: a copy of it would wait for the stores that
/// made it.
pub trait Side<W = Frame> {
    fn run(work: &W, payload: &mut [u8], output: &mut [u8]);
}

/// The original. Where it lends the payload back, that is copied to the output; where it peels, its
/// own copy is kept. Its time is that of the header: it looks at no offset while it peels.
pub struct Original;

impl Side for Original {
    fn run(frame: &Frame, payload: &mut [u8], output: &mut [u8]) {
        let result = original::peeled(frame.frame_type, payload);
        if let Cow::Borrowed(result) = result {
            output[..result.len()].copy_from_slice(result);
        }
        ask(frame, &result);
    }
}

fn ask(frame: &Frame, result: &[u8]) {
    let mut said = Said::nothing(frame.frame_type);
    said.ask(frame.frame_type, result, ROUTE_HAS_VIDEO != 0);
    black_box(&said);
}

/// The original where a payload that is not peeled need not be kept.
pub struct WithoutCopy;

impl Side for WithoutCopy {
    fn run(frame: &Frame, payload: &mut [u8], _: &mut [u8]) {
        ask(frame, &original::peeled(frame.frame_type, payload));
    }
}

/// The port's whole pass. It judges the offsets of layers before it peels them off, and its time has
/// the last one.
pub struct Port;

impl Side for Port {
    fn run(frame: &Frame, payload: &mut [u8], output: &mut [u8]) {
        black_box(&pass(frame, payload, output));
    }
}

pub fn pass(frame: &Frame, payload: &[u8], output: &mut [u8]) -> HozgrimReport {
    let number = frame.frame_type as u32;
    port::pass(number, payload, CAPS_EX_MASK_MODEX, ROUTE_HAS_VIDEO, output)
}

/// The port's whole pass without a copy. In a payload that is peeled it changes one byte, which is
/// put back here, so that every side finds the payload as it was received.
pub struct InPlace;

impl Side for InPlace {
    fn run(frame: &Frame, payload: &mut [u8], _: &mut [u8]) {
        let placed = pass_in_place(frame, payload);
        black_box(&placed);
        if placed.start > 0 {
            payload[placed.start] = frame.payload[placed.start];
        }
    }
}

pub fn pass_in_place(frame: &Frame, payload: &mut [u8]) -> HozgrimPlaced {
    let number = frame.frame_type as u32;
    port::pass_in_place(number, payload, CAPS_EX_MASK_MODEX, ROUTE_HAS_VIDEO)
}

/// A copy of the payload to the output, and nothing else.
pub struct BareCopy;

impl Side for BareCopy {
    fn run(_: &Frame, payload: &mut [u8], output: &mut [u8]) {
        output.copy_from_slice(payload);
    }
}
