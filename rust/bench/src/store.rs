//! Frames that are offered to a store, beside the whole pass on the same frames.

use std::hint::black_box;

use oracle::types::CAPS_EX_MASK_MODEX;

use crate::agreement::agreed_report;
use crate::buffers::{Buffers, State};
use crate::frames::{self, Frame};
use crate::page::{grouped, nanoseconds};
use crate::port::{HozgrimLengths, HozgrimStored, StoreCall, store_frame};
use crate::sides::{ROUTE_HAS_VIDEO, Side, pass};
use crate::targets::Measured;
use crate::timing::{Batch, Plan, batch, measure};

/// Slots start at multiples of a cache line, as outputs do.
const LINE: usize = 64;

/// What outputs and slots are full of before they are written to.
const FILLING: u8 = 0xA5;

/// A frame, and the slot that is as long as it is. The other slots are empty.
pub struct Offered {
    frame: Frame,
    /// The cache kind.
    kind: u32,
    /// Where the slot stands behind the output.
    slot: usize,
}

/// What is lent beside a payload. Every side makes it, so that sides differ in their calls alone.
struct Lent<'a> {
    lengths: HozgrimLengths,
    output: &'a mut [u8],
    slots: [&'a mut [u8]; 3],
}

impl Offered {
    pub fn all() -> Vec<Self> {
        frames::offered().map(Self::new).into()
    }

    /// The store must report what the pass does, and hold the frame if it is kept, and else nothing.
    fn new(frame: Frame) -> Self {
        let report = agreed_report(&frame);
        let offered = Self {
            kind: report.kind,
            slot: frame.payload.len().next_multiple_of(LINE),
            frame,
        };
        let payload = &offered.frame.payload[..];
        let mut room = vec![FILLING; offered.room()];
        let mut lent = offered.lent(&mut room);
        let stored = offered.store(payload, &mut lent);
        assert_eq!(stored, HozgrimStored { error: 0, report });
        assert_eq!(lent.output, payload, "{}", offered.frame.name);
        let (length, held) = match offered.is_kept() {
            true => (payload.len(), payload.to_vec()),
            false => (0, vec![FILLING; payload.len()]),
        };
        assert_eq!(lent.slots.concat(), held, "{}", offered.frame.name);
        let HozgrimLengths {
            video,
            audio,
            keyframe,
        } = lent.lengths;
        assert_eq!(video + audio + keyframe, length, "{}", offered.frame.name);
        offered
    }

    fn is_kept(&self) -> bool {
        self.kind != 0
    }

    /// How long output and slot are together.
    fn room(&self) -> usize {
        self.slot + self.frame.payload.len()
    }

    #[inline]
    fn lent<'a>(&self, room: &'a mut [u8]) -> Lent<'a> {
        let (output, slot) = room.split_at_mut(self.slot);
        let none = || Default::default();
        Lent {
            lengths: HozgrimLengths::default(),
            output: &mut output[..self.frame.payload.len()],
            slots: match self.kind {
                2 => [none(), slot, none()],
                3 => [none(), none(), slot],
                _ => [slot, none(), none()],
            },
        }
    }

    #[inline]
    fn store(&self, payload: &[u8], lent: &mut Lent) -> HozgrimStored {
        let call = StoreCall {
            frame_type: self.frame.frame_type as u32,
            payload,
            caps_ex_mask: CAPS_EX_MASK_MODEX,
            route_has_video: ROUTE_HAS_VIDEO,
        };
        let slots = lent.slots.each_mut().map(|slot| &mut **slot);
        store_frame(&mut lent.lengths, &call, lent.output, slots)
    }

    pub fn measured(&self, plan: Plan, state: State) -> Row {
        let sides: [Batch<Self>; 3] = [batch::<Pass, _>, batch::<Store, _>, batch::<CopyToSlot, _>];
        let buffers = Buffers::with_room(&self.frame.payload, self.room(), state);
        let costs = measure(plan, self, buffers, sides);
        let [pass, store, copy] = costs.map(|cost| cost.median);
        Row {
            name: self.frame.name.clone(),
            state,
            bytes: self.frame.payload.len(),
            is_kept: self.is_kept(),
            pass,
            store,
            copy,
        }
    }
}

/// The port's whole pass.
struct Pass;

impl Side<Offered> for Pass {
    fn run(offered: &Offered, payload: &mut [u8], room: &mut [u8]) {
        let lent = &mut offered.lent(room);
        black_box(&mut *lent);
        black_box(&pass(&offered.frame, payload, lent.output));
    }
}

/// The port's whole pass, and then its store.
struct Store;

impl Side<Offered> for Store {
    fn run(offered: &Offered, payload: &mut [u8], room: &mut [u8]) {
        let lent = &mut offered.lent(room);
        black_box(&mut *lent);
        black_box(&offered.store(payload, lent));
    }
}

/// A copy of the payload to the slot, and nothing else.
struct CopyToSlot;

impl Side<Offered> for CopyToSlot {
    fn run(offered: &Offered, payload: &mut [u8], room: &mut [u8]) {
        room[offered.slot..].copy_from_slice(payload);
    }
}

/// What a frame costs by each side, in nanoseconds.
pub struct Row {
    name: String,
    state: State,
    bytes: usize,
    pub is_kept: bool,
    pass: f64,
    store: f64,
    copy: f64,
}

impl Row {
    /// The heads of `cells`.
    pub const HEADS: [&str; 7] = [
        "frame",
        "bytes",
        "kept",
        "pass",
        "store",
        "store - pass",
        "bare copy",
    ];

    /// How much more than the pass the store costs.
    pub fn more(&self) -> f64 {
        self.store - self.pass
    }

    pub fn cells(&self) -> Vec<String> {
        vec![
            self.name.clone(),
            grouped(self.bytes),
            if self.is_kept { "yes" } else { "no" }.into(),
            nanoseconds(self.pass),
            nanoseconds(self.store),
            nanoseconds(self.more()),
            nanoseconds(self.copy),
        ]
    }
}

impl Measured for Row {
    fn name(&self) -> &str {
        &self.name
    }

    fn state(&self) -> State {
        self.state
    }
}

#[cfg(test)]
mod tests {
    use super::*;

    #[test]
    fn every_frame_that_is_offered_is_agreed_on() {
        let kinds = Offered::all().into_iter().map(|offered| offered.kind);
        assert_eq!(kinds.collect::<Vec<_>>(), [0, 0, 0, 1, 3, 3]);
    }
}
