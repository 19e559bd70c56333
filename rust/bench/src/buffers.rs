//! The buffers that payloads stand in and results are written to.

use std::hint::black_box;

use common::rng::Rng;

/// Buffers start at multiples of a cache line.
const LINE: usize = 64;

const PAGE: usize = 4_096;

/// How many bytes the buffers of a cold run have together. It is far more than an L2 cache holds.
pub const COLD_BYTES: usize = 32 << 20;

/// What the caches hold when a call begins.
#[derive(Clone, Copy)]
pub enum State {
    /// One payload and one output, used over and over.
    Warm,
    /// Many pairs of them, used in a mixed order.
    Cold,
}

impl State {
    pub const BOTH: [Self; 2] = [Self::Warm, Self::Cold];

    pub fn name(self) -> &'static str {
        match self {
            Self::Warm => "warm",
            Self::Cold => "cold",
        }
    }
}

/// Copies of one payload, each with an output, taken in turn.
pub struct Buffers {
    payloads: Memory,
    outputs: Memory,
    length: usize,
    /// The length of an output.
    room: usize,
    /// Where the buffers start, in the order in which they are taken.
    starts: Vec<usize>,
    turn: usize,
}

impl Buffers {
    /// With outputs as long as the payload.
    pub fn new(payload: &[u8], state: State) -> Self {
        Self::with_room(payload, payload.len(), state)
    }

    /// With outputs of so many bytes.
    pub fn with_room(payload: &[u8], room: usize, state: State) -> Self {
        let length = payload.len();
        let stride = length.max(room).max(1).next_multiple_of(LINE);
        let count = match state {
            State::Warm => 1,
            State::Cold => (COLD_BYTES / (2 * stride)).max(2),
        };
        let mut starts: Vec<usize> = (0..count).map(|number| number * stride).collect();
        mix(&mut starts);
        let mut payloads = Memory::new(count * stride, 0);
        for &start in &starts {
            payloads.part(start, length).copy_from_slice(payload);
        }
        Self {
            payloads,
            // Half a page off: no payload is read at the page offset of a store just made.
            outputs: Memory::new(count * stride, PAGE / 2),
            length,
            room,
            starts,
            turn: 0,
        }
    }

    /// The next payload and its output. The optimizer does not know which ones they are.
    #[inline]
    pub fn take(&mut self) -> (&mut [u8], &mut [u8]) {
        let start = black_box(self.starts[self.turn]);
        self.turn += 1;
        if self.turn == self.starts.len() {
            self.turn = 0;
        }
        (
            self.payloads.part(start, self.length),
            self.outputs.part(start, self.room),
        )
    }
}

/// Bytes that begin at a fixed place in a page.
struct Memory {
    bytes: Vec<u8>,
    from: usize,
}

impl Memory {
    /// Every byte is written once, so that its page is there.
    fn new(length: usize, place: usize) -> Self {
        let bytes = vec![0xA5; length + 2 * PAGE];
        let from = bytes.as_ptr().align_offset(PAGE) + place;
        Self { bytes, from }
    }

    #[inline]
    fn part(&mut self, start: usize, length: usize) -> &mut [u8] {
        let start = self.from + start;
        &mut self.bytes[start..start + length]
    }
}

/// Brings the numbers into a random order.
pub fn mix(numbers: &mut [usize]) {
    let mut rng = Rng::new(1);
    for end in (1..numbers.len()).rev() {
        numbers.swap(end, rng.below(end + 1));
    }
}
