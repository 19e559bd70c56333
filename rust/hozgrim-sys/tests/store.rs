//! The entries of the store, as a caller sees them who lends record and buffers: every byte that is
//! kept, and records of any numbers. The frames are those of request N8's table; what late viewers
//! are sent after a history is in the tests of the package `hozgrim`.

use common::store_frames;
use hozgrim_sys::{HozgrimLate, HozgrimLengths, HozgrimStored, StoreCall, late, store_frame};

const AUDIO: u32 = 0;
const VIDEO: u32 = 1;

/// Frame type and payload.
type Frame = (u32, &'static [u8]);
const H: Frame = (VIDEO, store_frames::H);
const A: Frame = (AUDIO, store_frames::A);
const K: Frame = (VIDEO, store_frames::K);
const K2: Frame = (VIDEO, store_frames::K2);
const L: Frame = (VIDEO, store_frames::L);

/// What buffers are full of at first.
const FILLING: u8 = 0xEE;

/// What is lent for a store.
#[derive(Clone, Debug, PartialEq)]
struct Lent {
    lengths: HozgrimLengths,
    buffers: [Vec<u8>; 3],
}

impl Lent {
    /// An empty store with buffers of these lengths: video header, audio header, keyframe.
    fn new(rooms: [usize; 3]) -> Self {
        Self {
            lengths: HozgrimLengths::default(),
            buffers: rooms.map(|room| vec![FILLING; room]),
        }
    }

    fn offer(&mut self, (frame_type, payload): Frame, output: &mut [u8]) -> HozgrimStored {
        let call = StoreCall {
            frame_type,
            payload,
            caps_ex_mask: 4,
            route_has_video: 1,
        };
        let buffers = self.buffers.each_mut().map(Vec::as_mut_slice);
        store_frame(&mut self.lengths, &call, output, buffers)
    }

    /// The error, with an output that is long enough.
    fn keep(&mut self, frame: Frame) -> i32 {
        self.offer(frame, &mut [0; 16]).error
    }

    /// Everything that late viewers are asked about: the first numbers, and one that is far off.
    fn late(&self) -> [HozgrimLate; 5] {
        let buffers = self.buffers.each_ref().map(Vec::as_slice);
        [0, 1, 2, 3, usize::MAX].map(|number| late(self.lengths, buffers, number))
    }
}

fn lengths(video: usize, audio: usize, keyframe: usize) -> HozgrimLengths {
    HozgrimLengths {
        video,
        audio,
        keyframe,
    }
}

/// The answer of a number that is not below the count.
fn none_of(count: usize) -> HozgrimLate {
    HozgrimLate {
        count,
        length: 0,
        kind: 0,
    }
}

#[test]
fn bytes_behind_the_frame_are_kept() {
    let mut lent = Lent::new([8, 8, 8]);
    assert_eq!([H, A, K].map(|frame| lent.keep(frame)), [0; 3]);
    assert_eq!(lent.lengths, lengths(6, 4, 1));
    assert_eq!(lent.buffers[0], b"\x90vp09\x00\xEE\xEE");
    assert_eq!(lent.buffers[1], b"\xAF\x00\x12\x10\xEE\xEE\xEE\xEE");
    assert_eq!(lent.buffers[2], b"\x12\xEE\xEE\xEE\xEE\xEE\xEE\xEE");
}

#[test]
fn bytes_of_a_longer_frame_are_kept_behind_a_shorter_one() {
    let mut lent = Lent::new([8, 8, 3]);
    assert_eq!([K2, K].map(|frame| lent.keep(frame)), [0; 2]);
    assert_eq!(lent.lengths, lengths(0, 0, 1));
    assert_eq!(lent.buffers[2], b"\x12\xAA\xEE");
}

#[test]
fn a_slot_that_a_video_header_empties_keeps_its_bytes() {
    let mut lent = Lent::new([8, 8, 3]);
    assert_eq!([K2, H].map(|frame| lent.keep(frame)), [0; 2]);
    assert_eq!(lent.lengths, lengths(6, 0, 0));
    assert_eq!(lent.buffers[2], b"\x12\xAA\xEE");
}

#[test]
fn a_slot_that_is_too_short_is_empty_and_keeps_its_bytes() {
    let mut lent = Lent::new([5, 3, 1]);
    assert_eq!(lent.keep(K), 0);
    let before = lent.buffers.clone();
    assert_eq!([A, K2].map(|frame| lent.keep(frame)), [-31; 2]);
    assert_eq!(lent.lengths, lengths(0, 0, 0));
    assert_eq!(lent.keep(K), 0);
    assert_eq!(lent.keep(H), -31);
    assert_eq!(lent.lengths, lengths(0, 0, 0));
    assert_eq!(lent.buffers, before);
}

#[test]
fn a_frame_that_is_too_long_is_reported_and_written_to_the_output() {
    let mut lent = Lent::new([5, 8, 8]);
    let mut output = [FILLING; 8];
    let HozgrimStored { error, report } = lent.offer(H, &mut output);
    assert_eq!((error, report.error), (-31, 0));
    let said = (report.kind, report.hint, report.result_length);
    assert_eq!(said, (1, 0, 6));
    assert_eq!(output, *b"\x90vp09\x00\xEE\xEE");
}

#[test]
fn the_pass_is_judged_before_the_slot() {
    for (frame, room, error) in [((4, H.1), 8, -21), (H, 5, -22)] {
        let mut lent = Lent::new([5, 8, 8]);
        lent.keep(K);
        let before = lent.clone();
        let mut output = vec![FILLING; room];
        let stored = lent.offer(frame, &mut output);
        assert_eq!((stored.error, stored.report.error), (error, error));
        assert_eq!(lent, before);
        assert!(output.iter().all(|byte| *byte == FILLING));
    }
}

#[test]
fn late_frames_are_numbered_in_their_order() {
    let mut lent = Lent::new([8, 8, 8]);
    assert_eq!(lent.late(), [none_of(0); 5]);
    assert_eq!([K, A].map(|frame| lent.keep(frame)), [0; 2]);
    let of = |count, length, kind| HozgrimLate {
        count,
        length,
        kind,
    };
    let none = none_of(2);
    assert_eq!(lent.late(), [of(2, 4, 2), of(2, 1, 3), none, none, none]);
    // The header empties the keyframe.
    assert_eq!([H, K2].map(|frame| lent.keep(frame)), [0; 2]);
    let all = [of(3, 6, 1), of(3, 4, 2), of(3, 2, 3)];
    assert_eq!(
        lent.late(),
        [all[0], all[1], all[2], none_of(3), none_of(3)]
    );
}

#[test]
fn a_length_past_its_buffer_counts_as_empty_and_is_left_alone() {
    for past in [5, 9, usize::MAX] {
        let mut lent = Lent {
            lengths: lengths(0, past, 0),
            ..Lent::new([8, 4, 8])
        };
        assert_eq!(lent.late(), [none_of(0); 5]);
        let before = lent.clone();
        assert_eq!(lent.keep(L), 0);
        assert_eq!(lent, before);
        assert_eq!(lent.keep(K), 0);
        assert_eq!(lent.lengths, lengths(0, past, 1));
        assert_eq!(lent.late()[1..], [none_of(1); 4]);
        assert_eq!(lent.keep(A), 0);
        assert_eq!(lent.lengths, lengths(0, 4, 1));
    }
}

#[test]
fn a_length_that_fills_its_buffer_is_held() {
    let lent = Lent {
        lengths: lengths(0, 4, 0),
        ..Lent::new([0, 4, 0])
    };
    let [first, ..] = lent.late();
    assert_eq!((first.count, first.length, first.kind), (1, 4, 2));
}

#[test]
fn empty_slices_are_taken() {
    let mut lent = Lent::new([0; 3]);
    assert_eq!(lent.offer((AUDIO, b""), &mut []).error, 0);
    assert_eq!(
        [H, A, K, L].map(|frame| lent.keep(frame)),
        [-31, -31, -31, 0]
    );
    assert_eq!(lent.late(), [none_of(0); 5]);
}
