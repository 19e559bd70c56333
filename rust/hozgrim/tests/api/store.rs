//! The store of one route: what late viewers are sent after a history. The frames are those of
//! request N8's table.

use std::error::Error;

use common::store_frames;
use hozgrim::CacheKind::{self, AudioSequenceHeader, LiveOnly, VideoKeyframe, VideoSequenceHeader};
use hozgrim::FrameType::{self, Audio, Video};
use hozgrim::{CAPS_EX_MODEX, Passed, Refusal, SlotSizes, SlotTooShort, Store, pass};

/// A frame type and a payload.
type Frame = (FrameType, &'static [u8]);

const H: Frame = (Video, store_frames::H);
const H2: Frame = (Video, store_frames::H2);
const W: Frame = (Video, store_frames::W);
const A: Frame = (Audio, store_frames::A);
const K: Frame = (Video, store_frames::K);
const K2: Frame = (Video, store_frames::K2);
const L: Frame = (Video, store_frames::L);

const ALL: [Frame; 7] = [H, H2, W, A, K, K2, L];

/// Room for each of them, and no more.
const EXACT: SlotSizes = SlotSizes {
    video: 6,
    audio: 4,
    keyframe: 2,
};

/// No room for K2.
const SHORT_KEYFRAME: SlotSizes = SlotSizes {
    keyframe: 1,
    ..EXACT
};

/// No room for H.
const SHORT_VIDEO: SlotSizes = SlotSizes { video: 5, ..EXACT };

fn offered(store: &mut Store, (frame_type, payload): Frame) -> Passed {
    let mut output = vec![0; payload.len()];
    let passed = store.offer(frame_type, payload, CAPS_EX_MODEX, true, &mut output);
    passed.expect("it is not refused")
}

/// An empty store with these slots, after these frames.
fn after(sizes: SlotSizes, frames: &[Frame]) -> Store {
    let mut store = Store::new(sizes);
    for frame in frames {
        let _ = offered(&mut store, *frame);
    }
    store
}

/// What late viewers are sent.
fn sent(store: &Store) -> Vec<(CacheKind, Vec<u8>)> {
    let late = store.late().map(|(kind, frame)| (kind, frame.to_vec()));
    late.collect()
}

/// After this history, late viewers are sent the payloads of these frames.
fn assert_sent(sizes: SlotSizes, history: &[Frame], expected: &[(CacheKind, Frame)]) {
    let payloads = expected
        .iter()
        .map(|(kind, (_, payload))| (*kind, payload.to_vec()));
    let payloads: Vec<_> = payloads.collect();
    assert_eq!(sent(&after(sizes, history)), payloads, "{history:02X?}");
}

fn too_short(kind: CacheKind, frame_len: usize, slot_len: usize) -> SlotTooShort {
    SlotTooShort {
        kind,
        frame_len,
        slot_len,
    }
}

#[test]
fn the_frames_of_the_table() {
    let kinds = [
        (H, VideoSequenceHeader, 6),
        (H2, VideoSequenceHeader, 6),
        (W, VideoSequenceHeader, 6),
        (A, AudioSequenceHeader, 4),
        (K, VideoKeyframe, 1),
        (K2, VideoKeyframe, 2),
        (L, LiveOnly, 1),
    ];
    for (frame, kind, length) in kinds {
        let Passed { report, kept } = offered(&mut Store::new(EXACT), frame);
        assert_eq!(
            (report.kind, report.result_len, kept),
            (kind, length, Ok(()))
        );
    }
}

#[test]
fn report_and_output_are_those_of_the_pass() {
    for (frame_type, payload) in ALL {
        for mask in [0, CAPS_EX_MODEX] {
            for has_video in [false, true] {
                for room in 0..payload.len() + 2 {
                    let mut outputs = [vec![0xEE; room], vec![0xEE; room]];
                    let [ours, theirs] = &mut outputs;
                    let expected = pass(frame_type, payload, mask, has_video, theirs);
                    let passed = Store::default().offer(frame_type, payload, mask, has_video, ours);
                    assert_eq!(passed.map(|passed| passed.report), expected);
                    assert_eq!(ours, theirs);
                }
            }
        }
    }
}

#[test]
fn nothing_is_held_before_the_first_frame() {
    for store in [Store::default(), Store::new(EXACT)] {
        assert!(store.is_empty());
        assert_eq!(store.late().next(), None);
    }
}

#[test]
fn the_last_frame_of_each_kind_is_held() {
    assert_sent(EXACT, &[H, H2], &[(VideoSequenceHeader, H2)]);
    assert_sent(EXACT, &[K2, K], &[(VideoKeyframe, K)]);
    assert_sent(EXACT, &[K, K2], &[(VideoKeyframe, K2)]);
    assert_sent(EXACT, &[A, A], &[(AudioSequenceHeader, A)]);
}

#[test]
fn frames_are_held_without_their_layers() {
    assert_sent(EXACT, &[W], &[(VideoSequenceHeader, H)]);
}

#[test]
fn a_frame_whose_layers_stay_is_not_kept() {
    let (frame_type, payload) = W;
    let mut store = Store::new(EXACT);
    let passed = store.offer(frame_type, payload, 0, true, &mut [0; 9]);
    assert_eq!(passed.map(|passed| passed.report.kind), Ok(LiveOnly));
    assert!(store.is_empty());
}

#[test]
fn a_frame_as_long_as_its_slot_fits_and_a_longer_one_does_not() {
    for (frame, kind, length) in [
        (H, VideoSequenceHeader, 6),
        (W, VideoSequenceHeader, 6),
        (A, AudioSequenceHeader, 4),
        (K2, VideoKeyframe, 2),
    ] {
        let room = |room| SlotSizes {
            video: room,
            audio: room,
            keyframe: room,
        };
        let mut store = Store::new(room(length));
        assert_eq!(offered(&mut store, frame).kept, Ok(()));
        assert_eq!(store.late().len(), 1);
        let mut store = Store::new(room(length - 1));
        let expected = too_short(kind, length, length - 1);
        assert_eq!(offered(&mut store, frame).kept, Err(expected));
        assert!(store.is_empty());
    }
}

#[test]
fn a_frame_that_is_too_long_is_still_to_be_relayed() {
    let (frame_type, payload) = H;
    let mut store = Store::new(SHORT_VIDEO);
    let mut output = [0xEE; 8];
    let Passed { report, kept } = store
        .offer(frame_type, payload, CAPS_EX_MODEX, true, &mut output)
        .expect("it is accepted");
    assert_eq!(kept, Err(too_short(VideoSequenceHeader, 6, 5)));
    assert_eq!(report.kind, VideoSequenceHeader);
    assert_eq!(report.result(&output), payload);
    assert_eq!(output[6..], [0xEE; 2]);
}

#[test]
fn a_frame_that_is_too_long_empties_its_slot() {
    assert_sent(SHORT_KEYFRAME, &[K, K2], &[]);
    assert_sent(SHORT_KEYFRAME, &[K2, K], &[(VideoKeyframe, K)]);
}

#[test]
fn a_frame_that_is_too_long_leaves_the_other_slots() {
    let headers = [(VideoSequenceHeader, H), (AudioSequenceHeader, A)];
    assert_sent(SHORT_KEYFRAME, &[H, A, K, K2], &headers);
    let sizes = SlotSizes { audio: 3, ..EXACT };
    let video = [(VideoSequenceHeader, H), (VideoKeyframe, K)];
    assert_sent(sizes, &[H, K, A], &video);
}

#[test]
fn a_video_header_empties_the_keyframe() {
    assert_sent(EXACT, &[K, H], &[(VideoSequenceHeader, H)]);
    assert_sent(EXACT, &[K, W], &[(VideoSequenceHeader, H)]);
    assert_sent(EXACT, &[H, K, H2], &[(VideoSequenceHeader, H2)]);
}

#[test]
fn a_video_header_that_is_the_same_as_before_empties_the_keyframe() {
    assert_sent(EXACT, &[H, K, H], &[(VideoSequenceHeader, H)]);
}

#[test]
fn a_video_header_that_is_too_long_empties_the_keyframe() {
    assert_sent(SHORT_VIDEO, &[K, H], &[]);
    assert_sent(SHORT_VIDEO, &[A, K, H], &[(AudioSequenceHeader, A)]);
}

#[test]
fn an_audio_header_leaves_the_keyframe() {
    let both = [(AudioSequenceHeader, A), (VideoKeyframe, K)];
    assert_sent(EXACT, &[K, A], &both);
    let none_of_audio = SlotSizes { audio: 3, ..EXACT };
    assert_sent(none_of_audio, &[K, A], &[(VideoKeyframe, K)]);
}

#[test]
fn a_keyframe_is_held_without_a_video_header() {
    assert_sent(EXACT, &[K], &[(VideoKeyframe, K)]);
}

#[test]
fn late_viewers_are_sent_video_header_audio_header_and_keyframe() {
    let all = [
        (VideoSequenceHeader, H),
        (AudioSequenceHeader, A),
        (VideoKeyframe, K),
    ];
    assert_sent(EXACT, &[H, A, K], &all);
    assert_sent(EXACT, &[A, H, K], &all);
    assert_sent(EXACT, &[H, K, A], &all);
}

#[test]
fn a_live_frame_changes_nothing() {
    for history in histories(2) {
        let mut store = after(EXACT, &history);
        let before = sent(&store);
        assert_eq!(offered(&mut store, L).kept, Ok(()));
        assert_eq!(sent(&store), before, "{history:02X?}");
    }
}

#[test]
fn a_frame_with_a_short_output_changes_nothing() {
    let (frame_type, payload) = H;
    for sizes in [EXACT, SHORT_VIDEO] {
        let mut store = after(sizes, &[A, K]);
        let before = sent(&store);
        let mut output = [0xEE; 5];
        let refused = store.offer(frame_type, payload, CAPS_EX_MODEX, true, &mut output);
        assert_eq!(refused, Err(Refusal::OutputTooShort));
        assert_eq!(output, [0xEE; 5]);
        assert_eq!(sent(&store), before);
    }
}

/// A video sequence header behind a layer whose offset has one byte.
#[test]
fn a_frame_with_a_refused_offset_changes_nothing() {
    let payload = b"\x97\x00\xAA\x00vp09\x00";
    let mut store = after(EXACT, &[H2, K]);
    let before = sent(&store);
    let refused = store.offer(Video, payload, CAPS_EX_MODEX, true, &mut [0; 9]);
    assert_eq!(refused, Err(Refusal::Protocol));
    assert_eq!(sent(&store), before);
}

#[test]
fn whether_the_route_has_video_decides_nothing() {
    for (frame_type, payload) in ALL {
        let [without, with] = [false, true].map(|has_video| {
            let mut store = Store::new(SHORT_KEYFRAME);
            let mut output = vec![0; payload.len()];
            let passed = store.offer(frame_type, payload, CAPS_EX_MODEX, has_video, &mut output);
            (passed.map(|passed| passed.kept), sent(&store))
        });
        assert_eq!(without, with, "{payload:02X?}");
    }
}

#[test]
fn slots_of_length_0_keep_nothing() {
    let sizes = SlotSizes {
        video: 0,
        audio: 0,
        keyframe: 0,
    };
    let mut store = Store::new(sizes);
    for (frame, kind, length) in [
        (H, VideoSequenceHeader, 6),
        (A, AudioSequenceHeader, 4),
        (K, VideoKeyframe, 1),
    ] {
        assert_eq!(
            offered(&mut store, frame).kept,
            Err(too_short(kind, length, 0))
        );
        assert!(store.is_empty());
    }
    assert_eq!(offered(&mut store, L).kept, Ok(()));
    let (frame_type, payload) = (Audio, b"");
    let passed = store.offer(frame_type, payload, CAPS_EX_MODEX, true, &mut []);
    assert_eq!(passed.map(|passed| passed.kept), Ok(Ok(())));
}

#[test]
fn a_cleared_store_is_an_empty_one() {
    for history in histories(2) {
        let mut store = after(EXACT, &[H, A, K]);
        store.clear();
        assert!(store.is_empty());
        for frame in &history {
            let _ = offered(&mut store, *frame);
        }
        assert_eq!(sent(&store), sent(&after(EXACT, &history)));
    }
}

#[test]
fn a_copy_of_a_store_goes_its_own_way() {
    let store = after(EXACT, &[H, K]);
    let mut copy = store.clone();
    let _ = offered(&mut copy, H2);
    assert_eq!(sent(&store).len(), 2);
    assert_eq!(sent(&copy), sent(&after(EXACT, &[H2])));
}

#[test]
fn late_frames_are_counted_and_are_the_memory_of_the_store() {
    let store = after(EXACT, &[H, A, K]);
    let mut late = store.late();
    for left in (0..3).rev() {
        assert_eq!(late.len(), left + 1);
        let (kind, frame) = late.next().expect("it is held");
        let (_, again) = store
            .late()
            .find(|(other, _)| *other == kind)
            .expect("as above");
        assert!(std::ptr::eq(frame, again));
    }
    assert_eq!((late.next(), late.next(), late.len()), (None, None, 0));
}

#[test]
fn a_slot_that_is_too_short_goes_where_errors_go() {
    let kept = |mut store: Store| -> Result<(), Box<dyn Error + Send + Sync>> {
        Ok(offered(&mut store, K2).kept?)
    };
    kept(Store::default()).expect("there is room");
    let error = kept(Store::new(SHORT_KEYFRAME)).expect_err("there is not");
    let words = "the video keyframe has 2 bytes, and its slot 1";
    assert_eq!(error.to_string(), words);
    assert_eq!(too_short(VideoKeyframe, 2, 1).number(), -31);
}

#[test]
fn debug_output_has_lengths_and_no_bytes() {
    let store = after(EXACT, &[H, K2]);
    let words = "Store {VideoSequenceHeader: 6, VideoKeyframe: 2}";
    assert_eq!(format!("{store:?}"), words);
    assert_eq!(format!("{:?}", Store::default()), "Store {}");
}

/// Every sequence of up to so many frames of the table.
fn histories(most: usize) -> Vec<Vec<Frame>> {
    let mut all = vec![vec![]];
    let mut from = 0;
    for _ in 0..most {
        let until = all.len();
        for at in from..until {
            all.extend(ALL.map(|frame| [&all[at][..], &[frame]].concat()));
        }
        from = until;
    }
    all
}

/// The kind of a frame, and what it is without its layers; by the table.
fn by_the_table(frame: Frame) -> (CacheKind, &'static [u8]) {
    match frame {
        W => (VideoSequenceHeader, H.1),
        H | H2 => (VideoSequenceHeader, frame.1),
        A => (AudioSequenceHeader, frame.1),
        K | K2 => (VideoKeyframe, frame.1),
        _ => (LiveOnly, frame.1),
    }
}

/// What the history says of a slot: the last frame that decides about it is held, if it is of the
/// slot's kind and has room. A video header decides about the keyframe too.
fn said(history: &[Frame], kind: CacheKind, room: usize) -> Option<(CacheKind, Vec<u8>)> {
    let frames = history.iter().map(|frame| by_the_table(*frame));
    let mut deciding =
        frames.filter(|(of, _)| *of == kind || (kind, *of) == (VideoKeyframe, VideoSequenceHeader));
    let (last, result) = deciding.next_back()?;
    (last == kind && result.len() <= room).then(|| (kind, result.to_vec()))
}

#[test]
fn every_short_history_is_followed() {
    let histories = histories(4);
    assert_eq!(histories.len(), 1 + 7 + 49 + 343 + 2_401);
    for sizes in [
        EXACT,
        SHORT_VIDEO,
        SHORT_KEYFRAME,
        SlotSizes { audio: 3, ..EXACT },
        SlotSizes::default(),
    ] {
        for history in &histories {
            let expected = [
                said(history, VideoSequenceHeader, sizes.video),
                said(history, AudioSequenceHeader, sizes.audio),
                said(history, VideoKeyframe, sizes.keyframe),
            ];
            let expected: Vec<_> = expected.into_iter().flatten().collect();
            let store = after(sizes, history);
            assert_eq!(sent(&store), expected, "{sizes:?} {history:02X?}");
        }
    }
}
