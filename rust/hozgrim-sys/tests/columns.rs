//! The entries of tracks in columns, as a caller sees them who lends columns of any numbers. What a
//! walk leaves and how it is read is in the tests of the package `hozgrim`, whose types have no
//! other columns.

use hozgrim_sys::{
    ColumnsCall, ColumnsMut, HozgrimColumns, HozgrimTrack, column_track, track, walk_columns,
};

const AUDIO: u32 = 0;
const VIDEO: u32 = 1;

/// A track without bytes.
const ONE: &[u8] = b"\x95\x01Opus\x07";

/// Columns of one track, which is no part of any container.
const FOREIGN: ColumnsCall = ColumnsCall {
    frame_type: AUDIO,
    count: 1,
    ids: &[7],
    fourccs: &[0x4142_4344],
    starts: &[0],
    lengths: &[1],
    payload: b"\x00\x00",
};

/// The answer of a number that no track is read for.
fn none_of(count: usize) -> HozgrimTrack {
    HozgrimTrack {
        error: -23,
        count,
        ..HozgrimTrack::default()
    }
}

#[test]
fn the_walk_is_refused_in_this_order_beside_a_count_of_0() {
    for (frame_type, payload, error) in [
        (4, ONE, -21),
        (u32::MAX, b"", -21),
        (AUDIO, b"\x95\x31Opus\x07", -24),
        (AUDIO, b"\x95\x05Opus\x07", -24),
        (VIDEO, ONE, -24),
        (2, ONE, -24),
        (3, ONE, -24),
        (AUDIO, ONE, -22),
    ] {
        let walked = walk_columns(frame_type, payload, ColumnsMut::default());
        assert_eq!(walked, HozgrimColumns { error, count: 0 }, "{payload:02X?}");
    }
}

#[test]
fn one_column_that_is_short_is_enough() {
    for short in 0..5 {
        let room = |column| usize::from(column != short);
        let (mut ids, mut fourccs) = ([0xA5; 1], [0xA5; 1]);
        let (mut starts, mut lengths) = ([0xA5; 1], [0xA5; 1]);
        let columns = ColumnsMut {
            ids: &mut ids[..room(0)],
            fourccs: &mut fourccs[..room(1)],
            starts: &mut starts[..room(2)],
            lengths: &mut lengths[..room(3)],
        };
        let walked = walk_columns(AUDIO, ONE, columns);
        if short < 4 {
            let refused = HozgrimColumns {
                error: -22,
                count: 0,
            };
            assert_eq!(walked, refused);
            assert_eq!((ids, fourccs), ([0xA5], [0xA5]));
            assert_eq!((starts, lengths), ([0xA5], [0xA5]));
        } else {
            assert_eq!(walked, HozgrimColumns { error: 0, count: 1 });
            assert_eq!((ids, fourccs), ([7], [0x4F70_7573]));
            assert_eq!((starts, lengths), ([7], [0]));
        }
    }
}

#[test]
fn what_columns_say_is_read_whatever_the_payload_is() {
    let expected = HozgrimTrack {
        fourcc: 0x4142_4344,
        count: 1,
        length: 1,
        track_id: 7,
        // Packet type 0: the body is a record, as in a container of the same body.
        verdict: track(AUDIO, b"\x95\x00ABCD\x07\x00", 0).verdict,
        ..HozgrimTrack::default()
    };
    assert_ne!(expected.verdict, 0);
    assert_eq!(column_track(&FOREIGN, 0), expected);
    // Columns that a container does not have are believed too.
    let altered = ColumnsCall {
        ids: &[9],
        starts: &[2],
        lengths: &[4],
        payload: ONE,
        ..FOREIGN
    };
    let read = column_track(&altered, 0);
    assert_eq!((read.error, read.track_id), (0, 9));
    assert_eq!((read.start, read.length), (2, 4));
    assert_eq!(track(AUDIO, ONE, 0).track_id, 7);
}

#[test]
fn bytes_0_and_1_say_the_rest() {
    let call = |frame_type| ColumnsCall {
        frame_type,
        payload: b"\xF6\x2F",
        ..FOREIGN
    };
    for (frame_type, video_frame_type) in [(0, 0), (VIDEO, 7), (2, 0), (3, 0)] {
        let read = column_track(&call(frame_type), 0);
        assert_eq!((read.error, read.count, read.packet_type), (0, 1, 15));
        assert_eq!(read.video_frame_type, video_frame_type);
        assert_eq!(read.verdict, 0);
    }
    // Packet type 0 has no record in script data and metadata.
    for frame_type in [2, 3] {
        let call = ColumnsCall {
            frame_type,
            ..FOREIGN
        };
        assert_eq!(column_track(&call, 0).verdict, 0);
    }
}

#[test]
fn an_unknown_frame_type_has_no_count() {
    for frame_type in [4, 256, u32::MAX] {
        let call = ColumnsCall {
            frame_type,
            ..FOREIGN
        };
        let refused = HozgrimTrack {
            error: -21,
            ..HozgrimTrack::default()
        };
        for number in [0, 1, usize::MAX] {
            assert_eq!(column_track(&call, number), refused);
        }
    }
}

#[test]
fn the_count_that_was_lent_stands_beside_the_refusal() {
    for count in [0, 1, 77, 4_097, usize::MAX] {
        let call = ColumnsCall { count, ..FOREIGN };
        for number in [1, 5, usize::MAX] {
            assert_eq!(column_track(&call, number), none_of(count));
        }
        let first = column_track(&call, 0);
        assert_eq!(
            (first.error, first.count),
            (if count > 0 { 0 } else { -23 }, count)
        );
    }
}

#[test]
fn every_column_needs_the_entry() {
    let whole = ColumnsCall {
        count: 2,
        ids: &[7, 8],
        fourccs: &[0; 2],
        starts: &[0; 2],
        lengths: &[0; 2],
        ..FOREIGN
    };
    assert_eq!(column_track(&whole, 1).track_id, 8);
    let short = [
        ColumnsCall { ids: &[7], ..whole },
        ColumnsCall {
            fourccs: &[0],
            ..whole
        },
        ColumnsCall {
            starts: &[0],
            ..whole
        },
        ColumnsCall {
            lengths: &[0],
            ..whole
        },
    ];
    for call in short {
        assert_eq!(column_track(&call, 0).error, 0);
        assert_eq!(column_track(&call, 1), none_of(2));
    }
}

#[test]
fn a_body_lies_within_the_payload() {
    const TOP: usize = usize::MAX;
    const HALF: usize = 1 << 63;
    for (start, length, is_inside) in [
        (0, 0, true),
        (0, 2, true),
        (1, 1, true),
        (2, 0, true),
        (0, 3, false),
        (1, 2, false),
        (2, 1, false),
        (3, 0, false),
        (TOP, 0, false),
        (0, TOP, false),
        // Sums that are 0, 1 and 2 where 64 bits wrap.
        (HALF, HALF, false),
        (TOP, 1, false),
        (TOP, 2, false),
        (2, TOP, false),
        (3, TOP, false),
    ] {
        let call = ColumnsCall {
            starts: &[start],
            lengths: &[length],
            ..FOREIGN
        };
        let read = column_track(&call, 0);
        if is_inside {
            assert_eq!((read.error, read.start, read.length), (0, start, length));
        } else {
            assert_eq!(read, none_of(1), "{start} {length}");
        }
    }
}

#[test]
fn a_payload_under_2_bytes_has_no_track() {
    for payload in [&b""[..], b"\x95"] {
        let call = ColumnsCall {
            starts: &[0],
            lengths: &[0],
            payload,
            ..FOREIGN
        };
        assert_eq!(column_track(&call, 0), none_of(1));
    }
}

#[test]
fn a_payload_that_is_too_long_to_be_walked_is_read() {
    let payload = vec![1; 16_777_216];
    let call = ColumnsCall {
        starts: &[16_777_216],
        lengths: &[0],
        payload: &payload,
        ..FOREIGN
    };
    let read = column_track(&call, 0);
    assert_eq!((read.error, read.start, read.length), (0, 16_777_216, 0));
}

#[test]
fn empty_slices_are_taken() {
    let none = ColumnsCall::default();
    assert_eq!(column_track(&none, 0), none_of(0));
    let walked = walk_columns(AUDIO, &[], ColumnsMut::default());
    assert_eq!(walked.error, -24);
}
