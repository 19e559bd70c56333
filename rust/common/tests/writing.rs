//! What is asked of the writers, on one container and one chain of layers, each changed in one place
//! or two.

use common::writing::{Arguments, ContainerArguments, ModexArguments, Parts, error};

/// Room for whatever these calls write.
const ENOUGH: usize = 1 << 25;

const OPUS: u32 = 0x4F70_7573;

/// One byte, of which the parts are these.
fn parts(places: &[(usize, usize)]) -> Parts {
    Parts {
        starts: places.iter().map(|place| place.0).collect(),
        lengths: places.iter().map(|place| place.1).collect(),
        lent: vec![0xAA],
    }
}

/// It writes `95 11 4F 70 75 73 01 00 00 01 AA`.
fn container() -> ContainerArguments {
    ContainerArguments {
        frame_type: 0,
        video_frame_type: 1,
        form: 1,
        packet_type: 1,
        count: 1,
        ids: vec![1],
        fourccs: vec![OPUS],
        bodies: parts(&[(0, 1)]),
    }
}

const CONTAINER: &[u8] = b"\x95\x11Opus\x01\x00\x00\x01\xAA";

/// It writes `97 00 AA 11`.
fn modex() -> ModexArguments {
    ModexArguments {
        frame_type: 0,
        count: 1,
        types: vec![1],
        data: parts(&[(0, 1)]),
        payload: vec![0x91],
    }
}

/// What is written, or the error.
fn answer<A: Arguments>(call: &A, room: usize) -> Result<Vec<u8>, i32> {
    match error(&call.reasons(room)) {
        0 => Ok(call.written()),
        error => Err(error),
    }
}

/// What the container writes after a change.
fn with(change: impl FnOnce(&mut ContainerArguments)) -> Result<Vec<u8>, i32> {
    let mut call = container();
    change(&mut call);
    answer(&call, ENOUGH)
}

/// What the layers write after a change.
fn layers_with(change: impl FnOnce(&mut ModexArguments)) -> Result<Vec<u8>, i32> {
    let mut call = modex();
    change(&mut call);
    answer(&call, ENOUGH)
}

#[test]
fn one_of_each() {
    assert_eq!(with(|_| {}).as_deref(), Ok(CONTAINER));
    assert_eq!(layers_with(|_| {}).as_deref(), Ok(&b"\x97\x00\xAA\x11"[..]));
}

#[test]
fn numbers_are_judged_one_after_the_other_over_all_parts() {
    let two = layers_with(|call| {
        call.count = 2;
        call.types = vec![1, 1];
        call.data = parts(&[(0, 0), (0, 2)]);
    });
    assert_eq!(two, Err(-26));
}

#[test]
fn parts_that_leave() {
    let part = |place| with(|call| call.bodies = parts(&[place]));
    assert_eq!(part((usize::MAX, 2)), Err(-26));
    assert_eq!(part((2, 0)), Err(-26));
    assert_eq!(part((0, 16_777_216)), Err(-26));
    let empty = part((1, 0));
    assert_eq!(empty.as_deref(), Ok(&b"\x95\x11Opus\x01\x00\x00\x00"[..]));
    let data = |place| layers_with(|call| call.data = parts(&[place]));
    assert_eq!(data((0, 65_537)), Err(-26));
    assert_eq!(data((2, 0)), Err(-26));
    assert_eq!(data((1, 0)), Err(-27));
}

#[test]
fn columns_are_as_long_as_the_count_or_longer() {
    let two = |fourccs: &[u32]| {
        with(|call| {
            call.count = 2;
            call.ids = vec![1, 2];
            call.fourccs = fourccs.to_vec();
            call.bodies = parts(&[(0, 1), (0, 1)]);
        })
    };
    assert_eq!(two(&[OPUS]), Err(-26));
    let overlapping = b"\x95\x11Opus\x01\x00\x00\x01\xAA\x02\x00\x00\x01\xAA";
    assert_eq!(two(&[OPUS, OPUS]).as_deref(), Ok(&overlapping[..]));
    assert_eq!(two(&[OPUS, 0]), Err(-28));
    let behind = with(|call| call.fourccs.push(0));
    assert_eq!(behind.as_deref(), Ok(CONTAINER));
}

#[test]
fn numbers_of_tracks() {
    let counted = |form, count| {
        with(|call| {
            (call.form, call.count) = (form, count);
            call.ids = vec![1; count];
            call.fourccs = vec![OPUS; count];
            call.bodies = parts(&vec![(0, 1); count]);
        })
    };
    for form in 0..4 {
        assert_eq!(counted(form, 0), Err(-26));
        assert_eq!(counted(form, 1).is_ok(), form < 3);
        let most = if form == 0 { 1 } else { 4_096 };
        assert_eq!(counted(form, most).is_ok(), form < 3);
        assert_eq!(counted(form, most + 1), Err(-26));
    }
    assert_eq!(with(|call| call.count = 0), Err(-26));
}

#[test]
fn frame_types() {
    let typed = |frame_type, form| {
        with(|call| {
            call.frame_type = frame_type;
            call.form = form;
        })
    };
    assert_eq!(typed(2, 1), Err(-28));
    assert_eq!(typed(3, 1), Err(-28));
    assert_eq!(typed(2, 3), Err(-26));
    assert_eq!(typed(4, 3), Err(-21));
    let script = layers_with(|call| {
        call.frame_type = 2;
        call.payload = vec![0x80];
    });
    assert_eq!(script.as_deref(), Ok(&b"\x87\x00\xAA\x10"[..]));
}

#[test]
fn whole_numbers_are_judged() {
    assert_eq!(with(|call| call.packet_type = 17), Err(-28));
    assert_eq!(with(|call| call.form = 257), Err(-26));
    assert_eq!(with(|call| call.frame_type = 256), Err(-21));
    let video = |video_frame_type| {
        with(|call| {
            call.frame_type = 1;
            call.video_frame_type = video_frame_type;
        })
    };
    assert_eq!([5, 8, 9].map(video), [Err(-28), Err(-28), Err(-28)]);
    assert_eq!(video(7).map(|written| written[0]), Ok(0xF6));
    let audio = with(|call| call.video_frame_type = 5);
    assert_eq!(audio.as_deref(), Ok(CONTAINER));
    assert_eq!(layers_with(|call| call.types = vec![16]), Err(-28));
    let fourcc = with(|call| call.fourccs = vec![0]);
    assert_eq!(fourcc.map(|written| written[2..6].to_vec()), Ok(vec![0; 4]));
}

#[test]
fn containers_do_not_name_themselves() {
    let named = |frame_type, form, packet_type| {
        with(|call| {
            call.frame_type = frame_type;
            call.form = form;
            call.packet_type = packet_type;
        })
    };
    for form in 0..3 {
        for packet_type in 0..16 {
            let written = |frame_type| named(frame_type, form, packet_type).is_ok();
            assert_eq!(written(0), packet_type != 5, "{packet_type}");
            assert_eq!(written(1), packet_type != 6, "{packet_type}");
        }
    }
    assert_eq!(named(0, 1, 5), Err(-28));
    assert_eq!(named(1, 1, 6), Err(-28));
    let other = named(0, 1, 6);
    assert_eq!(
        other.as_deref(),
        Ok(&b"\x95\x16Opus\x01\x00\x00\x01\xAA"[..])
    );
}

#[test]
fn bodies_of_which_no_length_is_written() {
    let long = |form| {
        with(|call| {
            call.form = form;
            call.bodies.lent = vec![0xAA; 16_777_216];
            call.bodies.lengths = vec![16_777_216];
        })
    };
    assert_eq!(long(0).map(|written| written.len()), Ok(16_777_223));
    assert_eq!(long(1), Err(-27));
    assert_eq!(long(2), Err(-27));
}

#[test]
fn payloads_and_layers() {
    let payload = |frame_type, payload: &[u8]| {
        layers_with(|call| {
            call.frame_type = frame_type;
            call.payload = payload.to_vec();
        })
    };
    assert_eq!(payload(1, b"\x87"), Err(-28));
    assert_eq!(payload(1, b"\x11"), Err(-28));
    assert_eq!(payload(1, b""), Err(-28));
    assert_eq!(payload(0, b"\x81"), Err(-28));
    let two = layers_with(|call| {
        call.count = 2;
        call.types = vec![1, 2];
        call.data = Parts::default();
        call.data.push(b"\xAA");
        call.data.push(b"\xBB");
    });
    assert_eq!(two.as_deref(), Ok(&b"\x97\x00\xAA\x17\x00\xBB\x21"[..]));
    let offset = layers_with(|call| call.types = vec![0]);
    assert_eq!(offset.as_deref(), Ok(&b"\x97\x00\xAA\x01"[..]));
    let itself = payload(1, b"\x86\x06\0\0\0\0\0");
    assert_eq!(
        itself.as_deref(),
        Ok(&b"\x87\x00\xAA\x16\x06\0\0\0\0\0"[..])
    );
}

#[test]
fn sizes_and_numbers_of_layers() {
    let sized = |length| {
        layers_with(|call| {
            call.data = Parts::default();
            call.data.push(&vec![0xAA; length]);
        })
    };
    let size = |length, bytes: usize| sized(length).map(|written| written[1..=bytes].to_vec());
    assert_eq!(size(255, 1), Ok(b"\xFE".to_vec()));
    assert_eq!(size(256, 3), Ok(b"\xFF\x00\xFF".to_vec()));
    assert_eq!(size(65_536, 3), Ok(b"\xFF\xFF\xFF".to_vec()));
    assert_eq!(sized(65_537), Err(-27));
    let counted = |count| {
        layers_with(|call| {
            call.count = count;
            call.types = vec![1; count];
            call.data = parts(&vec![(0, 1); count]);
        })
    };
    assert_eq!(counted(0), Err(-26));
    assert_eq!(counted(32).map(|written| written.len()), Ok(97));
    assert_eq!(counted(33), Err(-26));
}

#[test]
fn the_output_is_judged_last() {
    assert_eq!(answer(&container(), 10), Err(-22));
    assert_eq!(answer(&container(), 11).as_deref(), Ok(CONTAINER));
    assert_eq!(answer(&modex(), 3), Err(-22));
    let mut script = container();
    script.frame_type = 2;
    assert_eq!(answer(&script, 0), Err(-28));
    let mut itself = container();
    itself.packet_type = 5;
    assert_eq!(answer(&itself, 0), Err(-28));
    itself.bodies = parts(&[(0, 2)]);
    assert_eq!(answer(&itself, 0), Err(-26));
}
