//! What the writers write, how long it is, what they refuse, and what they leave alone.

use std::iter;

use common::rng::Rng;
use hozgrim::FrameType::{Audio, Metadata, Script, Video};
use hozgrim::{
    AudioPacketType, CAPS_EX_MODEX, ContainerHead, Form, FourCc, LayerColumns, ModexType, NewLayer,
    NewTrack, PacketType, Refusal, Track, TrackColumns, VideoFrameType, VideoPacketType, pass,
    tracks, write_container, write_modex,
};

use crate::in_place::agreed;
use crate::times::{new_layers, offset, random_layers};
use crate::{peeled, unpeeled};

const FORMS: [Form; 3] = [Form::OneTrack, Form::ManyTracks, Form::ManyTracksManyCodecs];

/// Of an audio container of coded frames.
fn audio(form: Form) -> ContainerHead {
    ContainerHead::Audio {
        form,
        packet_type: AudioPacketType::CODED_FRAMES,
    }
}

/// Of a video container that starts a sequence.
fn video(form: Form, video_frame_type: u8) -> ContainerHead {
    ContainerHead::Video {
        form,
        packet_type: VideoPacketType::SEQUENCE_START,
        video_frame_type: video_frame_type.into(),
    }
}

fn new_track(id: u8, payload: &[u8]) -> NewTrack<'_> {
    NewTrack {
        id,
        fourcc: FourCc::OPUS,
        payload,
    }
}

fn new_layer(modex_type: u8, data: &[u8]) -> NewLayer<'_> {
    NewLayer {
        modex_type: modex_type.into(),
        data,
    }
}

/// Two tracks of one and two bytes.
const COLUMNS: TrackColumns = TrackColumns {
    ids: &[1, 2],
    fourccs: &[FourCc::OPUS.number(); 2],
    starts: &[0, 1],
    lengths: &[1, 2],
    bodies: b"\xAA\xBB\xCC",
};

/// Two layers of one and two bytes.
const LAYERS: LayerColumns = LayerColumns {
    types: &[1, 2],
    starts: &[0, 1],
    lengths: &[1, 2],
    data: b"\xAA\xBB\xCC",
};

const PAYLOAD: &[u8] = b"\x91Opus\xDD";

#[test]
fn containers_of_each_form() {
    let one = [new_track(7, b"\xAA\xBB")];
    let container = write_container(audio(Form::OneTrack), one);
    assert_eq!(container.as_deref(), Ok(&b"\x95\x01Opus\x07\xAA\xBB"[..]));

    let many = [new_track(1, b"\xAA"), new_track(2, b"")];
    let container = write_container(audio(Form::ManyTracks), &many);
    let expected = b"\x95\x11Opus\x01\x00\x00\x01\xAA\x02\x00\x00\x00";
    assert_eq!(container.as_deref(), Ok(&expected[..]));

    let codecs = [FourCc::AVC1, FourCc::HVC1].map(|fourcc| NewTrack {
        fourcc,
        ..new_track(3, b"\xCC")
    });
    let container = write_container(video(Form::ManyTracksManyCodecs, 2), codecs);
    let expected = b"\xA6\x20avc1\x03\x00\x00\x01\xCChvc1\x03\x00\x00\x01\xCC";
    assert_eq!(container.as_deref(), Ok(&expected[..]));
}

#[test]
fn what_a_head_says() {
    let head = audio(Form::OneTrack);
    assert_eq!((head.frame_type(), head.form()), (Audio, Form::OneTrack));
    let coded = PacketType::Audio(AudioPacketType::CODED_FRAMES);
    assert_eq!(head.packet_type(), coded);
    assert_eq!(head.video_frame_type(), None);
    let head = video(Form::ManyTracks, 1);
    assert_eq!((head.frame_type(), head.form()), (Video, Form::ManyTracks));
    let start = PacketType::Video(VideoPacketType::SEQUENCE_START);
    assert_eq!(head.packet_type(), start);
    assert_eq!(head.video_frame_type(), Some(VideoFrameType::KEY));
}

#[test]
fn what_is_written_is_read_back() {
    let mut rng = Rng::new(1);
    for _ in 0..20_000 {
        let form = *rng.pick(&FORMS);
        let count = match form {
            Form::OneTrack => 1,
            _ => 1 + rng.below(5),
        };
        let bodies: Vec<Vec<u8>> = (0..count).map(|_| random_bytes(&mut rng, 0)).collect();
        let new: Vec<NewTrack> = bodies
            .iter()
            .map(|payload| NewTrack {
                id: rng.byte(),
                fourcc: match form {
                    Form::ManyTracks => FourCc::AVC1,
                    _ => FourCc::from_number(rng.number() as u32),
                },
                payload,
            })
            .collect();
        let head = random_head(&mut rng, form);
        let container = write_container(head, &new).expect("it can be written");
        let read = tracks(head.frame_type(), &container).expect("it is a container");
        let same = |track: &Track| {
            track.packet_type == head.packet_type()
                && track.video_frame_type == head.video_frame_type()
        };
        assert!(read.clone().all(|track| same(&track)), "{container:02X?}");
        assert!(read.clone().map(NewTrack::from).eq(new.iter().copied()));
        assert_eq!(write_container(head, read), Ok(container));
    }
}

fn random_head(rng: &mut Rng, form: Form) -> ContainerHead {
    if rng.one_in(2) {
        return ContainerHead::Audio {
            form,
            packet_type: random_packet_type(rng, AudioPacketType::MULTITRACK.number()).into(),
        };
    }
    ContainerHead::Video {
        form,
        packet_type: random_packet_type(rng, VideoPacketType::MULTITRACK.number()).into(),
        video_frame_type: (*rng.pick(&[0, 1, 2, 3, 4, 6, 7])).into(),
    }
}

/// Any but the container's own.
fn random_packet_type(rng: &mut Rng, own: u8) -> u8 {
    let number = rng.below(15) as u8;
    number + u8::from(number >= own)
}

/// Mostly a few, from `least` on.
fn random_bytes(rng: &mut Rng, least: usize) -> Vec<u8> {
    let length = match rng.below(64) {
        0 => 250 + rng.below(12),
        _ => least + rng.below(5),
    };
    rng.bytes(length)
}

#[test]
fn layers_are_peeled_off_again() {
    let mut rng = Rng::new(1);
    for _ in 0..20_000 {
        let frame_type = *rng.pick(&[Audio, Video, Script, Metadata]);
        let layers = random_layers(&mut rng);
        let layers = new_layers(&layers);
        let mut payload = random_bytes(&mut rng, 1);
        payload[0] = 0x90 | rng.below(7) as u8;
        let written = write_modex(frame_type, &layers, &payload).expect("it can be written");
        unpeeled(frame_type, &written, true);
        if let Some(offset) = offset(&layers) {
            let (report, result) = peeled(frame_type, &written);
            assert_eq!(result, payload);
            let mut alone = unpeeled(frame_type, &payload, true);
            let time = alone.composition_time.nanoseconds() + i64::from(offset);
            alone.composition_time = time.into();
            assert_eq!(report, alone);
        } else {
            let mut output = vec![0; written.len()];
            let refused = pass(frame_type, &written, CAPS_EX_MODEX, true, &mut output);
            assert_eq!(refused, Err(Refusal::Protocol));
            let refused = agreed(frame_type, &written, CAPS_EX_MODEX, true);
            assert_eq!(refused, Err(Refusal::Protocol));
        }
    }
}

#[test]
fn the_outermost_layer_is_first() {
    let layers = [new_layer(1, b"\xAA"), new_layer(2, b"\xBB")];
    let written = write_modex(Audio, layers, b"\x91");
    assert_eq!(written.as_deref(), Ok(&b"\x97\x00\xAA\x17\x00\xBB\x21"[..]));
    let offset = NewLayer {
        modex_type: ModexType::TIMESTAMP_OFFSET_NANO,
        data: b"\xAA",
    };
    let written = write_modex(Audio, [offset], b"\x91");
    assert_eq!(written.as_deref(), Ok(&b"\x97\x00\xAA\x01"[..]));
}

#[test]
fn sizes_of_layers() {
    for (length, size, longer) in [
        (1, &b"\x00"[..], 2),
        (255, b"\xFE", 2),
        (256, b"\xFF\x00\xFF", 4),
        (65_536, b"\xFF\xFF\xFF", 4),
    ] {
        let data = vec![0x5A; length];
        let written = write_modex(Video, [new_layer(3, &data)], PAYLOAD).expect("it is written");
        let expected = [b"\x97", size, &data, b"\x31", &PAYLOAD[1..]].concat();
        assert_eq!(written, expected);
        assert_eq!(written.len(), PAYLOAD.len() + length + longer);
    }
}

#[test]
fn an_output_of_the_exact_length_is_long_enough() {
    for (form, length) in [(Form::ManyTracks, 17), (Form::ManyTracksManyCodecs, 21)] {
        assert_eq!(COLUMNS.container_len(form), length);
        keeps_what_is_behind(length, |output| {
            COLUMNS.write_container(audio(form), output)
        });
    }
    let one = TrackColumns {
        ids: &[1],
        ..COLUMNS
    };
    assert_eq!(one.container_len(Form::OneTrack), 8);
    keeps_what_is_behind(8, |output| {
        one.write_container(audio(Form::OneTrack), output)
    });
    let length = LAYERS.modex_len(PAYLOAD);
    assert_eq!(length, 3 + 4 + PAYLOAD.len());
    keeps_what_is_behind(length, |output| LAYERS.write_modex(Audio, PAYLOAD, output));
    let one = LayerColumns {
        types: &[1],
        ..LAYERS
    };
    assert_eq!(one.modex_len(PAYLOAD), 3 + PAYLOAD.len());
    keeps_what_is_behind(3 + PAYLOAD.len(), |output| {
        one.write_modex(Audio, PAYLOAD, output)
    });
}

/// With outputs that are too short, exactly long enough, and longer.
pub fn keeps_what_is_behind(length: usize, write: impl Fn(&mut [u8]) -> Result<usize, Refusal>) {
    for room in 0..length + 3 {
        let mut output: Vec<u8> = (0..room as u8).collect();
        let (answer, kept) = if room < length {
            (Err(Refusal::OutputTooShort), 0)
        } else {
            (Ok(length), length)
        };
        assert_eq!(write(&mut output), answer);
        let behind = output.into_iter().skip(kept);
        assert!(behind.eq(kept as u8..room as u8));
    }
}

#[test]
fn lengths_that_no_memory_holds() {
    let columns = TrackColumns {
        lengths: &[usize::MAX, 1],
        ..COLUMNS
    };
    assert_eq!(columns.container_len(Form::ManyTracks), usize::MAX);
    let layers = LayerColumns {
        lengths: &[usize::MAX, 1],
        ..LAYERS
    };
    assert_eq!(layers.modex_len(PAYLOAD), usize::MAX);
}

#[test]
fn numbers_of_tracks_and_layers() {
    let none: [NewTrack; 0] = [];
    let many = |count| iter::repeat_n(new_track(1, b""), count);
    let forms = [Form::ManyTracks, Form::ManyTracksManyCodecs];
    for form in FORMS {
        let refused = write_container(audio(form), none);
        assert_eq!(refused, Err(Refusal::OutOfBounds));
    }
    for form in forms {
        let most = write_container(audio(form), many(4_096)).expect("it is written");
        assert_eq!(tracks(Audio, &most).map(Iterator::count), Ok(4_096));
        let refused = write_container(audio(form), many(4_097));
        assert_eq!(refused, Err(Refusal::OutOfBounds));
    }
    let two = write_container(audio(Form::OneTrack), many(2));
    assert_eq!(two, Err(Refusal::OutOfBounds));
    let layers = |count| write_modex(Audio, iter::repeat_n(new_layer(1, b"\xAA"), count), PAYLOAD);
    assert_eq!(layers(0), Err(Refusal::OutOfBounds));
    assert_eq!(
        peeled(Audio, &layers(32).expect("it is written")).1,
        PAYLOAD
    );
    assert_eq!(layers(33), Err(Refusal::OutOfBounds));
}

#[test]
fn columns_and_parts_out_of_bounds() {
    let write =
        |columns: TrackColumns| columns.write_container(audio(Form::ManyTracks), &mut [0; 64]);
    let places: [(&[usize], &[usize]); 6] = [
        (&[0], &[1, 2]),
        (&[0, 1], &[1]),
        (&[0, 2], &[1, 2]),
        (&[4, 1], &[0, 2]),
        (&[usize::MAX, 1], &[2, 2]),
        (&[0, usize::MAX], &[1, 0]),
    ];
    for (starts, lengths) in places {
        let columns = TrackColumns {
            starts,
            lengths,
            ..COLUMNS
        };
        assert_eq!(write(columns), Err(Refusal::OutOfBounds));
        let layers = LayerColumns {
            starts,
            lengths,
            ..LAYERS
        };
        let refused = layers.write_modex(Audio, PAYLOAD, &mut [0; 64]);
        assert_eq!(refused, Err(Refusal::OutOfBounds));
    }
    let fourccs = &COLUMNS.fourccs[..1];
    let short = TrackColumns { fourccs, ..COLUMNS };
    assert_eq!(write(short), Err(Refusal::OutOfBounds));
    let at_the_end = TrackColumns {
        starts: &[3, 0, usize::MAX],
        lengths: &[0, 3, 1],
        ..COLUMNS
    };
    assert_eq!(write(at_the_end), Ok(17));
}

#[test]
fn lengths_that_cannot_be_written() {
    let long = vec![0; 16_777_216];
    let write = |form, payload| write_container(audio(form), [new_track(1, payload)]);
    for form in [Form::ManyTracks, Form::ManyTracksManyCodecs] {
        assert_eq!(write(form, &long), Err(Refusal::BadLength));
        assert!(write(form, &long[1..]).is_ok());
    }
    let one = write(Form::OneTrack, &long);
    assert_eq!(one.map(|container| container.len()), Ok(16_777_223));
    for data in [&long[..0], &long[..65_537]] {
        let refused = write_modex(Audio, [new_layer(1, data)], PAYLOAD);
        assert_eq!(refused, Err(Refusal::BadLength));
    }
}

#[test]
fn values_that_cannot_be_written() {
    let track = new_track(1, b"\xAA");
    for number in 0..=u8::MAX {
        let packet_type = ContainerHead::Audio {
            form: Form::OneTrack,
            packet_type: number.into(),
        };
        let answer = write_container(packet_type, [track]);
        assert_eq!(answer.is_ok(), number <= 15 && number != 5, "{number}");
        let packet_type = ContainerHead::Video {
            form: Form::OneTrack,
            packet_type: number.into(),
            video_frame_type: VideoFrameType::KEY,
        };
        let answer = write_container(packet_type, [track]);
        assert_eq!(answer.is_ok(), number <= 15 && number != 6, "{number}");
        let answer = write_container(video(Form::OneTrack, number), [track]);
        assert_eq!(answer.is_ok(), number <= 7 && number != 5, "{number}");
        let answer = write_modex(Audio, [new_layer(number, b"\xAA")], PAYLOAD);
        assert_eq!(answer.is_ok(), number <= 15, "{number}");
        let refused = answer.err().into_iter();
        assert!(refused.eq((number > 15).then_some(Refusal::BadValue)));
    }
    let other = NewTrack {
        fourcc: FourCc::FLAC,
        ..track
    };
    let refused = write_container(audio(Form::ManyTracks), [track, track, other]);
    assert_eq!(refused, Err(Refusal::BadValue));
}

/// The heads of containers that name themselves.
fn nested(form: Form) -> [ContainerHead; 2] {
    let audio = ContainerHead::Audio {
        form,
        packet_type: AudioPacketType::MULTITRACK,
    };
    let video = ContainerHead::Video {
        form,
        packet_type: VideoPacketType::MULTITRACK,
        video_frame_type: VideoFrameType::KEY,
    };
    [audio, video]
}

#[test]
fn a_container_inside_itself_is_not_written() {
    for head in FORMS.into_iter().flat_map(nested) {
        let refused = write_container(head, [new_track(1, b"")]);
        assert_eq!(refused, Err(Refusal::BadValue), "{head:?}");
    }
}

#[test]
fn a_container_that_names_itself_is_written_behind_layers() {
    let payload = b"\x86\x06\x00\x00\x00\x00\x00";
    let written = write_modex(Video, [new_layer(1, b"\xAA")], payload).expect("it is written");
    assert_eq!(written, b"\x87\x00\xAA\x16\x06\x00\x00\x00\x00\x00");
    let (report, result) = peeled(Video, &written);
    assert_eq!((report.tracks, &result[..]), (0, &payload[..]));
}

#[test]
fn payloads_that_layers_cannot_be_around() {
    let wrap =
        |frame_type, payload: &[u8]| write_modex(frame_type, [new_layer(1, b"\xAA")], payload);
    for frame_type in [Audio, Video, Script, Metadata] {
        assert_eq!(wrap(frame_type, b""), Err(Refusal::BadValue));
        for first in 0..=u8::MAX {
            let (high, low) = (first & 0xF0, first & 0x0F);
            let nibble = if frame_type == Audio {
                high == 0x90
            } else {
                high >= 0x80
            };
            let expected = if nibble && low != 7 {
                Ok(vec![high | 7, 0x00, 0xAA, 0x10 | low])
            } else {
                Err(Refusal::BadValue)
            };
            assert_eq!(wrap(frame_type, &[first]), expected);
        }
    }
}

#[test]
fn the_order_of_refusals() {
    let out = |columns: TrackColumns, head| columns.write_container(head, &mut []);
    let head = video(Form::ManyTracks, 5);
    let short = TrackColumns {
        starts: &[0],
        lengths: &[1 << 24, 2],
        ..COLUMNS
    };
    assert_eq!(out(short, head), Err(Refusal::OutOfBounds));
    assert_eq!(out(COLUMNS, head), Err(Refusal::BadValue));
    for head in nested(Form::ManyTracks) {
        assert_eq!(out(short, head), Err(Refusal::OutOfBounds));
        assert_eq!(out(COLUMNS, head), Err(Refusal::BadValue));
    }
    let head = video(Form::ManyTracks, 1);
    assert_eq!(out(COLUMNS, head), Err(Refusal::OutputTooShort));
    let modex = |layers: LayerColumns, payload| layers.write_modex(Audio, payload, &mut []);
    let empty = LayerColumns {
        lengths: &[0, 2],
        ..LAYERS
    };
    let short = LayerColumns {
        starts: &[0],
        ..empty
    };
    assert_eq!(modex(short, b""), Err(Refusal::OutOfBounds));
    assert_eq!(modex(empty, b""), Err(Refusal::BadLength));
    assert_eq!(modex(LAYERS, b""), Err(Refusal::BadValue));
    assert_eq!(modex(LAYERS, PAYLOAD), Err(Refusal::OutputTooShort));
}
