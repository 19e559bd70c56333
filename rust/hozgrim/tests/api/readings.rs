//! Rules of docs/REQUIREMENTS.md that are easily misread, and its edges (sections 5 to 11), by its
//! examples.

use common::requirement::AVC;
use hozgrim::AudioCodec::{self, Aac, Ac3, EAc3, Flac, Mp3, Opus, Pcm, Unknown};
use hozgrim::CacheKind::{self, AudioSequenceHeader, LiveOnly, VideoKeyframe, VideoSequenceHeader};
use hozgrim::DeliveryHint::{self, Critical, Droppable, ResyncPoint};
use hozgrim::FrameType::{self, Audio, Metadata, Script, Video};
use hozgrim::{
    AacPacketType, AudioHeader, AudioPacketType, Class, FourCc, Header, HeaderError,
    VideoFrameType, VideoHeader, VideoPacketType, classify,
};

use crate::{peeled, unpeeled};

/// How many records are judged and how many of them valid, kind and hint, with video on the route.
type Seen = (usize, usize, CacheKind, DeliveryHint);

fn seen(frame_type: FrameType, payload: &[u8]) -> Seen {
    let report = unpeeled(frame_type, payload, true);
    let class = classify(frame_type, payload, true);
    assert_eq!(
        class,
        Class {
            kind: report.kind,
            hint: report.hint
        }
    );
    (
        report.records,
        report.valid_records,
        report.kind,
        report.hint,
    )
}

fn audio(payload: &[u8]) -> AudioHeader {
    match unpeeled(Audio, payload, true).header {
        Ok(Some(Header::Audio(header))) => header,
        other => panic!("{payload:02X?}: {other:?}"),
    }
}

fn video(payload: &[u8]) -> VideoHeader {
    match unpeeled(Video, payload, true).header {
        Ok(Some(Header::Video(header))) => header,
        other => panic!("{payload:02X?}: {other:?}"),
    }
}

/// A video header that is cut short, as far as it was read.
fn cut(payload: &[u8]) -> VideoHeader {
    match unpeeled(Video, payload, true).header {
        Err(HeaderError::Io { read: Some(header) }) => header,
        other => panic!("{payload:02X?}: {other:?}"),
    }
}

#[test]
fn every_record_of_a_container_must_be_valid() {
    let refused = seen(Video, b"\x86\x00\x00\x00\x00\x00\x00");
    assert_eq!(refused, (1, 0, LiveOnly, Droppable));
}

#[test]
fn metadata_is_packet_type_4_and_in_audio_3() {
    for (frame_type, payload, hint) in [
        (Video, &b"\x84\x00\x00\x00\x00"[..], Critical),
        (Video, b"\x83\x00\x00\x00\x00", Droppable),
        (Audio, b"\x94\x00\x00\x00\x00", Critical),
        (Audio, b"\x93\x00\x00\x00\x00", Critical),
        (Video, b"\x84", Droppable),
        (Video, b"\x86\x04", Droppable),
        (Video, b"\x86\x04\x00\x00\x00\x00\x00", Critical),
    ] {
        assert_eq!(
            seen(frame_type, payload),
            (0, 0, LiveOnly, hint),
            "{payload:02X?}"
        );
    }
}

#[test]
fn frame_type_5_is_judged_on_byte_0() {
    let valid = [b"\x57\x00\x00\x00\x00", AVC].concat();
    for payload in [
        &b"\x50"[..],
        b"\x57\x00",
        &valid,
        b"\xD0\x00",
        b"\xD1\x00",
        b"\xD6\x00",
    ] {
        assert_eq!(
            seen(Video, payload),
            (0, 0, LiveOnly, Critical),
            "{payload:02X?}"
        );
    }
    for payload in [b"\xD0", b"\xD4"] {
        assert_eq!(cut(payload).video_frame_type, VideoFrameType::COMMAND);
        assert_eq!(seen(Video, payload), (0, 0, LiveOnly, Critical));
    }
    let command = video(b"\xD6\x00");
    assert_eq!(command.packet_type, Some(VideoPacketType::MULTITRACK));
    assert_eq!((command.size, command.fourcc), (2, None));
}

#[test]
fn legacy_avc() {
    let valid = [b"\x27\x00\x00\x00\x00", AVC].concat();
    for (payload, expected) in [
        (&b"\x07\x00"[..], (1, 0, LiveOnly, Droppable)),
        (&valid, (1, 1, VideoSequenceHeader, Critical)),
        (b"\x17", (0, 0, LiveOnly, Droppable)),
        (b"\x17\x00", (1, 0, LiveOnly, Droppable)),
        (b"\x17\x01", (0, 0, VideoKeyframe, ResyncPoint)),
        (b"\x17\x02", (0, 0, LiveOnly, Droppable)),
    ] {
        assert_eq!(seen(Video, payload), expected, "{payload:02X?}");
    }
    assert_eq!(video(b"\x17\x01\x00\x00").size, 1);
    let header = video(b"\x17\x01\x00\x00\x00");
    assert_eq!(
        (header.size, header.video_frame_type),
        (5, VideoFrameType::KEY)
    );
    assert_eq!((header.packet_type, header.fourcc), (None, None));
}

#[test]
fn exceptions_of_audio_starts() {
    for (frame_type, payload, expected) in [
        (
            Audio,
            &b"\x95\x00Opus\x00"[..],
            (1, 1, AudioSequenceHeader, Critical),
        ),
        (Audio, b"\x95\x00mp4a\x00\x00", (1, 0, LiveOnly, Droppable)),
        (Video, b"\x80Opus", (1, 0, LiveOnly, Droppable)),
        (
            Video,
            b"\x80mp4a\x00",
            (1, 1, VideoSequenceHeader, Critical),
        ),
    ] {
        assert_eq!(seen(frame_type, payload), expected, "{payload:02X?}");
    }
}

#[test]
fn legacy_audio() {
    let header = audio(b"\xAF\x01");
    let sound = (header.sample_rate, header.sample_size, header.channels);
    assert_eq!((header.codec, sound), (Aac, (3, 1, 1)));
    assert_eq!((header.packet_type, header.fourcc), (None, None));
    for (payload, packet_type, size) in [
        (&b"\xAF\x01"[..], Some(AacPacketType::RAW), 2),
        (b"\xA0\x00\x00", Some(AacPacketType::SEQUENCE_HEADER), 2),
        (b"\xA0", None, 1),
        (b"\x2F\x01", None, 1),
    ] {
        let header = audio(payload);
        assert_eq!((header.aac_packet_type, header.size), (packet_type, size));
    }
    assert_eq!(seen(Audio, b"\xA0"), (0, 0, LiveOnly, Droppable));
    assert_eq!(audio(b"\xE0").codec, Mp3);
    assert_eq!(audio(b"\x00").codec, Pcm);
}

#[test]
fn what_the_bits_of_flv_mean() {
    let meant = |payload: &[u8]| {
        let header = audio(payload);
        (
            header.sample_rate_hz(),
            header.sample_bits(),
            header.channel_count(),
        )
    };
    assert_eq!(meant(b"\x20"), (Some(5_512), Some(8), Some(1)));
    assert_eq!(meant(b"\x25"), (Some(11_025), Some(8), Some(2)));
    assert_eq!(meant(b"\x2A"), (Some(22_050), Some(16), Some(1)));
    assert_eq!(meant(b"\x2F"), (Some(44_100), Some(16), Some(2)));
    assert_eq!(meant(b"\x91.mp3"), (None, None, None));
}

#[test]
fn codecs_of_fourccs() {
    let table: [(&[u8; 4], AudioCodec); 8] = [
        (b"Opus", Opus),
        (b"mp4a", Aac),
        (b"mp3 ", Mp3),
        (b".mp3", Mp3),
        (b"ac-3", Ac3),
        (b"ec-3", EAc3),
        (b"fLaC", Flac),
        (b"none", Unknown(FourCc::new(*b"none"))),
    ];
    for (fourcc, codec) in table {
        let header = audio(&[&b"\x91"[..], fourcc].concat());
        let fourcc = FourCc::new(*fourcc);
        assert_eq!((header.fourcc, header.codec), (Some(fourcc), codec));
        assert_eq!(fourcc.audio_codec(), codec);
    }
    // A container's FourCC field is its bytes 1 to 4, and so is that of layers which stay.
    assert_eq!(audio(b"\x95\x2Emp3").codec, Mp3);
    assert_eq!(audio(b"\x97Opus").codec, Opus);
}

#[test]
fn cut_video_headers() {
    let empty = cut(b"");
    assert_eq!((empty.packet_type, empty.fourcc), (None, None));
    assert_eq!(empty.video_frame_type.number(), 0);
    let short = cut(b"\x91avc");
    assert_eq!(short.packet_type, Some(VideoPacketType::CODED_FRAMES));
    assert_eq!(short.video_frame_type, VideoFrameType::KEY);
    assert_eq!((short.size, short.fourcc), (0, None));
    for time in [&b""[..], b"\x00", b"\x00\x00"] {
        let payload = [b"\x91avc1", time].concat();
        let header = cut(&payload);
        assert_eq!((header.fourcc, header.size), (Some(FourCc::AVC1), 5));
        assert_eq!(unpeeled(Video, &payload, true).composition_time, 0.into());
        assert_eq!(seen(Video, &payload), (0, 0, LiveOnly, Droppable));
    }
}

#[test]
fn refused_audio_headers() {
    for payload in [&b""[..], b"\x93", b"\x94\xAA\xBB\xCC", b"\x95\x01Op"] {
        let header = unpeeled(Audio, payload, true).header;
        assert_eq!(
            header,
            Err(HeaderError::Io { read: None }),
            "{payload:02X?}"
        );
    }
    for payload in [b"\xC0", b"\xD0", b"\xF0"] {
        let report = unpeeled(Audio, payload, true);
        assert_eq!(report.header, Err(HeaderError::Unsupported));
        assert_eq!(report.hint, Droppable);
        assert_eq!(unpeeled(Audio, payload, false).hint, ResyncPoint);
    }
}

#[test]
fn audio_on_a_route_without_video() {
    for (payload, kind, hint) in [
        (&b""[..], LiveOnly, Critical),
        (b"\x93", LiveOnly, ResyncPoint),
        (b"\x95\x01Opus", LiveOnly, ResyncPoint),
        (b"\x97\x00\xAA\x01", LiveOnly, ResyncPoint),
        (b"\xAF\x01\x21", LiveOnly, ResyncPoint),
        (b"\xAF\x00\x12\x10", AudioSequenceHeader, Critical),
    ] {
        assert_eq!(
            classify(Audio, payload, false),
            Class { kind, hint },
            "{payload:02X?}"
        );
    }
}

#[test]
fn refused_containers_are_plain_headers() {
    let header = video(b"\x96\x11avc1\x00\x00\x00\x02\xAA");
    assert_eq!(header.packet_type, Some(VideoPacketType::MULTITRACK));
    assert_eq!(header.fourcc, Some(FourCc::new(*b"\x11avc")));
    assert_eq!(header.size, 5);
    let payload = b"\x96\x11avc1\x00\x00\x00\x02\xAA";
    assert_eq!(seen(Video, payload), (0, 0, LiveOnly, Droppable));
}

#[test]
fn containers_that_name_themselves_are_plain_headers() {
    let header = video(b"\x86\x06\x00\x00\x00\x00\x00");
    assert_eq!(header.packet_type, Some(VideoPacketType::MULTITRACK));
    assert_eq!(header.fourcc, Some(FourCc::new(*b"\x06\x00\x00\x00")));
    assert_eq!(header.size, 5);
    let header = audio(b"\x95\x05Opus\x07");
    assert_eq!(header.packet_type, Some(AudioPacketType::MULTITRACK));
    assert_eq!(
        (header.codec, header.size),
        (Unknown(FourCc::new(*b"\x05Opu")), 5)
    );
    assert_eq!(cut(b"\x86\x06").video_frame_type.number(), 0);
    for (frame_type, payload) in [
        (Video, &b"\x86\x06\x00\x00\x00\x00\x00"[..]),
        (Video, b"\x96\x26avc1\x01\x00\x00\x01\xAA"),
        (Video, b"\x86\x06"),
        (Audio, b"\x95\x05Opus\x07"),
        (Audio, b"\x95\x15Opus\x07\x00\x00\x01\xAA"),
    ] {
        assert_eq!(seen(frame_type, payload), (0, 0, LiveOnly, Droppable));
        let hint = unpeeled(frame_type, payload, false).hint;
        let resumed = frame_type == Audio;
        assert_eq!(hint, if resumed { ResyncPoint } else { Droppable });
    }
    // Frame type 5 makes a command of it, and no container.
    let command = seen(Video, b"\xD6\x06avc1\x07");
    assert_eq!(command, (0, 0, LiveOnly, Critical));
}

#[test]
fn script_and_metadata() {
    for frame_type in [Script, Metadata] {
        for payload in [&b""[..], b"\x95\x01Opus\x07", b"\x17\x00"] {
            let report = unpeeled(frame_type, payload, false);
            assert_eq!((report.header, report.tracks), (Ok(None), 0));
            assert_eq!(seen(frame_type, payload), (0, 0, LiveOnly, Critical));
        }
        let (report, result) = peeled(frame_type, b"\x87\x02\x00\x00\x01\x00");
        assert_eq!(
            (report.composition_time, &result[..]),
            (1.into(), &b"\x80"[..])
        );
    }
}
