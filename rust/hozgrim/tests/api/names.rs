//! Numbers and names: from and to numbers, words, and what can be a key of a map.

use std::collections::HashSet;
use std::error::Error;
use std::fmt::{Debug, Display};
use std::hash::Hash;

use hozgrim::{
    AacPacketType, AudioCodec, AudioPacketType, CacheKind, Decision, DeliveryHint, Form, FourCc,
    FrameType, Header, HeaderError, ModexType, PacketType, UnknownNumber, Verdict, VideoFrameType,
    VideoPacketType, tracks,
};

use crate::unpeeled;

/// The names of a type of the wire by their numbers, once every number has gone there and back.
fn names<T>() -> Vec<(u8, String)>
where
    T: From<u8> + Into<u8> + Copy + Display + Debug + Ord + Hash,
{
    let all: Vec<T> = (0..=u8::MAX).map(T::from).collect();
    assert!(all.iter().map(|named| (*named).into()).eq(0..=u8::MAX));
    assert!(all.is_sorted());
    assert_eq!(all.iter().collect::<HashSet<_>>().len(), 256);
    let texts = (0..=u8::MAX).zip(all.iter().map(T::to_string));
    let named: Vec<_> = texts
        .filter(|(number, text)| *text != number.to_string())
        .collect();
    for (number, name) in &named {
        let debug = format!("{:?}", T::from(*number));
        assert!(debug.ends_with(&format!("({name})")), "{debug}");
    }
    named
}

fn numbered(names: &[(u8, &str)]) -> Vec<(u8, String)> {
    names
        .iter()
        .map(|(number, name)| (*number, name.to_string()))
        .collect()
}

#[test]
fn names_of_packet_types() {
    let video = [
        (0, "SequenceStart"),
        (1, "CodedFrames"),
        (2, "SequenceEnd"),
        (3, "CodedFramesX"),
        (4, "Metadata"),
        (5, "MPEG2TSSequenceStart"),
        (6, "Multitrack"),
        (7, "ModEx"),
    ];
    assert_eq!(names::<VideoPacketType>(), numbered(&video));
    let audio = [
        (0, "SequenceStart"),
        (1, "CodedFrames"),
        (2, "SequenceEnd"),
        (3, "Metadata"),
        (4, "MultichannelConfig"),
        (5, "Multitrack"),
        (7, "ModEx"),
    ];
    assert_eq!(names::<AudioPacketType>(), numbered(&audio));
    let aac = [(0, "SequenceHeader"), (1, "Raw")];
    assert_eq!(names::<AacPacketType>(), numbered(&aac));
}

#[test]
fn names_of_video_frame_types() {
    let frame_types = [
        (1, "KeyFrame"),
        (2, "InterFrame"),
        (3, "DisposableInterFrame"),
        (4, "GeneratedKeyFrame"),
        (5, "Command"),
    ];
    assert_eq!(names::<VideoFrameType>(), numbered(&frame_types));
}

#[test]
fn names_of_modex_types() {
    let types = [(0, "TimestampOffsetNano")];
    assert_eq!(names::<ModexType>(), numbered(&types));
}

#[test]
fn names_stand_in_columns_and_in_debug_output() {
    assert_eq!(format!("{:>6}|", VideoPacketType::MOD_EX), " ModEx|");
    assert_eq!(format!("{:>3}|", VideoPacketType::new(9)), "  9|");
    assert_eq!(format!("{:<9}|", DeliveryHint::Critical), "critical |");
    let [sent, dropped] = [Decision::Sent, Decision::Dropped];
    assert_eq!(format!("{sent:>8}|{dropped:<8}|"), "    sent|dropped |");
    assert_eq!(
        format!("{:?}", VideoFrameType::KEY),
        "VideoFrameType(KeyFrame)"
    );
    assert_eq!(
        format!("{:?}", AudioPacketType::new(6)),
        "AudioPacketType(6)"
    );
    assert_eq!(format!("{:?}", FourCc::MP3_SPACE), "FourCc(\"mp3 \")");
}

#[test]
fn packet_types_of_audio_and_video() {
    for number in 0..=u8::MAX {
        let audio = PacketType::from(AudioPacketType::new(number));
        let video = PacketType::from(VideoPacketType::new(number));
        assert_ne!(audio, video);
        for packet_type in [audio, video] {
            assert_eq!(packet_type.number(), number);
            assert_eq!(packet_type.is_sequence_start(), number == 0);
        }
    }
    let texts = [3, 8].map(|number| {
        let audio = PacketType::Audio(number.into());
        let video = PacketType::Video(number.into());
        format!("{audio} {video}")
    });
    assert_eq!(texts, ["Metadata CodedFramesX", "8 8"]);
}

/// The words of the cases by their numbers. Every number goes there and back, or is refused.
fn words<T>(what: &str) -> Vec<(u8, String)>
where
    T: TryFrom<u8, Error = UnknownNumber> + TryFrom<u32, Error = UnknownNumber>,
    T: Into<u8> + Into<u32> + Copy + Display + Debug + Eq,
{
    let known = |number: u8| {
        let case = T::try_from(number);
        assert_eq!(case, T::try_from(u32::from(number)));
        match case {
            Ok(case) => {
                assert_eq!(Into::<u8>::into(case), number);
                assert_eq!(Into::<u32>::into(case), number.into());
                Some((number, case.to_string()))
            }
            Err(unknown) => {
                let expected = format!("no {what} has the number {number}");
                assert_eq!(
                    (unknown.number(), unknown.to_string()),
                    (number.into(), expected)
                );
                None
            }
        }
    };
    assert!(
        [256, 257, u32::MAX]
            .iter()
            .all(|number| T::try_from(*number).is_err())
    );
    (0..=u8::MAX).filter_map(known).collect()
}

#[test]
fn numbers_and_words_of_cases() {
    let kinds = [
        (0, "live only"),
        (1, "video sequence header"),
        (2, "audio sequence header"),
        (3, "video keyframe"),
    ];
    assert_eq!(words::<CacheKind>("cache kind"), numbered(&kinds));
    let hints = [(0, "critical"), (1, "resync point"), (2, "droppable")];
    assert_eq!(words::<DeliveryHint>("delivery hint"), numbered(&hints));
    let verdicts = [(1, "valid"), (2, "refused")];
    assert_eq!(words::<Verdict>("verdict"), numbered(&verdicts));
    let forms = [
        (0, "OneTrack"),
        (1, "ManyTracks"),
        (2, "ManyTracksManyCodecs"),
    ];
    assert_eq!(words::<Form>("form"), numbered(&forms));
}

#[test]
fn an_unknown_number_goes_where_errors_go() {
    let read = |number: u8| -> Result<CacheKind, Box<dyn Error>> { Ok(number.try_into()?) };
    let error = read(4).expect_err("there is no such kind");
    assert_eq!(error.to_string(), "no cache kind has the number 4");
}

#[test]
fn hints_under_the_names_of_the_original() {
    for code in 0..=u8::MAX {
        let hint = DeliveryHint::from_u8(code);
        assert_eq!(hint, DeliveryHint::try_from(code).ok());
        assert_eq!(hint.map(DeliveryHint::to_u8), (code <= 2).then_some(code));
    }
}

#[test]
fn frame_types_of_messages() {
    let frame = |id| Some((id, FrameType::from_message_type_id(id)?));
    let frames: Vec<_> = (0..=u8::MAX).filter_map(frame).collect();
    let expected = [
        (8, FrameType::Audio),
        (9, FrameType::Video),
        (15, FrameType::Script),
        (18, FrameType::Script),
    ];
    assert_eq!(frames, expected);
    let words = [0u8, 1, 2, 3].map(|number| FrameType::try_from(number).expect("it is known"));
    let words = words.map(|frame_type| frame_type.to_string());
    assert_eq!(words, ["audio", "video", "script", "metadata"]);
}

#[test]
fn fourccs() {
    let named = [
        (FourCc::OPUS, b"Opus"),
        (FourCc::MP4A, b"mp4a"),
        (FourCc::MP3, b".mp3"),
        (FourCc::MP3_SPACE, b"mp3 "),
        (FourCc::AC_3, b"ac-3"),
        (FourCc::EC_3, b"ec-3"),
        (FourCc::FLAC, b"fLaC"),
        (FourCc::AVC1, b"avc1"),
        (FourCc::HVC1, b"hvc1"),
        (FourCc::VVC1, b"vvc1"),
        (FourCc::AV01, b"av01"),
        (FourCc::VP08, b"vp08"),
        (FourCc::VP09, b"vp09"),
    ];
    for (fourcc, bytes) in named {
        assert_eq!(fourcc, FourCc::from(*bytes));
        assert_eq!(<[u8; 4]>::from(fourcc), *bytes);
        assert_eq!(FourCc::from_number(fourcc.number()), fourcc);
        assert!(fourcc.to_string().bytes().eq(*bytes));
    }
    assert_eq!(FourCc::AVC1.number(), 0x6176_6331);
    let escaped = FourCc::new(*b"\x11a\"\xFF");
    assert_eq!(escaped.to_string(), "\\x11a\\\"\\xff");
    assert_eq!(format!("{escaped:?}"), "FourCc(\"\\x11a\\\"\\xff\")");
}

#[test]
fn numbers_and_names_of_codecs() {
    for (codec, number, name) in [
        (AudioCodec::Pcm, 0, "PCM"),
        (AudioCodec::Adpcm, 1, "ADPCM"),
        (AudioCodec::Mp3, 2, "MP3"),
        (AudioCodec::PcmLe, 3, "PCM little-endian"),
        (AudioCodec::Nelly16k, 4, "Nellymoser 16 kHz"),
        (AudioCodec::Nelly8k, 5, "Nellymoser 8 kHz"),
        (AudioCodec::Nelly, 6, "Nellymoser"),
        (AudioCodec::G711A, 7, "G.711 A-law"),
        (AudioCodec::G711U, 8, "G.711 mu-law"),
        (AudioCodec::Aac, 10, "AAC"),
        (AudioCodec::Speex, 11, "Speex"),
        (AudioCodec::Opus, 14, "Opus"),
        (AudioCodec::Ac3, 10, "AC-3"),
        (AudioCodec::EAc3, 10, "E-AC-3"),
        (AudioCodec::Flac, 10, "FLAC"),
        (AudioCodec::Unknown(FourCc::AVC1), 0, "unknown"),
    ] {
        assert_eq!((codec.number(), codec.to_string().as_str()), (number, name));
    }
}

#[test]
fn what_headers_have_in_common() {
    let of = |frame_type, payload| {
        let header = unpeeled(frame_type, payload, true).header;
        header.expect("it is readable").expect("there is one")
    };
    let common = |header: Header| {
        let packet_type = header.packet_type();
        assert_eq!(header.is_enhanced(), packet_type.is_some());
        (header.size(), packet_type, header.fourcc())
    };
    let audio = common(of(FrameType::Audio, b"\x91Opus"));
    let coded = PacketType::Audio(AudioPacketType::CODED_FRAMES);
    assert_eq!(audio, (5, Some(coded), Some(FourCc::OPUS)));
    let video = common(of(FrameType::Video, b"\x91avc1\x00\x00\x00"));
    let coded = PacketType::Video(VideoPacketType::CODED_FRAMES);
    assert_eq!(video, (8, Some(coded), Some(FourCc::AVC1)));
    assert_eq!(common(of(FrameType::Audio, b"\xAF\x01")), (2, None, None));
    assert_eq!(common(of(FrameType::Video, b"\x17\x01")), (1, None, None));
}

#[test]
fn headers_as_far_as_they_were_read() {
    let whole = unpeeled(FrameType::Audio, b"\xAF\x01", true);
    assert_eq!(Ok(whole.read_header()), whole.header);
    let cut = unpeeled(FrameType::Video, b"\x91avc1", true);
    assert!(matches!(cut.header, Err(HeaderError::Io { .. })));
    let read = cut.read_header().expect("a part was read");
    assert_eq!(read.fourcc(), Some(FourCc::AVC1));
    for (frame_type, payload) in [
        (FrameType::Audio, &b"\x91Opu"[..]),
        (FrameType::Audio, b"\xC0"),
        (FrameType::Script, b"\x02"),
    ] {
        assert_eq!(unpeeled(frame_type, payload, true).read_header(), None);
    }
}

#[test]
fn answers_are_keys_of_maps() {
    let payload = b"\x95\x11Opus\x01\x00\x00\x01\xAA\x02\x00\x00\x01\xAA";
    let report = unpeeled(FrameType::Audio, payload, true);
    assert_eq!(HashSet::from([report, report]).len(), 1);
    assert_eq!(HashSet::from([report.header, report.header]).len(), 1);
    let found: HashSet<_> = tracks(FrameType::Audio, payload)
        .expect("a container")
        .collect();
    assert_eq!(found.len(), 2);
}
