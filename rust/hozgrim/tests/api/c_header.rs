//! The numbers of the types are those of `include/hozgrim.h`.

use std::collections::BTreeMap;

use hozgrim::{
    AacPacketType, AudioCodec, AudioPacketType, CAPS_EX_MODEX, CacheKind, Decision, DeliveryHint,
    Form, FrameType, HeaderError, ModexType, Refusal, SlotTooShort, Uplink, Verdict,
    VideoFrameType, VideoPacketType,
};

use crate::numbers::{decision, verdict};

const HEADER: &str = include_str!("../../../../include/hozgrim.h");

/// Names, without what all of them begin with, and numbers.
fn of_header() -> BTreeMap<&'static str, i32> {
    let constant = |line: &'static str| {
        let (name, rest) = line.trim().strip_prefix("HOZGRIM_")?.split_once(" = ")?;
        let number = rest.split([',', ' ']).next()?;
        Some((name, number.parse().expect("a number")))
    };
    HEADER.lines().filter_map(constant).collect()
}

fn of_answers() -> BTreeMap<&'static str, i32> {
    BTreeMap::from([
        ("AUDIO", FrameType::Audio as i32),
        ("VIDEO", FrameType::Video as i32),
        ("SCRIPT", FrameType::Script as i32),
        ("METADATA", FrameType::Metadata as i32),
        ("LIVE_ONLY", CacheKind::LiveOnly as i32),
        (
            "VIDEO_SEQUENCE_HEADER",
            CacheKind::VideoSequenceHeader as i32,
        ),
        (
            "AUDIO_SEQUENCE_HEADER",
            CacheKind::AudioSequenceHeader as i32,
        ),
        ("VIDEO_KEYFRAME", CacheKind::VideoKeyframe as i32),
        ("CRITICAL", DeliveryHint::Critical as i32),
        ("RESYNC_POINT", DeliveryHint::ResyncPoint as i32),
        ("DROPPABLE", DeliveryHint::Droppable as i32),
        ("NO_DECISION", decision(None) as i32),
        ("SENT", decision(Some(Decision::Sent)) as i32),
        ("DROPPED", decision(Some(Decision::Dropped)) as i32),
        ("NO_RECORD", verdict(None).into()),
        ("VALID_RECORD", verdict(Some(Verdict::Valid)).into()),
        ("REFUSED_RECORD", verdict(Some(Verdict::Refused)).into()),
        ("ONE_TRACK", Form::OneTrack as i32),
        ("MANY_TRACKS", Form::ManyTracks as i32),
        ("MANY_TRACKS_MANY_CODECS", Form::ManyTracksManyCodecs as i32),
    ])
}

fn of_codecs() -> BTreeMap<&'static str, i32> {
    let codecs = [
        ("PCM", AudioCodec::Pcm),
        ("ADPCM", AudioCodec::Adpcm),
        ("MP3", AudioCodec::Mp3),
        ("PCM_LE", AudioCodec::PcmLe),
        ("NELLY_16K", AudioCodec::Nelly16k),
        ("NELLY_8K", AudioCodec::Nelly8k),
        ("NELLY", AudioCodec::Nelly),
        ("G711_A", AudioCodec::G711A),
        ("G711_U", AudioCodec::G711U),
        ("AAC", AudioCodec::Aac),
        ("SPEEX", AudioCodec::Speex),
        ("OPUS", AudioCodec::Opus),
    ];
    codecs
        .map(|(name, codec)| (name, codec.number().into()))
        .into()
}

fn of_full_scales() -> BTreeMap<&'static str, i32> {
    let scales = [
        ("G711_A_FULL_SCALE", AudioCodec::G711A),
        ("G711_U_FULL_SCALE", AudioCodec::G711U),
    ];
    scales
        .map(|(name, codec)| (name, codec.full_scale().expect("it has one") as i32))
        .into()
}

/// The credit and the debt are those that the calls come to, and do not go beyond.
fn of_uplink() -> BTreeMap<&'static str, i32> {
    let mut uplink = Uplink::new(1).expect("a viewer");
    let mut most_debt = 0;
    for bit in (0..31).rev() {
        let more = uplink.offer(0, DeliveryHint::Critical, 1 << bit);
        most_debt += i32::from(more == Ok(Decision::Sent)) << bit;
    }
    let mut uplink = Uplink::new(1).expect("a viewer");
    let credits = [(); 3].map(|()| {
        uplink.tick(Uplink::MOST_BYTES).expect("it is taken");
        uplink.credit(0).expect("a viewer")
    });
    assert_eq!(credits[1], credits[2]);
    BTreeMap::from([
        ("UPLINK_MOST_VIEWERS", Uplink::MOST_VIEWERS as i32),
        ("UPLINK_MOST_BYTES", Uplink::MOST_BYTES as i32),
        ("UPLINK_MOST_CREDIT", credits[2]),
        ("UPLINK_MOST_DEBT", most_debt),
    ])
}

/// The numbers of a type of the wire that have a name. The header has the constants' names, behind
/// the prefix.
macro_rules! named {
    ($type:ident, $prefix:literal, [$($constant:ident),+]) => {
        [$((concat!($prefix, stringify!($constant)), i32::from($type::$constant.number()))),+]
    };
}

fn of_wire() -> BTreeMap<&'static str, i32> {
    let mut numbers = BTreeMap::new();
    numbers.extend(named!(
        VideoPacketType,
        "VIDEO_PACKET_",
        [
            SEQUENCE_START,
            CODED_FRAMES,
            SEQUENCE_END,
            CODED_FRAMES_X,
            METADATA,
            MPEG2TS_SEQUENCE_START,
            MULTITRACK,
            MOD_EX
        ]
    ));
    numbers.extend(named!(
        AudioPacketType,
        "AUDIO_PACKET_",
        [
            SEQUENCE_START,
            CODED_FRAMES,
            SEQUENCE_END,
            METADATA,
            MULTICHANNEL_CONFIG,
            MULTITRACK,
            MOD_EX
        ]
    ));
    numbers.extend(named!(
        VideoFrameType,
        "VIDEO_FRAME_",
        [KEY, INTER, DISPOSABLE_INTER, GENERATED_KEY, COMMAND]
    ));
    numbers.extend(named!(AacPacketType, "AAC_", [SEQUENCE_HEADER, RAW]));
    numbers.extend(named!(ModexType, "MODEX_", [TIMESTAMP_OFFSET_NANO]));
    numbers
}

fn of_errors() -> BTreeMap<&'static str, i32> {
    let too_short = SlotTooShort {
        kind: CacheKind::VideoKeyframe,
        frame_len: 2,
        slot_len: 1,
    };
    BTreeMap::from([
        ("OK", 0),
        ("IO", HeaderError::Io { read: None }.number()),
        ("PROTOCOL", Refusal::Protocol.number()),
        ("UNSUPPORTED", HeaderError::Unsupported.number()),
        ("UNKNOWN_FRAME_TYPE", Refusal::UnknownFrameType.number()),
        ("OUTPUT_TOO_SHORT", Refusal::OutputTooShort.number()),
        ("NO_SUCH_TRACK", Refusal::NoSuchTrack { count: 0 }.number()),
        ("NOT_A_CONTAINER", Refusal::NotAContainer.number()),
        ("TRUNCATED", Refusal::Truncated.number()),
        ("OUT_OF_BOUNDS", Refusal::OutOfBounds.number()),
        ("BAD_LENGTH", Refusal::BadLength.number()),
        ("BAD_VALUE", Refusal::BadValue.number()),
        ("NOT_FLV", Refusal::NotFlv.number()),
        ("WRONG_BACK_POINTER", Refusal::WrongBackPointer.number()),
        ("SLOT_TOO_SHORT", too_short.number()),
        ("OUT_OF_RANGE", Refusal::OutOfRange.number()),
        ("DEBT_LIMIT", Refusal::DebtLimit.number()),
    ])
}

#[test]
fn the_numbers_are_those_of_the_c_header() {
    let mut numbers = of_answers();
    numbers.extend(of_codecs());
    numbers.extend(of_full_scales());
    numbers.extend(of_uplink());
    numbers.extend(of_wire());
    numbers.extend(of_errors());
    assert_eq!(numbers, of_header());
    let bit = format!("#define HOZGRIM_CAPS_EX_MODEX {CAPS_EX_MODEX:#04x}u");
    assert!(HEADER.lines().any(|line| line == bit));
}
