//! The cases, the sheet's sample and the misreadings of docs/REQUIREMENTS.md, sections 17, 19, 20.

use common::layers::{Form, MODEX, layer, wrapped};
use common::requirement::AVC;
use hozgrim::CacheKind::{AudioSequenceHeader, LiveOnly, VideoKeyframe, VideoSequenceHeader};
use hozgrim::DeliveryHint::{Critical, Droppable, ResyncPoint};
use hozgrim::FrameType::{Audio, Video};
use hozgrim::{CAPS_EX_MODEX, FourCc, Refusal, Report, classify, pass, tracks};

use crate::in_place::agreed;
use crate::{peeled, unpeeled};

/// Header error, or 0.
fn header_error(report: &Report) -> i32 {
    report.header.map_or_else(|error| error.number(), |_| 0)
}

#[test]
fn the_frames_of_the_sheet() {
    let rows = [
        (Audio, &b""[..], -1, 0, LiveOnly, Critical),
        (
            Video,
            b"\x17\x01\x00\x00\x00",
            0,
            0,
            VideoKeyframe,
            ResyncPoint,
        ),
        (
            Audio,
            b"\xAF\x00\x12\x10",
            0,
            0,
            AudioSequenceHeader,
            Critical,
        ),
        (
            Audio,
            b"\x95\x11Opus\x01\x00\x00\x01\xAA",
            0,
            1,
            LiveOnly,
            Droppable,
        ),
    ];
    for (frame_type, payload, error, tracks, kind, hint) in rows {
        let (report, _) = peeled(frame_type, payload);
        let printed = (
            header_error(&report),
            report.tracks,
            report.kind,
            report.hint,
        );
        assert_eq!(printed, (error, tracks, kind, hint), "{payload:02X?}");
    }
}

#[test]
fn records_of_aac() {
    for (record, valid) in [(&b"\x12\x10"[..], 1), (b"\x12", 0), (b"\x16\x80", 0)] {
        let payload = [b"\xAF\x00", record].concat();
        let report = unpeeled(Audio, &payload, true);
        assert_eq!((report.records, report.valid_records), (1, valid));
    }
}

#[test]
fn records_of_avc() {
    let payload = [b"\x17\x00\x00\x00\x00", AVC].concat();
    assert_eq!(classify(Video, &payload, true).kind, VideoSequenceHeader);
    let longer = [&payload[..], b"\x00"].concat();
    assert_eq!(classify(Video, &longer, true).kind, LiveOnly);
}

#[test]
fn records_by_their_fourcc() {
    assert_eq!(classify(Audio, b"\x90Opus", true).kind, AudioSequenceHeader);
    assert_eq!(classify(Audio, b"\x90fLaC", true).kind, LiveOnly);
}

#[test]
fn one_empty_track() {
    for payload in [&b"\x95\x01Opus\x07"[..], b"\x95\x11Opus\x07\x00\x00\x00"] {
        let mut tracks = tracks(Audio, payload).expect("a container");
        let track = tracks.next().expect("a track");
        assert_eq!(
            (track.id, track.fourcc, track.payload),
            (7, FourCc::OPUS, &[][..])
        );
        assert_eq!(tracks.next(), None);
    }
}

#[test]
fn no_containers() {
    let cut = tracks(Audio, b"\x95\x11Opus\x07\x00\x00\x01");
    let command = tracks(Video, b"\xD6\x01avc1\x07");
    let legacy = tracks(Audio, b"\x85\x01Opus\x07");
    for refused in [cut, command, legacy] {
        assert_eq!(refused.err(), Some(Refusal::NotAContainer));
    }
}

#[test]
fn composition_times() {
    let times = [
        (b"\x00\x00\x01", 1),
        (b"\x7F\xFF\xFF", 8_388_607),
        (b"\x80\x00\x00", -8_388_608),
        (b"\xFF\xFF\xFF", -1),
    ];
    for (bytes, expected) in times {
        for front in [&b"\x17\x01"[..], b"\x91avc1", b"\x91hvc1", b"\x91vvc1"] {
            let payload = [front, bytes].concat();
            let report = unpeeled(Video, &payload, true);
            let time = report.composition_time;
            assert_eq!((time.milliseconds(), time.offset()), (expected, 0));
            let header = report.header.expect("it is readable");
            assert_eq!(header.map(|header| header.size()), Some(payload.len()));
        }
    }
}

#[test]
fn a_layer_before_nothing() {
    let (_, result) = peeled(Audio, b"\x97\x02\x00\x00\xAA\x01");
    assert_eq!(result, b"\x91");
    let payload = b"\x97\x00\xAA\x01";
    let refused = pass(Audio, payload, CAPS_EX_MODEX, true, &mut [0; 4]);
    assert_eq!(refused, Err(Refusal::Protocol));
    let refused = agreed(Audio, payload, CAPS_EX_MODEX, true);
    assert_eq!(refused, Err(Refusal::Protocol));
}

#[test]
fn as_many_layers_as_there_may_be() {
    let layers = |count| {
        let one = |number| {
            layer(
                Form::Short,
                b"\xAA",
                0x10 | if number < count { MODEX } else { 1 },
            )
        };
        wrapped((1..=count).flat_map(one).collect())
    };
    let (_, result) = peeled(Video, &layers(32));
    assert_eq!(result, b"\x91");
    let (report, result) = peeled(Video, &layers(33));
    assert_eq!(result, layers(33));
    assert_eq!(report.result_len, result.len());
}

#[test]
fn sizes_of_layers() {
    for (form, size) in [(Form::Short, 255), (Form::Long, 1), (Form::Long, 65_536)] {
        let (_, result) = peeled(Audio, &wrapped(layer(form, &vec![0x5A; size], 0x11)));
        assert_eq!(result, b"\x91");
    }
}

#[test]
fn as_many_tracks_as_there_may_be() {
    let container = |count| [b"\x96\x11avc1", &b"\x07\x00\x00\x00".repeat(count)[..]].concat();
    let payload = container(4_096);
    assert_eq!(unpeeled(Video, &payload, true).tracks, 4_096);
    let last = tracks(Video, &payload).expect("a container").last();
    assert_eq!(last.map(|track| track.start), Some(payload.len()));
    let payload = container(4_097);
    assert_eq!(unpeeled(Video, &payload, true).tracks, 0);
    assert_eq!(tracks(Video, &payload).err(), Some(Refusal::NotAContainer));
}

#[test]
fn misreadings() {
    let unpeeled_command = classify(Video, b"\xD7\x00\xAA\x10", true);
    assert_eq!(unpeeled_command.hint, Droppable);
    let (peeled_command, _) = peeled(Video, b"\xD7\x00\xAA\x10");
    assert_eq!(peeled_command.hint, Critical);
    let end_of_sequence = classify(Video, b"\x17\x02\x00\x00\x00", true);
    assert_eq!(end_of_sequence.kind, LiveOnly);
}
