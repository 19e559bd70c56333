//! The laws of the iterator over tracks.

use std::ops::Range;
use std::ptr;

use hozgrim::FrameType::{self, Audio, Video};
use hozgrim::{
    AudioPacketType, FourCc, PacketType, Track, Tracks, Verdict, VideoFrameType, VideoPacketType,
    track, tracks,
};

use crate::columns::CONTAINERS;
use crate::peeled;

fn all() -> impl Iterator<Item = (Tracks<'static>, Vec<Track<'static>>)> {
    CONTAINERS.into_iter().map(|(frame_type, payload)| {
        let tracks = tracks(frame_type, payload).expect("a container");
        let by_number = |number| track(frame_type, payload, number).expect("a track");
        let listed = (0..tracks.len()).map(by_number).collect();
        (tracks, listed)
    })
}

#[test]
fn numbers_of_tracks() {
    let lengths: Vec<usize> = all().map(|(tracks, _)| tracks.len()).collect();
    assert_eq!(lengths, [1, 1, 1, 1, 1, 2, 5, 2]);
}

#[test]
fn it_gives_the_tracks_in_their_order() {
    for (tracks, listed) in all() {
        assert!(tracks.eq(listed));
    }
}

#[test]
fn its_length_goes_down_to_0() {
    for (mut tracks, listed) in all() {
        for left in (0..listed.len()).rev() {
            assert!(tracks.next().is_some());
            assert_eq!(tracks.len(), left);
            assert_eq!(tracks.size_hint(), (left, Some(left)));
        }
        for _ in 0..3 {
            assert_eq!(tracks.next(), None);
            assert_eq!(tracks.next_back(), None);
        }
    }
}

#[test]
fn it_steps_over_tracks_from_both_ends() {
    for (tracks, listed) in all() {
        for n in 0..listed.len() + 2 {
            let (mut ahead, mut expected) = (tracks.clone(), listed.iter());
            assert_eq!(ahead.nth(n).as_ref(), expected.nth(n));
            assert!(ahead.eq(expected.copied()));
            let (mut back, mut expected) = (tracks.clone(), listed.iter());
            assert_eq!(back.nth_back(n).as_ref(), expected.nth_back(n));
            assert!(back.eq(expected.copied()));
        }
    }
}

#[test]
fn it_ends_where_both_ends_meet() {
    for (tracks, listed) in all() {
        assert!(tracks.clone().rev().eq(listed.iter().copied().rev()));
        let mut tracks = tracks;
        let mut front = vec![];
        let mut back = vec![];
        while let Some(track) = tracks.next() {
            front.push(track);
            back.extend(tracks.next_back());
        }
        back.reverse();
        assert_eq!([front, back].concat(), listed);
    }
}

#[test]
fn its_last_and_count() {
    for (tracks, listed) in all() {
        assert_eq!(tracks.clone().last(), listed.last().copied());
        assert_eq!(tracks.count(), listed.len());
    }
}

/// The addresses of a slice.
fn addresses(bytes: &[u8]) -> Range<*const u8> {
    bytes.as_ptr_range()
}

#[test]
fn its_parts_are_the_memory_that_was_lent() {
    for (frame_type, payload) in CONTAINERS {
        let payload = payload.to_vec();
        let mut behind = addresses(&payload).start;
        for track in tracks(frame_type, &payload).expect("a container") {
            let part = &payload[track.start..][..track.payload.len()];
            assert!(ptr::eq(track.payload, part));
            assert!(addresses(track.payload).start >= behind);
            behind = addresses(track.payload).end;
        }
        assert_eq!(behind, addresses(&payload).end);
    }
}

#[test]
fn a_track_outlives_the_iterator() {
    let payload = b"\x95\x01Opus\x07\xAA".to_vec();
    let first = {
        let mut tracks = tracks(Audio, &payload).expect("a container");
        tracks.next().expect("a track")
    };
    assert_eq!(first.payload, b"\xAA");
}

#[test]
fn fields_of_tracks() {
    let ids = |at: usize| -> Vec<u8> {
        let (tracks, _) = all().nth(at).expect("there is one");
        tracks.map(|track| track.id).collect()
    };
    assert_eq!(ids(6), [5, 4, 3, 3, 1]);
    let (mut audio, _) = all().nth(5).expect("there is one");
    let [first, second] = [audio.next(), audio.next()].map(|track| track.expect("a track"));
    assert_eq!(
        (first.fourcc, first.verdict),
        (FourCc::MP4A, Some(Verdict::Refused))
    );
    assert_eq!(
        (second.fourcc, second.verdict),
        (FourCc::OPUS, Some(Verdict::Valid))
    );
    let start = PacketType::Audio(AudioPacketType::SEQUENCE_START);
    assert_eq!((first.packet_type, first.video_frame_type), (start, None));
    let (mut video, _) = all().nth(6).expect("there is one");
    let first = video.next().expect("a track");
    let coded = PacketType::Video(VideoPacketType::CODED_FRAMES_X);
    let keyframe = Some(VideoFrameType::KEY);
    assert_eq!(
        (first.packet_type, first.video_frame_type),
        (coded, keyframe)
    );
    assert_eq!(first.verdict, None);
}

/// How many tracks a payload has by its pass, once the call for tracks says the same.
fn count(frame_type: FrameType, payload: &[u8]) -> usize {
    let (report, result) = peeled(frame_type, payload);
    let count = tracks(frame_type, &result).map_or(0, |tracks| tracks.len());
    assert_eq!(report.tracks, count, "{payload:02X?}");
    count
}

#[test]
fn a_container_that_names_itself_has_none() {
    let of_forms: [&[u8]; 3] = [b"Opus\x07\xAA", b"Opus\x07\0\0\0", b"Opus\x07\0\0\x01\xAA"];
    for (form, rest) in (0..).zip(of_forms) {
        for packet_type in 0..16 {
            for (frame_type, first, own) in [(Audio, 0x95, 5), (Video, 0x86, 6), (Video, 0xF6, 6)] {
                let payload = [&[first, form << 4 | packet_type], rest].concat();
                assert_eq!(count(frame_type, &payload), usize::from(packet_type != own));
            }
        }
    }
}

#[test]
fn a_container_that_names_itself_has_none_behind_layers() {
    assert_eq!(count(Video, b"\x87\x00\xAA\x16\x06avc1\x07"), 0);
    assert_eq!(count(Video, b"\x87\x00\xAA\x16\x05avc1\x07"), 1);
    assert_eq!(count(Audio, b"\x97\x00\xAA\x15\x05Opus\x07"), 0);
    assert_eq!(count(Audio, b"\x97\x00\xAA\x15\x06Opus\x07"), 1);
}

#[test]
fn tracks_of_a_result() {
    let layered = b"\x97\x00\xAA\x15\x11Opus\x01\x00\x00\x01\xAA\x02\x00\x00\x00";
    let (report, result) = peeled(Audio, layered);
    let tracks = tracks(Audio, &result).expect("a container");
    assert_eq!(tracks.len(), report.tracks);
    let bodies: Vec<&[u8]> = tracks.map(|track| track.payload).collect();
    assert_eq!(bodies, [&b"\xAA"[..], b""]);
}
