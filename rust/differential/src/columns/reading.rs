//! Request N9, read apart from the definitions: what a walk into columns answers and writes, of
//! tracks that the Rust finds; and what is read from any columns.

use common::requirement::{NO_SUCH_TRACK, OUTPUT_TOO_SHORT, UNKNOWN_FRAME_TYPE};
use common::writing::{METADATA, VIDEO};
use hozgrim_sys::{HozgrimColumns, HozgrimTrack};
use oracle::types::FrameType;

use super::{Entries, Read};
use crate::containers::Tracks;
use crate::leaf::LeafTrack;
use crate::pass::starts;

/// The longest payload that is walked.
pub const LONGEST: usize = 16_777_215;

/// What a walk answers, with columns of these lengths, and what it writes to the front of each. A
/// walk that is refused writes nothing.
pub fn walked(tracks: &Tracks, length: usize, rooms: [usize; 4]) -> (HozgrimColumns, Entries) {
    let refused = |error| (HozgrimColumns { error, count: 0 }, Entries::default());
    let tracks = match tracks {
        Ok(tracks) => tracks,
        Err(error) => return refused(*error),
    };
    let count = tracks.len();
    if rooms.iter().any(|room| *room < count) || length > LONGEST {
        return refused(OUTPUT_TOO_SHORT);
    }
    let answer = HozgrimColumns { error: 0, count };
    (answer, columns_of(tracks))
}

/// One entry a track, in the order of the tracks. A FourCC is a number, its first byte the highest.
fn columns_of(tracks: &[LeafTrack]) -> Entries {
    let fourcc = |track: &LeafTrack| u32::from_be_bytes(track.fourcc);
    Entries {
        ids: tracks.iter().map(|track| track.track_id).collect(),
        fourccs: tracks.iter().map(fourcc).collect(),
        starts: tracks.iter().map(|track| track.start).collect(),
        lengths: tracks.iter().map(|track| track.length).collect(),
    }
}

/// The answer where nothing can be read beside this count. An unknown frame type comes first.
pub fn refused(frame_type: u32, count: usize) -> HozgrimTrack {
    let (error, count) = match frame_type > METADATA {
        true => (UNKNOWN_FRAME_TYPE, 0),
        false => (NO_SUCH_TRACK, count),
    };
    HozgrimTrack {
        error,
        count,
        ..HozgrimTrack::default()
    }
}

/// The track of the number that is read from the columns.
pub fn read(asked: &Read) -> HozgrimTrack {
    if asked.frame_type > METADATA || !reasons(asked).is_empty() {
        return refused(asked.frame_type, asked.count);
    }
    let (number, columns, payload) = (asked.number, &asked.columns, &asked.payload[..]);
    let (start, length) = (columns.starts[number], columns.lengths[number]);
    let fourcc = columns.fourccs[number];
    let packet_type = payload[1] & 0x0F;
    let verdict = match (packet_type, asked.frame_type) {
        (0, 0) => judged(FrameType::Audio, fourcc, &payload[start..][..length]),
        (0, 1) => judged(FrameType::Video, fourcc, &payload[start..][..length]),
        _ => 0,
    };
    HozgrimTrack {
        error: 0,
        fourcc,
        count: asked.count,
        start,
        length,
        track_id: columns.ids[number],
        packet_type,
        video_frame_type: match asked.frame_type {
            VIDEO => payload[0] >> 4 & 7,
            _ => 0,
        },
        verdict,
    }
}

/// The verdict on a record.
fn judged(known: FrameType, fourcc: u32, record: &[u8]) -> u8 {
    match starts(known, fourcc.to_be_bytes(), record) {
        true => 1,
        false => 2,
    }
}

/// Why nothing can be read.
#[derive(Clone, Copy, Debug, PartialEq)]
pub enum Reason {
    Count,
    Ids,
    Fourccs,
    Starts,
    Lengths,
    Payload,
    /// The start is past the payload's end.
    Start,
    /// The start is not, but start and length together are.
    End,
    /// Start and length together are 2^64 or more.
    Wrap,
}

/// Every reason to read nothing from the columns; the frame type is none of them.
pub fn reasons(asked: &Read) -> Vec<Reason> {
    let Read {
        columns, number, ..
    } = asked;
    let [ids, fourccs, starts, lengths] = columns.rooms().map(|room| *number >= room);
    let places = columns
        .starts
        .get(*number)
        .zip(columns.lengths.get(*number));
    let place = places.and_then(|(start, length)| leaving(*start, *length, asked.payload.len()));
    let judged = [
        (*number >= asked.count, Reason::Count),
        (ids, Reason::Ids),
        (fourccs, Reason::Fourccs),
        (starts, Reason::Starts),
        (lengths, Reason::Lengths),
        (asked.payload.len() < 2, Reason::Payload),
    ];
    let judged = judged.into_iter().filter(|(holds, _)| *holds);
    judged.map(|(_, reason)| reason).chain(place).collect()
}

/// How a place leaves a payload of this length, if it does.
fn leaving(start: usize, length: usize, size: usize) -> Option<Reason> {
    match start.checked_add(length) {
        None => Some(Reason::Wrap),
        Some(_) if start > size => Some(Reason::Start),
        Some(end) if end > size => Some(Reason::End),
        Some(_) => None,
    }
}

#[cfg(test)]
mod tests {
    use super::super::{OPUS, Walk, examples};
    use super::*;
    use crate::containers::Candidate;

    const ONE: &[u8] = b"\x95\x01Opus\x07";

    /// The answer to a walk, and what is written.
    fn walk(frame_type: u32, payload: &[u8], rooms: [usize; 4]) -> (i32, usize, Entries) {
        let candidate = Candidate {
            frame_type,
            payload: payload.to_vec(),
        };
        let (answer, written) = walked(&candidate.tracks(), payload.len(), rooms);
        (answer.error, answer.count, written)
    }

    fn refusal(error: i32) -> (i32, usize, Entries) {
        (error, 0, Entries::default())
    }

    fn error_and_count(asked: &Read) -> (i32, usize) {
        let answer = read(asked);
        if answer.error != 0 {
            let HozgrimTrack { error, count, .. } = answer;
            let nothing_else = HozgrimTrack {
                error,
                count,
                ..HozgrimTrack::default()
            };
            assert_eq!(answer, nothing_else);
        }
        (answer.error, answer.count)
    }

    #[test]
    fn the_refusals_of_a_walk_in_their_order() {
        let none = b"\x95\x31Opus\x07";
        assert_eq!(walk(0, none, [0; 4]), refusal(-24));
        assert_eq!(walk(0, ONE, [0; 4]), refusal(-22));
        for payload in [&none[..], ONE, b""] {
            assert_eq!(walk(4, payload, [0; 4]), refusal(-21));
            assert_eq!(walk(2, payload, [0; 4]), refusal(-24));
        }
        assert_eq!(walk(0, b"\x95\x05Opus\x07", [0; 4]), refusal(-24));
    }

    #[test]
    fn one_column_that_is_too_short_is_enough() {
        for column in 0..4 {
            let mut rooms = [1; 4];
            rooms[column] = 0;
            assert_eq!(walk(0, ONE, rooms), refusal(-22));
        }
    }

    #[test]
    fn a_track_in_each_column() {
        let written = Entries {
            ids: vec![7],
            fourccs: vec![OPUS],
            starts: vec![7],
            lengths: vec![0],
        };
        assert_eq!(walk(0, ONE, [1; 4]), (0, 1, written.clone()));
        assert_eq!(walk(0, ONE, [2, 3, 4, 5]), (0, 1, written));
    }

    #[test]
    fn a_container_that_is_cut_in_its_second_track_fills_nothing() {
        let cut = b"\x95\x11Opus\x07\x00\x00\x00\x08";
        assert_eq!(walk(0, cut, [2; 4]), refusal(-24));
    }

    #[test]
    fn the_longest_payload() {
        for (length, error) in [(LONGEST, 0), (LONGEST + 1, -22)] {
            let mut payload = ONE.to_vec();
            payload.resize(length, 0);
            assert_eq!(walk(0, &payload, [1; 4]).0, error);
            payload[1] = 0x31;
            assert_eq!(walk(0, &payload, [1; 4]), refusal(-24));
        }
    }

    #[test]
    fn a_track_is_read_as_the_track_request_finds_it() {
        let mut asked = Read::first(1, b"\x96\x01avc1\x07", 7, 0);
        asked.columns.fourccs[0] = u32::from_be_bytes(*b"avc1");
        let found = HozgrimTrack {
            fourcc: asked.columns.fourccs[0],
            count: 1,
            start: 7,
            track_id: 7,
            packet_type: 1,
            video_frame_type: 1,
            ..HozgrimTrack::default()
        };
        assert_eq!(read(&asked), found);
        let mut asked = Read::first(1, b"\x96\x00av01\x07\x81\x00\x00\x00", 7, 4);
        asked.columns.fourccs[0] = u32::from_be_bytes(*b"av01");
        assert_eq!(read(&asked).verdict, 1);
    }

    #[test]
    fn the_lent_count_stands_beside_a_refusal() {
        let mut asked = Read::first(0, ONE, 7, 0);
        asked.count = 77;
        assert_eq!(error_and_count(&asked), (0, 77));
        asked.number = 5;
        assert_eq!(error_and_count(&asked), (-23, 77));
        asked.frame_type = 4;
        assert_eq!(error_and_count(&asked), (-21, 0));
    }

    #[test]
    fn places_around_the_end_of_two_bytes() {
        let places = [
            (2, 0, 0),
            (3, 0, -23),
            (0, 2, 0),
            (1, 2, -23),
            (usize::MAX, 2, -23),
            (1 << 63, 1 << 63, -23),
        ];
        for (start, length, error) in places {
            let asked = Read::first(0, b"\x95\x01", start, length);
            assert_eq!(error_and_count(&asked), (error, 1));
        }
        assert_eq!(error_and_count(&Read::first(0, b"\x95", 0, 0)), (-23, 1));
    }

    #[test]
    fn what_a_reading_does_not_judge() {
        let asked = Read::first(0, b"\x00\x00", 0, 1);
        assert_eq!(error_and_count(&asked), (0, 1));
        for frame_type in [2, 3] {
            let answer = read(&Read::first(frame_type, b"\xF6\x00", 0, 1));
            assert_eq!((answer.error, answer.count), (0, 1));
            assert_eq!((answer.video_frame_type, answer.verdict), (0, 0));
        }
    }

    #[test]
    fn a_walk_and_a_reading_agree_with_the_track_request() {
        for Walk { candidate, rooms } in examples::walks() {
            let Candidate {
                frame_type,
                payload,
            } = candidate.clone();
            let (answer, written) = walked(&candidate.tracks(), payload.len(), rooms);
            let seen = crate::pass::Seen::new(frame_type, &payload, 0);
            for number in [0, 1, 2, 3, 8, usize::MAX] {
                let asked = Read {
                    frame_type,
                    count: answer.count,
                    columns: Entries::filled(rooms).with(0, &written),
                    payload: payload.clone(),
                    number,
                };
                if answer.error == 0 {
                    assert_eq!(read(&asked), seen.track(number));
                } else {
                    assert_eq!(read(&asked), refused(frame_type, 0));
                }
            }
        }
    }
}
