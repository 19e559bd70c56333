//! The calls by which the readings of request N9 are told apart.

use common::requirement::AVC;
use common::writing::{AUDIO, METADATA, SCRIPT, VIDEO};

use super::reading::walked;
use super::{Entries, OPUS, Read, Walk};
use crate::containers::Candidate;
use crate::containers::tiled::{self, Form, Track, container, empty_tracks, tracks};

/// One audio track, with an empty body.
const ONE: &[u8] = b"\x95\x01Opus\x07";

/// Frame types that are unknown; those of a row are bytes.
const UNKNOWN: [u32; 2] = [4, 255];

/// A walk, by its frame type, its payload and the lengths of the columns.
fn walk(frame_type: u32, payload: &[u8], rooms: [usize; 4]) -> Walk {
    Walk {
        candidate: Candidate {
            frame_type,
            payload: payload.to_vec(),
        },
        rooms,
    }
}

/// The walks, each of which stands in a row of the stored cases.
pub fn walks() -> Vec<Walk> {
    let mut walks = vec![];
    walks.extend(ordered());
    walks.extend(one_short());
    walks.extend(fitting());
    walks.extend(no_containers());
    walks.extend(many());
    walks
}

/// -21 comes before -24, and that before -22; with any of them the count is 0.
fn ordered() -> Vec<Walk> {
    let mut walks = vec![
        walk(AUDIO, b"\x95\x31Opus\x07", [0; 4]),
        walk(AUDIO, b"\x95\x31Opus\x07", [2; 4]),
        walk(AUDIO, ONE, [0; 4]),
        walk(AUDIO, ONE, [1; 4]),
    ];
    for unknown in UNKNOWN {
        walks.push(walk(unknown, ONE, [1; 4]));
        walks.push(walk(unknown, ONE, [0; 4]));
        walks.push(walk(unknown, b"\x95\x31Opus\x07", [0; 4]));
    }
    walks
}

/// Each column alone is too short: by its only entry, by one of three, and by all of them.
fn one_short() -> Vec<Walk> {
    let three = container(tiled::AUDIO, Form::ManyTracks, 1, &tracks(&[1, 0, 2]));
    let mut walks = vec![];
    for column in 0..4 {
        let with = |others: usize, room| {
            let mut rooms = [others; 4];
            rooms[column] = room;
            rooms
        };
        walks.push(walk(AUDIO, ONE, with(1, 0)));
        walks.push(walk(AUDIO, &three, with(3, 2)));
        walks.push(walk(AUDIO, &three, with(8, 0)));
        // All others are too short.
        walks.push(walk(AUDIO, &three, with(2, 3)));
    }
    walks.push(walk(AUDIO, &three, [2; 4]));
    walks
}

/// Columns that are long enough: as long as there are tracks, longer, of unequal lengths. Entries
/// behind the count are kept.
fn fitting() -> Vec<Walk> {
    let mut walks = vec![
        walk(AUDIO, ONE, [2, 3, 4, 5]),
        walk(AUDIO, ONE, [8; 4]),
        walk(VIDEO, b"\x96\x01avc1\x07", [1; 4]),
        walk(VIDEO, b"\xF6\x03hvc1\x00\xAA\xBB", [1, 2, 1, 2]),
        walk(VIDEO, b"\x86\x0Fav01\xFF\xAA", [3; 4]),
    ];
    for (frame_type, first) in [(AUDIO, tiled::AUDIO), (VIDEO, tiled::VIDEO)] {
        for form in [Form::ManyTracks, Form::ManyTracksManyCodecs] {
            for lengths in [&[0][..], &[3, 0, 257, 0]] {
                let payload = container(first, form, 1, &tracks(lengths));
                let count = lengths.len();
                walks.push(walk(frame_type, &payload, [count; 4]));
                let unequal = [count + 1, count, count + 2, count + 3];
                walks.push(walk(frame_type, &payload, unequal));
            }
        }
    }
    let records = with_records().into_iter();
    walks.extend(records.map(|(frame_type, payload)| walk(frame_type, &payload, [3; 4])));
    walks
}

/// Nothing is filled of a container that is cut behind its first tracks, that is none, or that names
/// itself.
fn no_containers() -> Vec<Walk> {
    let mut walks = vec![];
    let payloads: [&[u8]; 10] = [
        b"",
        b"\x95",
        b"\x95\x01",
        b"\x95\x01Opus",
        b"\x95\x11Opus\x07\x00\x00\x01",
        b"\x95\x11Opus\x07\x00\x00\x00\x08",
        b"\x95\x11Opus\x07\x00\x00\x00\x08\x00\x00\x02\xAA",
        b"\x95\x21Opus\x07\x00\x00\x00fLaC\x08\x00\x00",
        b"\x95\x21Opus\x07\x00\x00\x01\xAAfLa",
        b"\x95\x05Opus\x07",
    ];
    walks.extend(payloads.map(|payload| walk(AUDIO, payload, [2; 4])));
    walks.push(walk(AUDIO, b"\x95\x05Opus\x07", [0; 4]));
    walks.push(walk(AUDIO, b"\x95\x06Opus\x07", [2; 4]));
    walks.push(walk(VIDEO, b"\x96\x06avc1\x07", [2; 4]));
    walks.push(walk(VIDEO, b"\x96\x05avc1\x07", [2; 4]));
    walks.push(walk(VIDEO, b"\xD6\x01avc1\x07", [2; 4]));
    walks.push(walk(VIDEO, ONE, [2; 4]));
    walks.push(walk(SCRIPT, ONE, [2; 4]));
    walks.push(walk(SCRIPT, ONE, [0; 4]));
    walks.push(walk(METADATA, b"\x96\x01avc1\x07", [2; 4]));
    walks
}

/// As many tracks as the columns of a row have entries, one more, the most, and one more.
fn many() -> Vec<Walk> {
    let of = |count, rooms| {
        let tracks = empty_tracks(count);
        let payload = container(tiled::AUDIO, Form::ManyTracksManyCodecs, 1, &tracks);
        walk(AUDIO, &payload, rooms)
    };
    vec![
        of(8, [8; 4]),
        of(8, [8, 8, 8, 7]),
        of(9, [8; 4]),
        of(4_096, [8; 4]),
        of(4_097, [8; 4]),
    ]
}

/// Containers of packet type 0: with records that are valid, refused, and both.
fn with_records() -> Vec<(u32, Vec<u8>)> {
    let track = |id, fourcc: &[u8; 4], body: &[u8]| Track {
        id,
        fourcc: *fourcc,
        body: body.to_vec(),
    };
    let audio = [
        track(1, b"mp4a", b"\x12\x10"),
        track(2, b"mp4a", b"\x12"),
        track(3, b"Opus", b""),
    ];
    let video = [
        track(1, b"avc1", AVC),
        track(2, b"hvc1", AVC),
        track(3, b"vp09", b"\xAA"),
    ];
    let codecs = Form::ManyTracksManyCodecs;
    vec![
        (
            AUDIO,
            container(tiled::AUDIO, Form::OneTrack, 0, &audio[..1]),
        ),
        (
            AUDIO,
            container(tiled::AUDIO, Form::ManyTracks, 0, &audio[..2]),
        ),
        (AUDIO, container(tiled::AUDIO, codecs, 0, &audio)),
        (
            VIDEO,
            container(tiled::VIDEO, Form::OneTrack, 0, &video[..1]),
        ),
        (VIDEO, container(0xA6, codecs, 0, &video)),
        (VIDEO, b"\x96\x00av01\x07\x81\x00\x00\x00".to_vec()),
    ]
}

/// The readings, each of which stands in a row of the stored cases.
pub fn reads() -> Vec<Read> {
    let mut reads = after_walks();
    reads.extend(numbers());
    reads.extend(places());
    reads.extend(payloads());
    reads
}

/// The columns as a walk leaves them, entries behind the count included: each track, and a number
/// past the count.
fn after_walks() -> Vec<Read> {
    let tracks = tracks(&[1, 0, 2]);
    let several = container(tiled::VIDEO, Form::ManyTracksManyCodecs, 1, &tracks);
    let mut walked = with_records();
    walked.push((AUDIO, ONE.to_vec()));
    walked.push((VIDEO, several));
    walked.push((
        VIDEO,
        b"\xE6\x11avc1\x00\x00\x00\x00\xFF\x00\x00\x01\xAA".to_vec(),
    ));
    walked
        .into_iter()
        .flat_map(|(frame_type, payload)| {
            let walk = walk(frame_type, &payload, [4; 4]);
            let (count, columns) = left(&walk);
            (0..=count).map(move |number| Read {
                frame_type,
                count,
                columns: columns.clone(),
                payload: payload.clone(),
                number,
            })
        })
        .collect()
}

/// The count, and what a walk leaves in columns that were full of `A5`.
fn left(walk: &Walk) -> (usize, Entries) {
    let Walk { candidate, rooms } = walk;
    let (answer, written) = walked(&candidate.tracks(), candidate.payload.len(), *rooms);
    (answer.count, Entries::filled(*rooms).with(0, &written))
}

/// Two tracks in columns, with a container that has another one. The FourCC of the second is that of
/// the first read from its other end.
fn foreign() -> Read {
    Read {
        frame_type: AUDIO,
        count: 2,
        columns: Entries {
            ids: vec![9, 10],
            fourccs: vec![OPUS, OPUS.swap_bytes()],
            starts: vec![3, 2],
            lengths: vec![4, 0],
        },
        payload: ONE.to_vec(),
        number: 0,
    }
}

/// What makes columns shorter.
type Shorten = fn(&mut Entries);

/// Counts, numbers and lengths of columns, of which any one can be what refuses.
fn numbers() -> Vec<Read> {
    let mut reads = vec![];
    for frame_type in [AUDIO, VIDEO, SCRIPT, METADATA].into_iter().chain(UNKNOWN) {
        reads.push(Read {
            frame_type,
            number: 1,
            ..foreign()
        });
    }
    reads.extend(UNKNOWN.map(|frame_type| Read {
        frame_type,
        number: 2,
        ..foreign()
    }));
    let counts = [
        (0, 0),
        (1, 0),
        (1, 1),
        (2, 2),
        (77, 1),
        (77, 5),
        (4_096, 0),
        (1 << 32, 0),
        (usize::MAX, 0),
        (usize::MAX, 2),
        (usize::MAX, usize::MAX),
        (2, usize::MAX),
        (2, 1 << 32),
    ];
    reads.extend(counts.map(|(count, number)| Read {
        count,
        number,
        ..foreign()
    }));
    let shortened: [(Shorten, &[usize]); 5] = [
        (|columns| columns.ids.truncate(1), &[0, 1]),
        (|columns| columns.fourccs.truncate(1), &[1]),
        (|columns| columns.starts.truncate(1), &[1]),
        (|columns| columns.lengths.truncate(1), &[1]),
        (|columns| *columns = Entries::default(), &[0]),
    ];
    for (shorten, numbers) in shortened {
        for &number in numbers {
            let mut read = Read {
                number,
                ..foreign()
            };
            shorten(&mut read.columns);
            reads.push(read);
        }
    }
    reads
}

/// Starts and lengths around the end of the payload, and around 2^64.
fn places() -> Vec<Read> {
    let end = ONE.len();
    let places = [
        (0, end),
        (0, end + 1),
        (1, end),
        (end - 1, 1),
        (end, 0),
        (end, 1),
        (end + 1, 0),
        (1 << 63, 0),
        (0, 1 << 63),
        (1 << 63, 1 << 63),
        (usize::MAX, 0),
        (usize::MAX, 1),
        (usize::MAX, 2),
        (2, usize::MAX),
        (usize::MAX, usize::MAX),
        (0, 1 << 32),
    ];
    let at = |(start, length)| {
        let mut read = foreign();
        read.columns.starts[0] = start;
        read.columns.lengths[0] = length;
        read
    };
    places.map(at).into()
}

/// Payloads of a few bytes, and such as are no container.
fn payloads() -> Vec<Read> {
    vec![
        Read::first(AUDIO, b"", 0, 0),
        Read::first(AUDIO, b"\x95", 0, 0),
        Read::first(AUDIO, b"\x95", 0, 1),
        Read::first(AUDIO, b"\x95\x01", 0, 0),
        Read::first(AUDIO, b"\x95\x01", 2, 0),
        Read::first(AUDIO, b"\x95\x01", 3, 0),
        Read::first(AUDIO, b"\x95\x01", usize::MAX, 2),
        // A record without a byte is valid in audio, one of one byte there and in video.
        Read::first(AUDIO, b"\x00\x00", 0, 1),
        Read::first(AUDIO, b"\x00\xF0", 1, 0),
        Read::first(VIDEO, b"\x00\x00", 0, 0),
        Read::first(VIDEO, b"\x17\x00", 0, 2),
        Read::first(VIDEO, b"\xFF\xFF", 0, 2),
        Read::first(VIDEO, b"\xD6\x06", 1, 1),
        Read::first(SCRIPT, b"\xFF\x00", 0, 1),
        Read::first(METADATA, b"\xFF\xF0", 0, 0),
    ]
}
