//! Payloads with columns that they are walked into, and columns with payloads: the inputs of the
//! comparison.

use std::iter;

use common::layers::truncations;
use common::requirement::AVC;
use common::rng::Rng;
use common::strings;
use common::writing::{AUDIO, VIDEO};

use super::examples;
use super::reading::{LONGEST, walked};
use super::{Asked, Entries, Read, Walk};
use crate::classify::frames;
use crate::containers::Candidate;
use crate::containers::tiled::{self, FORMS, Form, container, empty_tracks, tracks};

/// The numbers of the frame types, and one that is none.
const TYPES: [u32; 5] = [0, 1, 2, 3, 4];

/// How many tracks containers have that are walked into columns of all lengths.
const COUNTS: [usize; 9] = [1, 2, 3, 8, 9, 4_094, 4_095, 4_096, 4_097];

/// The lengths of columns, by the number of tracks.
type Rooms = fn(usize) -> [usize; 4];

/// Exact, one longer and longer; some longer; some short, and all of them; without an entry.
const ROOMS: [Rooms; 11] = [
    |count| [count; 4],
    |count| [count + 1; 4],
    |count| [count + 1, count, count + 2, count + 9],
    |count| [count, count + 1, count + 1, count],
    |count| [count + 5; 4],
    |count| [count - 1; 4],
    |_| [0; 4],
    |count| [count, count - 1, count, count - 1],
    |count| [count / 2; 4],
    |count| [0, count, count, 0],
    |count| [4_096.max(count); 4],
];

/// The length of a column, by the number of tracks.
type Room = fn(usize) -> usize;

/// One column alone has this length: one longer, longer, one short, shorter, without an entry.
const ALONE: [Room; 5] = [
    |count| count + 1,
    |count| count + 7,
    |count| count - 1,
    |count| count / 2,
    |_| 0,
];

/// A start, or a length, by that of the payload.
type Place = fn(usize) -> usize;

/// Within the payload, around its end, far beyond it, and where a sum with it has no 64 bits.
const PLACES: [Place; 10] = [
    |_| 0,
    |_| 1,
    |size| size.wrapping_sub(1),
    |size| size,
    |size| size + 1,
    |_| 1 << 63,
    |_| usize::MAX,
    |size| usize::MAX - size,
    |size| size / 2,
    |_| 1 << 32,
];

/// Counts, and numbers of tracks, that are lent with two entries.
const LENT_COUNTS: [usize; 7] = [0, 1, 2, 3, 4_096, 1 << 32, usize::MAX];
const NUMBERS: [usize; 6] = [0, 1, 2, 3, 1 << 32, usize::MAX];

/// The most tracks in random columns that are not of a container.
const FEW: usize = 9;

/// The FourCCs of two tracks, whose records have a rule of their own.
const FOURCCS: [u32; 2] = [u32::from_be_bytes(*b"avc1"), u32::from_be_bytes(*b"Opus")];

/// The examples; then readings and walks of each shape.
pub fn listed() -> impl Iterator<Item = Asked> {
    let examples = examples::walks().into_iter().map(Asked::Walk);
    let reads = examples::reads().into_iter();
    let reads = reads.chain(foreign_places()).chain(foreign_numbers());
    let walks = counted().chain(short()).chain(unknown()).chain(shapes());
    examples
        .chain(reads.map(Asked::Read))
        .chain(walks.map(Asked::Walk))
        .chain(long())
}

/// The walk of a payload into columns of these lengths, by the number of its tracks; of none, by one.
fn walk(candidate: Candidate, rooms: impl Fn(usize) -> [usize; 4]) -> Walk {
    let count = candidate.tracks().map_or(1, |tracks| tracks.len());
    Walk {
        rooms: rooms(count),
        candidate,
    }
}

/// Into columns of all lengths.
fn into_each(candidate: Candidate) -> impl Iterator<Item = Walk> {
    let together = {
        let candidate = candidate.clone();
        ROOMS
            .into_iter()
            .map(move |rooms| walk(candidate.clone(), rooms))
    };
    let alone = (0..4).flat_map(move |column| {
        let candidate = candidate.clone();
        ALONE.into_iter().map(move |room| {
            walk(candidate.clone(), |count| {
                let mut rooms = [count; 4];
                rooms[column] = room(count);
                rooms
            })
        })
    });
    together.chain(alone)
}

/// Containers of each form and of several numbers of tracks, with records and without.
fn counted() -> impl Iterator<Item = Walk> {
    let counts = COUNTS.into_iter();
    let forms = counts.flat_map(|count| FORMS.map(|form| (count, form)));
    let heads =
        forms.flat_map(|(count, form)| [0, 1].map(|packet_type| (count, form, packet_type)));
    let candidates = heads.flat_map(|(count, form, packet_type)| {
        [(AUDIO, tiled::AUDIO), (VIDEO, tiled::VIDEO)].map(|(frame_type, first)| {
            let mut tracks = empty_tracks(count);
            tracks[count / 2].body = vec![0xAA; 3];
            Candidate {
                frame_type,
                payload: container(first, form, packet_type, &tracks),
            }
        })
    });
    candidates.flat_map(into_each)
}

/// Every string of 0 to 2 bytes, as audio and as video; and containers with the packet types of
/// containers, cut off at every byte, as every frame type.
fn short() -> impl Iterator<Item = Walk> {
    let rooms = [[1; 4], [0; 4], [1, 1, 0, 1], [2; 4]];
    let strings = strings::up_to_two_bytes().zip(rooms.into_iter().cycle());
    let strings = strings.flat_map(|(payload, rooms)| as_types(payload, &[AUDIO, VIDEO], &[rooms]));
    let naming = tiled::naming().flat_map(truncations);
    let naming = naming.flat_map(|payload| as_types(payload, &TYPES, &[[3; 4], [0, 3, 3, 3]]));
    strings.chain(naming)
}

/// The payload as each of these frame types, into columns of each of these lengths.
fn as_types(payload: Vec<u8>, types: &[u32], rooms: &[[usize; 4]]) -> Vec<Walk> {
    let candidates = types.iter().map(|&frame_type| Candidate {
        frame_type,
        payload: payload.clone(),
    });
    let walks = candidates.flat_map(|candidate| {
        rooms.iter().map(move |&rooms| Walk {
            candidate: candidate.clone(),
            rooms,
        })
    });
    walks.collect()
}

/// Frame types that are unknown, also where their low bits are not.
fn unknown() -> impl Iterator<Item = Walk> {
    let heads = [(tiled::AUDIO, &[2][..]), (tiled::VIDEO, &[2, 2, 2])];
    let payloads =
        heads.map(|(first, lengths)| container(first, Form::ManyTracks, 1, &tracks(lengths)));
    let cut = payloads.into_iter().flat_map(truncations);
    let rooms = [[3; 4], [0; 4], [3, 3, 0, 3]];
    cut.flat_map(move |payload| as_types(payload, &tiled::UNKNOWN, &rooms))
}

/// The payloads of the comparison of containers, and those with records, whole, cut off at every
/// byte and with each byte changed, as audio and as video. The lengths of the columns take turns.
fn shapes() -> impl Iterator<Item = Walk> {
    let payloads = tiled::payloads().chain(frames::containers());
    payloads.enumerate().flat_map(|(at, payload)| {
        [AUDIO, VIDEO].map(|frame_type| {
            let candidate = Candidate {
                frame_type,
                payload: payload.clone(),
            };
            walk(candidate, ROOMS[at % ROOMS.len()])
        })
    })
}

/// Payloads around the longest one that is walked, in each form, and such as are no container; also
/// with a column that is too short. A longer payload is read from all the same.
fn long() -> impl Iterator<Item = Asked> {
    let sizes = [LONGEST - 1, LONGEST, LONGEST + 1, LONGEST + 2].into_iter();
    let forms = sizes.flat_map(|size| FORMS.map(|form| (size, form)));
    let each = forms.flat_map(|(size, form)| {
        [AUDIO, VIDEO].into_iter().flat_map(move |frame_type| {
            let candidate = long_container(frame_type, form, size);
            let mut none = candidate.clone();
            none.payload[1] |= 0x30;
            let rooms = [1; 4];
            [candidate, none].map(|candidate| Walk { candidate, rooms })
        })
    });
    let short = [LONGEST, LONGEST + 1].map(|size| Walk {
        candidate: long_container(AUDIO, Form::OneTrack, size),
        rooms: [1, 1, 0, 1],
    });
    let reads = [(LONGEST + 1, 0), (LONGEST + 2, 1)].map(|(size, number)| Read {
        frame_type: AUDIO,
        count: 2,
        columns: entries([7, size - 1], [size - 7, 1]),
        payload: long_container(AUDIO, Form::OneTrack, size).payload,
        number,
    });
    let walks = each.chain(short).map(Asked::Walk);
    walks.chain(reads.map(Asked::Read))
}

/// A container of so many bytes with one track, which has a record in video.
fn long_container(frame_type: u32, form: Form, size: usize) -> Candidate {
    let (first, packet_type) = match frame_type {
        AUDIO => (tiled::AUDIO, 1),
        _ => (tiled::VIDEO, 0),
    };
    let of = |length| container(first, form, packet_type, &tracks(&[length]));
    Candidate {
        frame_type,
        payload: of(size - of(0).len()),
    }
}

/// Two tracks with these places.
fn entries(starts: [usize; 2], lengths: [usize; 2]) -> Entries {
    Entries {
        ids: vec![7, 255],
        fourccs: FOURCCS.to_vec(),
        starts: starts.to_vec(),
        lengths: lengths.to_vec(),
    }
}

/// What columns are lent with that do not belong to it: payloads of a few bytes, containers of both
/// kinds with packet type 0 and another, records behind two bytes, and no containers.
fn lent_payloads() -> [Vec<u8>; 12] {
    [
        vec![],
        vec![0x95],
        vec![0x95, 0x01],
        vec![0x95, 0x00],
        vec![0xF6, 0xF0],
        vec![0x00, 0x00, 0x00],
        vec![0x17, 0x10, 0x12, 0x10],
        b"\x95\x01Opus\x07".to_vec(),
        b"\x96\x00avc1\x07".to_vec(),
        b"\xD6\x35avc1\x07\xAA".to_vec(),
        [b"\x96\x00", AVC].concat(),
        [b"\x00\x10", AVC].concat(),
    ]
}

/// Starts and lengths within the payload, around its end, and where their sum has no 64 bits.
fn foreign_places() -> impl Iterator<Item = Read> {
    let payloads = lent_payloads().into_iter();
    let types = payloads.flat_map(|payload| TYPES.map(|frame_type| (frame_type, payload.clone())));
    types.flat_map(|(frame_type, payload)| {
        let places = PLACES.map(|place| place(payload.len()));
        let starts = places.into_iter().chain([2, 3]);
        let both = starts.flat_map(move |start| {
            let lengths = places.into_iter().chain([2, AVC.len()]);
            lengths.map(move |length| (start, length))
        });
        both.flat_map(move |(start, length)| {
            [0, 1].map(|number| Read {
                frame_type,
                count: 2,
                columns: entries([start; 2], [length; 2]),
                payload: payload.clone(),
                number,
            })
        })
    })
}

/// Each count and number, with columns of 0 to 2 entries each.
fn foreign_numbers() -> impl Iterator<Item = Read> {
    let payloads: [&[u8]; 3] = [b"\x95", b"\x95\x01Opus\x07", b"\x96\x00avc1\x07"];
    let numbers = LENT_COUNTS
        .into_iter()
        .flat_map(|count| NUMBERS.map(|number| (count, number)));
    let heads = numbers.flat_map(move |(count, number)| {
        let payloads = payloads.into_iter();
        payloads.flat_map(move |payload| {
            TYPES.map(|frame_type| Read {
                frame_type,
                count,
                columns: entries([2, 7], [4, 0]),
                payload: payload.to_vec(),
                number,
            })
        })
    });
    heads.flat_map(|read| {
        (0..81).map(move |rooms: usize| {
            let mut read = read.clone();
            read.columns.ids.truncate(rooms % 3);
            read.columns.fourccs.truncate(rooms / 3 % 3);
            read.columns.starts.truncate(rooms / 9 % 3);
            read.columns.lengths.truncate(rooms / 27);
            read
        })
    })
}

/// Every other one is a walk. Their payloads, and those of most readings, are containers, many of
/// them damaged.
pub fn random(rng: &mut Rng) -> Asked {
    let candidate = random_candidate(rng);
    if rng.one_in(2) {
        let rooms = random_rooms(rng, &candidate);
        return Asked::Walk(Walk { candidate, rooms });
    }
    Asked::Read(random_read(rng, candidate))
}

fn random_candidate(rng: &mut Rng) -> Candidate {
    if !rng.one_in(3) {
        return tiled::random(rng);
    }
    let payload = frames::random_container(rng);
    let video = payload.first().is_some_and(|first| first & 0x0F == 6);
    Candidate {
        frame_type: u32::from(video),
        payload,
    }
}

/// Mostly long enough; of every fourth walk one column is not, or two.
fn random_rooms(rng: &mut Rng, candidate: &Candidate) -> [usize; 4] {
    let count = candidate
        .tracks()
        .map_or(rng.below(4), |tracks| tracks.len());
    let more = match rng.below(4) {
        0 => [0; 4],
        1 => [1; 4],
        _ => [0; 4].map(|_: usize| rng.below(4)),
    };
    let mut rooms = more.map(|more| count + more);
    if rng.one_in(4) {
        for _ in 0..1 + rng.below(2) {
            let short = match rng.below(3) {
                0 => 0,
                1 => count.saturating_sub(1),
                _ => rng.below(count + 1),
            };
            rooms[rng.below(4)] = short;
        }
    }
    rooms
}

/// From columns that a walk left, mostly with some change; or from columns of random places.
fn random_read(rng: &mut Rng, candidate: Candidate) -> Read {
    let rooms = random_rooms(rng, &candidate);
    let (answer, written) = walked(&candidate.tracks(), candidate.payload.len(), rooms);
    let Candidate {
        mut frame_type,
        mut payload,
    } = candidate;
    let mut columns = Entries::filled(rooms).with(0, &written);
    let mut count = answer.count;
    if count == 0 {
        count = 1 + rng.below(4);
        columns = random_entries(rng, count, payload.len());
    }
    let mut number = rng.below(count + 1).min(rng.below(count + 1));
    if rng.one_in(4) {
        frame_type = rng.below(5) as u32;
    }
    match rng.below(10) {
        0 => count = random_number(rng),
        1 => number = random_number(rng),
        2 => columns.ids.truncate(rng.below(count + 1)),
        3 => columns.fourccs.truncate(rng.below(count + 1)),
        4 => columns.starts.truncate(rng.below(count + 1)),
        5 => columns.lengths.truncate(rng.below(count + 1)),
        6 => payload.truncate(rng.below(payload.len() + 1)),
        7 => columns = random_entries(rng, count, payload.len()),
        8 => payload
            .iter_mut()
            .take(2)
            .for_each(|byte| *byte = rng.byte()),
        _ => {}
    }
    Read {
        frame_type,
        count,
        columns,
        payload,
        number,
    }
}

/// Mostly small.
fn random_number(rng: &mut Rng) -> usize {
    match rng.below(4) {
        0 => rng.number() as usize,
        1 => *rng.pick(&LENT_COUNTS),
        _ => rng.below(9),
    }
}

/// So many tracks, or the most of a few, whose places are mostly in a payload of this length.
fn random_entries(rng: &mut Rng, count: usize, size: usize) -> Entries {
    let count = count.min(FEW);
    let mut places = || {
        let place = || match rng.below(16) {
            0 => rng.pick(&PLACES)(size),
            1 => rng.number() as usize,
            2 => rng.below(size + 2),
            _ => rng.below(size + 1) / 2,
        };
        iter::repeat_with(place).take(count).collect()
    };
    let (starts, lengths) = (places(), places());
    let fourcc = |rng: &mut Rng| match rng.below(3) {
        0 => rng.number() as u32,
        at => FOURCCS[at - 1],
    };
    Entries {
        ids: rng.bytes(count),
        fourccs: (0..count).map(|_| fourcc(rng)).collect(),
        starts,
        lengths,
    }
}
