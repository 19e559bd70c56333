//! The classes of walks and of readings.

use common::requirement::{NOT_A_CONTAINER, OUTPUT_TOO_SHORT, UNKNOWN_FRAME_TYPE};
use common::writing::{AUDIO, METADATA, MOST_TRACKS, SCRIPT, VIDEO};
use hozgrim_sys::{HozgrimColumns, HozgrimTrack};

use super::reading::{LONGEST, Reason, reasons};
use super::{Read, Walk};
use crate::containers::{Candidate, Tracks};
use crate::pass::Seen;
use crate::run::name_of;

/// Those of walks are by the refusal; by the columns that are too short; and by form, records, number
/// of tracks, frame type and what stands behind the tracks in the columns. Those of readings are by
/// the reason to read nothing; and by payload, count, frame type, record and place of the body. An
/// input is of the first class that fits it.
pub const CLASSES: &[&str] = &[
    "walk, -21, a container",
    "walk, -21, a container, a column too short",
    "walk, -21, no container",
    "walk, -24, script data or metadata",
    "walk, -24, script data or metadata, a column without an entry",
    "walk, -24, a payload of 0 bytes",
    "walk, -24, a payload of 0 bytes, a column without an entry",
    "walk, -24, a payload of 1 byte",
    "walk, -24, a payload of 1 byte, a column without an entry",
    "walk, -24, a payload of 2 bytes",
    "walk, -24, a payload of 2 bytes, a column without an entry",
    "walk, -24, another byte 0",
    "walk, -24, another byte 0, a column without an entry",
    "walk, -24, a form above 2",
    "walk, -24, a form above 2, a column without an entry",
    "walk, -24, cut in the first track",
    "walk, -24, cut in the first track, a column without an entry",
    "walk, -24, cut in a later track",
    "walk, -24, cut in a later track, a column without an entry",
    "walk, -24, over 4,096 tracks",
    "walk, -24, over 4,096 tracks, a column without an entry",
    "walk, -24, audio that names itself",
    "walk, -24, audio that names itself, a column without an entry",
    "walk, -24, video that names itself",
    "walk, -24, video that names itself, a column without an entry",
    "walk, -24, a payload over 16,777,215 bytes",
    "walk, -22, ids, no entry for one track",
    "walk, -22, ids, one short",
    "walk, -22, ids, without an entry",
    "walk, -22, ids, shorter",
    "walk, -22, ids, one short of 4,095",
    "walk, -22, ids, one short of 4,096",
    "walk, -22, FourCCs, no entry for one track",
    "walk, -22, FourCCs, one short",
    "walk, -22, FourCCs, without an entry",
    "walk, -22, FourCCs, shorter",
    "walk, -22, FourCCs, one short of 4,095",
    "walk, -22, FourCCs, one short of 4,096",
    "walk, -22, starts, no entry for one track",
    "walk, -22, starts, one short",
    "walk, -22, starts, without an entry",
    "walk, -22, starts, shorter",
    "walk, -22, starts, one short of 4,095",
    "walk, -22, starts, one short of 4,096",
    "walk, -22, lengths, no entry for one track",
    "walk, -22, lengths, one short",
    "walk, -22, lengths, without an entry",
    "walk, -22, lengths, shorter",
    "walk, -22, lengths, one short of 4,095",
    "walk, -22, lengths, one short of 4,096",
    "walk, -22, all columns without an entry",
    "walk, -22, all columns one short",
    "walk, -22, several columns",
    "walk, -22, a payload of 16,777,216 bytes, OneTrack",
    "walk, -22, a payload of 16,777,216 bytes, ManyTracks",
    "walk, -22, a payload of 16,777,216 bytes, ManyTracksManyCodecs",
    "walk, -22, a payload of 16,777,216 bytes, a column too short",
    "walk, -22, a longer payload",
    "walk, a payload of 16,777,215 bytes, OneTrack",
    "walk, a payload of 16,777,215 bytes, ManyTracks",
    "walk, a payload of 16,777,215 bytes, ManyTracksManyCodecs",
    "walk, OneTrack, audio, records valid",
    "walk, OneTrack, audio, records refused",
    "walk, OneTrack, video, records valid",
    "walk, OneTrack, video, records refused",
    "walk, ManyTracks, audio, records valid",
    "walk, ManyTracks, audio, records refused",
    "walk, ManyTracks, audio, records valid and refused",
    "walk, ManyTracks, video, records valid",
    "walk, ManyTracks, video, records refused",
    "walk, ManyTracks, video, records valid and refused",
    "walk, ManyTracksManyCodecs, audio, records valid",
    "walk, ManyTracksManyCodecs, audio, records refused",
    "walk, ManyTracksManyCodecs, audio, records valid and refused",
    "walk, ManyTracksManyCodecs, video, records valid",
    "walk, ManyTracksManyCodecs, video, records refused",
    "walk, ManyTracksManyCodecs, video, records valid and refused",
    "walk, OneTrack, ids alone longer",
    "walk, OneTrack, FourCCs alone longer",
    "walk, OneTrack, starts alone longer",
    "walk, OneTrack, lengths alone longer",
    "walk, ManyTracks, ids alone longer",
    "walk, ManyTracks, FourCCs alone longer",
    "walk, ManyTracks, starts alone longer",
    "walk, ManyTracks, lengths alone longer",
    "walk, ManyTracksManyCodecs, ids alone longer",
    "walk, ManyTracksManyCodecs, FourCCs alone longer",
    "walk, ManyTracksManyCodecs, starts alone longer",
    "walk, ManyTracksManyCodecs, lengths alone longer",
    "walk, OneTrack, one, audio, exact columns",
    "walk, OneTrack, one, audio, columns one longer",
    "walk, OneTrack, one, audio, longer columns",
    "walk, OneTrack, one, video, exact columns",
    "walk, OneTrack, one, video, columns one longer",
    "walk, OneTrack, one, video, longer columns",
    "walk, ManyTracks, one, audio, exact columns",
    "walk, ManyTracks, one, audio, columns one longer",
    "walk, ManyTracks, one, audio, longer columns",
    "walk, ManyTracks, one, video, exact columns",
    "walk, ManyTracks, one, video, columns one longer",
    "walk, ManyTracks, one, video, longer columns",
    "walk, ManyTracks, two, audio, exact columns",
    "walk, ManyTracks, two, audio, columns one longer",
    "walk, ManyTracks, two, audio, longer columns",
    "walk, ManyTracks, two, video, exact columns",
    "walk, ManyTracks, two, video, columns one longer",
    "walk, ManyTracks, two, video, longer columns",
    "walk, ManyTracks, several, audio, exact columns",
    "walk, ManyTracks, several, audio, columns one longer",
    "walk, ManyTracks, several, audio, longer columns",
    "walk, ManyTracks, several, video, exact columns",
    "walk, ManyTracks, several, video, columns one longer",
    "walk, ManyTracks, several, video, longer columns",
    "walk, ManyTracks, 4,095, audio, exact columns",
    "walk, ManyTracks, 4,095, audio, columns one longer",
    "walk, ManyTracks, 4,095, audio, longer columns",
    "walk, ManyTracks, 4,095, video, exact columns",
    "walk, ManyTracks, 4,095, video, columns one longer",
    "walk, ManyTracks, 4,095, video, longer columns",
    "walk, ManyTracks, 4,096, audio, exact columns",
    "walk, ManyTracks, 4,096, audio, columns one longer",
    "walk, ManyTracks, 4,096, audio, longer columns",
    "walk, ManyTracks, 4,096, video, exact columns",
    "walk, ManyTracks, 4,096, video, columns one longer",
    "walk, ManyTracks, 4,096, video, longer columns",
    "walk, ManyTracksManyCodecs, one, audio, exact columns",
    "walk, ManyTracksManyCodecs, one, audio, columns one longer",
    "walk, ManyTracksManyCodecs, one, audio, longer columns",
    "walk, ManyTracksManyCodecs, one, video, exact columns",
    "walk, ManyTracksManyCodecs, one, video, columns one longer",
    "walk, ManyTracksManyCodecs, one, video, longer columns",
    "walk, ManyTracksManyCodecs, two, audio, exact columns",
    "walk, ManyTracksManyCodecs, two, audio, columns one longer",
    "walk, ManyTracksManyCodecs, two, audio, longer columns",
    "walk, ManyTracksManyCodecs, two, video, exact columns",
    "walk, ManyTracksManyCodecs, two, video, columns one longer",
    "walk, ManyTracksManyCodecs, two, video, longer columns",
    "walk, ManyTracksManyCodecs, several, audio, exact columns",
    "walk, ManyTracksManyCodecs, several, audio, columns one longer",
    "walk, ManyTracksManyCodecs, several, audio, longer columns",
    "walk, ManyTracksManyCodecs, several, video, exact columns",
    "walk, ManyTracksManyCodecs, several, video, columns one longer",
    "walk, ManyTracksManyCodecs, several, video, longer columns",
    "walk, ManyTracksManyCodecs, 4,095, audio, exact columns",
    "walk, ManyTracksManyCodecs, 4,095, audio, columns one longer",
    "walk, ManyTracksManyCodecs, 4,095, audio, longer columns",
    "walk, ManyTracksManyCodecs, 4,095, video, exact columns",
    "walk, ManyTracksManyCodecs, 4,095, video, columns one longer",
    "walk, ManyTracksManyCodecs, 4,095, video, longer columns",
    "walk, ManyTracksManyCodecs, 4,096, audio, exact columns",
    "walk, ManyTracksManyCodecs, 4,096, audio, columns one longer",
    "walk, ManyTracksManyCodecs, 4,096, audio, longer columns",
    "walk, ManyTracksManyCodecs, 4,096, video, exact columns",
    "walk, ManyTracksManyCodecs, 4,096, video, columns one longer",
    "walk, ManyTracksManyCodecs, 4,096, video, longer columns",
    "reading, -21, nothing to be read",
    "reading, -21, a track to be read",
    "reading, -23, count 0",
    "reading, -23, the number at the count",
    "reading, -23, the number past the count",
    "reading, -23, no id",
    "reading, -23, no id, count over 4,096",
    "reading, -23, no FourCC",
    "reading, -23, no FourCC, count over 4,096",
    "reading, -23, no start",
    "reading, -23, no start, count over 4,096",
    "reading, -23, no length",
    "reading, -23, no length, count over 4,096",
    "reading, -23, a payload of 0 bytes",
    "reading, -23, a payload of 1 byte",
    "reading, -23, an empty body past the end",
    "reading, -23, a body past the end",
    "reading, -23, a body that leaves the payload by a byte",
    "reading, -23, a body that leaves the payload",
    "reading, -23, a body that ends at 2^64",
    "reading, -23, a body past 2^64",
    "reading, -23, a body past 2^64, within the payload if it wraps",
    "reading, -23, several reasons",
    "reading, a payload of 2 bytes, audio",
    "reading, a payload of 2 bytes, video",
    "reading, a payload of 2 bytes, script data",
    "reading, a payload of 2 bytes, metadata",
    "reading, a payload over 16,777,215 bytes",
    "reading, count 2^64-1",
    "reading, count 4,096",
    "reading, a column shorter than the count",
    "reading, audio, no record, the whole payload",
    "reading, audio, no record, an empty body at the end",
    "reading, audio, no record, an empty body",
    "reading, audio, no record, a body at the end",
    "reading, audio, no record, a body within",
    "reading, audio, a valid record, the whole payload",
    "reading, audio, a valid record, an empty body at the end",
    "reading, audio, a valid record, an empty body",
    "reading, audio, a valid record, a body at the end",
    "reading, audio, a valid record, a body within",
    "reading, audio, a refused record, the whole payload",
    "reading, audio, a refused record, an empty body at the end",
    "reading, audio, a refused record, an empty body",
    "reading, audio, a refused record, a body at the end",
    "reading, audio, a refused record, a body within",
    "reading, video, no record, the whole payload",
    "reading, video, no record, an empty body at the end",
    "reading, video, no record, an empty body",
    "reading, video, no record, a body at the end",
    "reading, video, no record, a body within",
    "reading, video, a valid record, the whole payload",
    "reading, video, a valid record, a body at the end",
    "reading, video, a valid record, a body within",
    "reading, video, a refused record, the whole payload",
    "reading, video, a refused record, an empty body at the end",
    "reading, video, a refused record, an empty body",
    "reading, video, a refused record, a body at the end",
    "reading, video, a refused record, a body within",
    "reading, script data, packet type 0, the whole payload",
    "reading, script data, packet type 0, an empty body at the end",
    "reading, script data, packet type 0, an empty body",
    "reading, script data, packet type 0, a body at the end",
    "reading, script data, packet type 0, a body within",
    "reading, script data, another packet type, the whole payload",
    "reading, script data, another packet type, an empty body at the end",
    "reading, script data, another packet type, an empty body",
    "reading, script data, another packet type, a body at the end",
    "reading, script data, another packet type, a body within",
    "reading, metadata, packet type 0, the whole payload",
    "reading, metadata, packet type 0, an empty body at the end",
    "reading, metadata, packet type 0, an empty body",
    "reading, metadata, packet type 0, a body at the end",
    "reading, metadata, packet type 0, a body within",
    "reading, metadata, another packet type, the whole payload",
    "reading, metadata, another packet type, an empty body at the end",
    "reading, metadata, another packet type, an empty body",
    "reading, metadata, another packet type, a body at the end",
    "reading, metadata, another packet type, a body within",
];

/// The names of the forms.
const FORMS: [&str; 3] = ["OneTrack", "ManyTracks", "ManyTracksManyCodecs"];

/// The names of the columns, and of what they have for a track.
const COLUMNS: [&str; 4] = ["ids", "FourCCs", "starts", "lengths"];
const ENTRIES: [&str; 4] = ["id", "FourCC", "start", "length"];

/// The names of the frame types.
const TYPES: [&str; 4] = ["audio", "video", "script data", "metadata"];

/// The parts of its name, put together.
fn listed(parts: &[&str]) -> &'static str {
    let name = parts.join(", ");
    let known = CLASSES.iter().find(|known| **known == name);
    known.unwrap_or_else(|| panic!("no input is of the class {name}"))
}

/// The class of a walk with these tracks and this answer.
pub fn of_walk(walk: &Walk, tracks: &Tracks, answer: &HozgrimColumns) -> &'static str {
    match (answer.error, tracks) {
        (UNKNOWN_FRAME_TYPE, _) => of_unknown(walk),
        (NOT_A_CONTAINER, _) => of_none(walk),
        (OUTPUT_TOO_SHORT, Ok(tracks)) => of_short(walk, tracks.len()),
        _ => of_filled(walk, answer.count),
    }
}

/// By what audio or video of these bytes would be.
fn of_unknown(walk: &Walk) -> &'static str {
    let as_type = |frame_type| Candidate {
        frame_type,
        payload: walk.candidate.payload.clone(),
    };
    let counts = [AUDIO, VIDEO].map(|number| as_type(number).tracks().map(|tracks| tracks.len()));
    let count = counts.into_iter().find_map(Result::ok);
    let short = |count| walk.rooms.iter().any(|room| *room < count);
    match count {
        Some(count) if short(count) => listed(&["walk, -21", "a container", "a column too short"]),
        Some(_) => listed(&["walk, -21", "a container"]),
        None => listed(&["walk, -21", "no container"]),
    }
}

/// By the first reason. Any container has a track, so that a column without an entry would be too
/// short.
fn of_none(walk: &Walk) -> &'static str {
    let Walk { candidate, rooms } = walk;
    let length = candidate.payload.len();
    if length > LONGEST {
        return listed(&["walk, -24", "a payload over 16,777,215 bytes"]);
    }
    let reason = match (name_of(candidate.class()), length) {
        ("refused: Script or Metadata", _) => "script data or metadata",
        (_, 0) => "a payload of 0 bytes",
        (_, 1) => "a payload of 1 byte",
        (_, 2) => "a payload of 2 bytes",
        ("refused: form above 2", _) => "a form above 2",
        ("refused: over 4,096 tracks", _) => "over 4,096 tracks",
        (name, _) if name.starts_with("refused: first") => "cut in the first track",
        (name, _) if name.starts_with("refused: later") => "cut in a later track",
        (name, _) if name.starts_with("refused: audio that names") => "audio that names itself",
        (name, _) if name.starts_with("refused: video that names") => "video that names itself",
        _ => "another byte 0",
    };
    match rooms.contains(&0) {
        true => listed(&["walk, -24", reason, "a column without an entry"]),
        false => listed(&["walk, -24", reason]),
    }
}

/// By the payload, and by the columns that have fewer entries than there are tracks.
fn of_short(walk: &Walk, count: usize) -> &'static str {
    let Walk { candidate, rooms } = walk;
    let short: Vec<usize> = (0..4).filter(|&column| rooms[column] < count).collect();
    let one_more = "a payload of 16,777,216 bytes";
    match (candidate.payload.len(), &short[..]) {
        (length, []) if length == LONGEST + 1 => {
            listed(&["walk, -22", one_more, form_of(candidate)])
        }
        (length, _) if length == LONGEST + 1 => {
            listed(&["walk, -22", one_more, "a column too short"])
        }
        (length, _) if length > LONGEST => listed(&["walk, -22", "a longer payload"]),
        (_, &[column]) => {
            let how = how_short(rooms[column], count);
            listed(&["walk, -22", COLUMNS[column], how])
        }
        _ if *rooms == [0; 4] => listed(&["walk, -22", "all columns without an entry"]),
        _ if *rooms == [count - 1; 4] => listed(&["walk, -22", "all columns one short"]),
        _ => listed(&["walk, -22", "several columns"]),
    }
}

fn how_short(room: usize, count: usize) -> &'static str {
    match (count, room) {
        (1, _) => "no entry for one track",
        (4_096, 4_095) => "one short of 4,096",
        (4_095, 4_094) => "one short of 4,095",
        (_, 0) => "without an entry",
        _ if room + 1 == count => "one short",
        _ => "shorter",
    }
}

/// By the payload, the records, and the columns.
fn of_filled(walk: &Walk, count: usize) -> &'static str {
    let Walk { candidate, rooms } = walk;
    let form = form_of(candidate);
    let name = TYPES[candidate.frame_type as usize];
    if candidate.payload.len() == LONGEST {
        return listed(&["walk", "a payload of 16,777,215 bytes", form]);
    }
    if let Some(records) = records_of(candidate, count) {
        return listed(&["walk", form, name, records]);
    }
    let longer: Vec<usize> = (0..4).filter(|&column| rooms[column] > count).collect();
    if let [column] = longer[..] {
        let columns = format!("{} alone longer", COLUMNS[column]);
        return listed(&["walk", form, &columns]);
    }
    let columns = match longer.len() {
        0 => "exact columns",
        _ if *rooms == [count + 1; 4] => "columns one longer",
        _ => "longer columns",
    };
    let number = match count {
        1 => "one",
        2 => "two",
        MOST_TRACKS => "4,096",
        4_095 => "4,095",
        _ => "several",
    };
    listed(&["walk", form, number, name, columns])
}

fn form_of(candidate: &Candidate) -> &'static str {
    FORMS[usize::from(candidate.payload[1] >> 4)]
}

/// Which of the records are valid, if tracks of this container have any.
fn records_of(candidate: &Candidate, count: usize) -> Option<&'static str> {
    let seen = Seen::new(candidate.frame_type, &candidate.payload, 0);
    let verdicts: Vec<u8> = (0..count)
        .map(|number| seen.track(number).verdict)
        .collect();
    match (verdicts.contains(&1), verdicts.contains(&2)) {
        (true, true) => Some("records valid and refused"),
        (true, false) => Some("records valid"),
        (false, true) => Some("records refused"),
        (false, false) => None,
    }
}

/// The class of a reading with this answer.
pub fn of_read(read: &Read, answer: &HozgrimTrack) -> &'static str {
    let reasons = reasons(read);
    match (&reasons[..], answer.error) {
        ([], UNKNOWN_FRAME_TYPE) => listed(&["reading, -21", "a track to be read"]),
        (_, UNKNOWN_FRAME_TYPE) => listed(&["reading, -21", "nothing to be read"]),
        ([], _) => of_found(read, answer),
        ([reason], _) => of_reason(read, *reason),
        _ => listed(&["reading, -23", "several reasons"]),
    }
}

fn of_reason(read: &Read, reason: Reason) -> &'static str {
    match reason {
        Reason::Count if read.count == 0 => listed(&["reading, -23", "count 0"]),
        Reason::Count if read.number == read.count => {
            listed(&["reading, -23", "the number at the count"])
        }
        Reason::Count => listed(&["reading, -23", "the number past the count"]),
        Reason::Ids => of_column(read, 0),
        Reason::Fourccs => of_column(read, 1),
        Reason::Starts => of_column(read, 2),
        Reason::Lengths => of_column(read, 3),
        Reason::Payload if read.payload.is_empty() => {
            listed(&["reading, -23", "a payload of 0 bytes"])
        }
        Reason::Payload => listed(&["reading, -23", "a payload of 1 byte"]),
        Reason::Start | Reason::End | Reason::Wrap => of_place(read, reason),
    }
}

fn of_column(read: &Read, column: usize) -> &'static str {
    let missing = format!("no {}", ENTRIES[column]);
    match read.count > MOST_TRACKS {
        true => listed(&["reading, -23", &missing, "count over 4,096"]),
        false => listed(&["reading, -23", &missing]),
    }
}

/// The body leaves the payload.
fn of_place(read: &Read, reason: Reason) -> &'static str {
    let start = read.columns.starts[read.number];
    let length = read.columns.lengths[read.number];
    let (end, size) = (start.wrapping_add(length), read.payload.len());
    let how = match reason {
        Reason::Start if length == 0 => "an empty body past the end",
        Reason::Start => "a body past the end",
        Reason::End if end == size + 1 => "a body that leaves the payload by a byte",
        Reason::End => "a body that leaves the payload",
        _ if end == 0 => "a body that ends at 2^64",
        _ if end <= size => "a body past 2^64, within the payload if it wraps",
        _ => "a body past 2^64",
    };
    listed(&["reading, -23", how])
}

/// A track is read.
fn of_found(read: &Read, answer: &HozgrimTrack) -> &'static str {
    let name = TYPES[read.frame_type as usize];
    let size = read.payload.len();
    let shortest = read.columns.rooms().into_iter().min().unwrap_or(0);
    match (size, read.count) {
        (2, _) => return listed(&["reading", "a payload of 2 bytes", name]),
        _ if size > LONGEST => return listed(&["reading", "a payload over 16,777,215 bytes"]),
        (_, usize::MAX) => return listed(&["reading", "count 2^64-1"]),
        (_, MOST_TRACKS) => return listed(&["reading", "count 4,096"]),
        (_, count) if shortest < count => {
            return listed(&["reading", "a column shorter than the count"]);
        }
        _ => {}
    }
    let record = match (read.frame_type, answer.packet_type, answer.verdict) {
        (SCRIPT | METADATA, 0, _) => "packet type 0",
        (SCRIPT | METADATA, ..) => "another packet type",
        (_, _, 0) => "no record",
        (_, _, 1) => "a valid record",
        _ => "a refused record",
    };
    let at_end = answer.start + answer.length == size;
    let place = match (answer.start, answer.length) {
        (0, length) if length == size => "the whole payload",
        (_, 0) if at_end => "an empty body at the end",
        (_, 0) => "an empty body",
        _ if at_end => "a body at the end",
        _ => "a body within",
    };
    listed(&["reading", name, record, place])
}
