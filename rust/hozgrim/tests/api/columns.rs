//! Tracks in columns: what a walk leaves, what is read from it, and what it refuses.

use std::ops::Range;
use std::ptr;

use hozgrim::FrameType::{self, Audio, Metadata, Script, Video};
use hozgrim::{
    ColumnBuffers, Columns, ColumnsMut, ContainerHead, Form, FourCc, LentColumns, PacketType,
    Refusal, Track, TrackColumns, Verdict, track, tracks,
};

/// As many bytes as a payload may have that is walked into columns.
const LONGEST: usize = 16_777_215;

/// Containers of each form, with records that are valid, refused and mixed, and without.
pub const CONTAINERS: [(FrameType, &[u8]); 8] = [
    (Audio, b"\x95\x01Opus\x07\xAA\xBB"),
    (Audio, b"\x95\x01Opus\x07"),
    (Video, b"\x96\x00av01\x07\x81\x00\x00\x00"),
    (Video, b"\xA6\x11avc1\x07\x00\x00\x00"),
    (Audio, b"\x95\x10mp4a\x01\x00\x00\x02\x12\x10"),
    (
        Audio,
        b"\x95\x20mp4a\x00\x00\x00\x01\x12Opus\x01\x00\x00\x00",
    ),
    (
        Video,
        b"\x96\x13hvc1\x05\x00\x00\x00\x04\x00\x00\x01\xAA\x03\x00\x00\x02\xBB\xCC\
          \x03\x00\x00\x00\x01\x00\x00\x03\xDD\xEE\xFF",
    ),
    (
        Video,
        b"\xF6\x2Favc1\xFF\x00\x00\x01\xAA\x00\x00\x00\x00\x00\x00\x00\x02\xBB\xCC",
    ),
];

/// Columns to be lent. Each may have its own length.
#[derive(Clone, Debug, PartialEq)]
pub struct Memory {
    pub ids: Vec<u8>,
    pub fourccs: Vec<u32>,
    pub starts: Vec<usize>,
    pub lengths: Vec<usize>,
}

impl Memory {
    /// Of these lengths, full of numbers that no track here has.
    pub fn filled([ids, fourccs, starts, lengths]: [usize; 4]) -> Self {
        Self {
            ids: vec![0xA5; ids],
            fourccs: vec![0xA5A5_A5A5; fourccs],
            starts: vec![usize::MAX; starts],
            lengths: vec![usize::MAX - 1; lengths],
        }
    }

    pub fn lend(&mut self) -> ColumnsMut<'_> {
        ColumnsMut {
            ids: &mut self.ids,
            fourccs: &mut self.fourccs,
            starts: &mut self.starts,
            lengths: &mut self.lengths,
        }
    }

    /// Entries that tracks do not have, from this one on.
    pub fn is_kept_from(&self, count: usize) -> bool {
        self.ids.iter().skip(count).all(|id| *id == 0xA5)
            && self.fourccs.iter().skip(count).all(|it| *it == 0xA5A5_A5A5)
            && self.starts.iter().skip(count).all(|it| *it == usize::MAX)
            && self
                .lengths
                .iter()
                .skip(count)
                .all(|it| *it == usize::MAX - 1)
    }
}

/// Numbers below the count, beside it and far from it.
fn numbers(count: usize) -> impl Iterator<Item = usize> {
    let far = [count, count + 1, 4_095, 4_096, usize::MAX - 1, usize::MAX];
    (0..count).chain(far)
}

/// Every reading and every step is what the request for a track gives.
fn assert_equal(columns: LentColumns, frame_type: FrameType, payload: &[u8]) {
    for number in numbers(columns.len()) {
        let expected = track(frame_type, payload, number);
        assert_eq!(columns.track(number), expected, "{number}: {payload:02X?}");
    }
    for (number, step) in columns.iter().enumerate() {
        let expected = track(frame_type, payload, number);
        assert_eq!(Ok(step), expected, "{number}: {payload:02X?}");
    }
}

#[test]
fn every_reading_is_what_the_request_gives() {
    let mut verdicts = vec![];
    for (frame_type, payload) in CONTAINERS {
        let columns = Columns::walk(frame_type, payload).expect("a container");
        assert_equal(columns.lent(), frame_type, payload);
        for number in numbers(columns.len()) {
            let expected = track(frame_type, payload, number);
            assert_eq!(columns.track(number), expected);
        }
        verdicts.extend(columns.iter().map(|track| track.verdict));

        let mut memory = Memory::filled([8; 4]);
        let lent = memory.lend().walk(frame_type, payload);
        assert_eq!(lent, Ok(columns.lent()));
        assert_equal(lent.expect("a container"), frame_type, payload);
    }
    for verdict in [None, Some(Verdict::Valid), Some(Verdict::Refused)] {
        assert!(verdicts.contains(&verdict), "{verdict:?}");
    }
}

#[test]
fn a_number_that_is_not_below_the_count() {
    let (frame_type, payload) = CONTAINERS[6];
    let columns = Columns::walk(frame_type, payload).expect("a container");
    for number in [5, 6, 16, 4_096, usize::MAX] {
        let none = columns.track(number);
        assert_eq!(none, Err(Refusal::NoSuchTrack { count: 5 }));
    }
}

#[test]
fn entries_say_what_the_tracks_are() {
    let columns = |at: usize| {
        let (frame_type, payload) = CONTAINERS[at];
        Columns::walk(frame_type, payload).expect("a container")
    };
    let expected = TrackColumns {
        ids: &[5, 4, 3, 3, 1],
        fourccs: &[FourCc::HVC1.number(); 5],
        starts: &[10, 14, 19, 25, 29],
        lengths: &[0, 1, 2, 0, 3],
        bodies: CONTAINERS[6].1,
    };
    assert_eq!(columns(6).track_columns(), expected);
    assert_eq!(columns(6).lent().track_columns(), expected);
    let codecs = columns(7);
    assert_eq!(codecs.track_columns().fourccs, [0x6176_6331, 0]);
    assert_eq!(codecs.track_columns().starts, [10, 19]);
    let empty = columns(1);
    assert_eq!(empty.track_columns().fourccs, [0x4F70_7573]);
    assert_eq!(empty.track_columns().starts, [7]);
    assert_eq!(empty.track_columns().lengths, [0]);
}

#[test]
fn entries_behind_the_last_track_are_kept() {
    for (frame_type, payload) in CONTAINERS {
        let count = tracks(frame_type, payload).expect("a container").len();
        for lengths in [
            [count; 4],
            [count + 1; 4],
            [count + 3, count + 2, count + 1, count],
            [count, count, count + 9, count + 8],
        ] {
            let mut memory = Memory::filled(lengths);
            let columns = memory.lend().walk(frame_type, payload);
            assert_eq!(columns.map(LentColumns::len), Ok(count));
            assert!(memory.is_kept_from(count), "{memory:?}");
        }
    }
}

/// The walk is refused, and no entry changed.
fn assert_refused(lengths: [usize; 4], frame_type: FrameType, payload: &[u8], refusal: Refusal) {
    let mut memory = Memory::filled(lengths);
    let walked = memory.lend().walk(frame_type, payload);
    assert_eq!(walked.map(LentColumns::len), Err(refusal), "{lengths:?}");
    assert_eq!(memory, Memory::filled(lengths));
}

#[test]
fn a_column_that_is_short_is_refused() {
    for (frame_type, payload) in CONTAINERS {
        let count = tracks(frame_type, payload).expect("a container").len();
        for short in 0..4 {
            for length in [0, count - 1] {
                let mut lengths = [count + 1; 4];
                lengths[short] = length;
                assert_refused(lengths, frame_type, payload, Refusal::OutputTooShort);
            }
        }
        assert_refused([0; 4], frame_type, payload, Refusal::OutputTooShort);
        assert_refused([count - 1; 4], frame_type, payload, Refusal::OutputTooShort);
    }
}

#[test]
fn anything_but_a_container_is_refused_first() {
    for (frame_type, payload) in [
        (Audio, &b""[..]),
        (Audio, b"\x95"),
        (Audio, b"\x95\x31Opus\x07"),
        // Packet types that name a container.
        (Audio, b"\x95\x05Opus\x07"),
        (Video, b"\x96\x06avc1\x07"),
        // The second track is cut: the first one must not be left behind.
        (Audio, b"\x95\x11Opus\x07\x00\x00\x00\x08"),
        (Video, b"\xD6\x01avc1\x07"),
        (Video, CONTAINERS[0].1),
        (Script, CONTAINERS[0].1),
        (Metadata, CONTAINERS[0].1),
    ] {
        for lengths in [[0; 4], [8; 4], [8, 8, 0, 8]] {
            assert_refused(lengths, frame_type, payload, Refusal::NotAContainer);
        }
        let refused = Columns::walk(frame_type, payload).err();
        assert_eq!(refused, Some(Refusal::NotAContainer));
        let mut buffers = ColumnBuffers::default();
        let refused = buffers.walk(frame_type, payload);
        assert_eq!(refused, Err(Refusal::NotAContainer));
    }
}

/// `count` tracks of different lengths, in the form that shares a FourCC or not.
fn long(form: u8, count: usize) -> Vec<u8> {
    let mut payload = vec![0x96, form << 4 | 1];
    if form == 1 {
        payload.extend(b"avc1");
    }
    for number in 0..count {
        if form == 2 {
            payload.extend((number as u32).to_be_bytes());
        }
        let length = number % 7;
        payload.extend([number as u8, 0, 0, length as u8]);
        payload.extend(vec![number as u8; length]);
    }
    payload
}

#[test]
fn as_many_tracks_as_there_may_be() {
    for form in [1, 2] {
        for count in [1, 15, 16, 17, 4_095, 4_096] {
            let payload = long(form, count);
            let columns = Columns::walk(Video, &payload).expect("a container");
            assert_eq!(columns.len(), count);
            for number in (0..8).chain([count / 2, count - 1, count, usize::MAX]) {
                let expected = track(Video, &payload, number);
                assert_eq!(columns.track(number), expected, "{number}");
            }
            let mut end = None;
            for (number, track) in (0..).zip(&columns) {
                assert_eq!(track.id, number as u8);
                assert_eq!(track.payload, vec![number as u8; number % 7]);
                end = Some(track.start + track.payload.len());
            }
            assert_eq!(end, Some(payload.len()));
        }
        let payload = long(form, 4_097);
        let refused = Columns::walk(Video, &payload).err();
        assert_eq!(refused, Some(Refusal::NotAContainer));
    }
}

#[test]
fn a_payload_that_is_too_long() {
    let mut payload = vec![0; LONGEST + 1];
    payload[..7].copy_from_slice(b"\x95\x01Opus\x07");
    let longest = &payload[..LONGEST];
    let columns = Columns::walk(Audio, longest).expect("a container");
    assert_equal(columns.lent(), Audio, longest);
    assert_eq!(tracks(Audio, longest).map(|tracks| tracks.len()), Ok(1));

    let too_short = Some(Refusal::OutputTooShort);
    assert_eq!(Columns::walk(Audio, &payload).err(), too_short);
    assert_eq!(tracks(Audio, &payload).err(), too_short);
    let mut buffers = ColumnBuffers::with_capacity(4_096);
    assert_eq!(buffers.walk(Audio, &payload).err(), too_short);
    for lengths in [[0; 4], [1; 4]] {
        assert_refused(lengths, Audio, &payload, Refusal::OutputTooShort);
    }
    let body = track(Audio, &payload, 0).map(|track| track.payload.len());
    assert_eq!(body, Ok(LONGEST + 1 - 7));

    payload[1] = 0x31;
    assert_refused([1; 4], Audio, &payload, Refusal::NotAContainer);
    assert_eq!(tracks(Audio, &payload).err(), Some(Refusal::NotAContainer));
}

#[test]
fn columns_are_walked_into_again() {
    let mut buffers = ColumnBuffers::with_capacity(8);
    for (frame_type, payload) in CONTAINERS {
        let refused = buffers.walk(Script, payload);
        assert_eq!(refused, Err(Refusal::NotAContainer));
        let expected = Columns::walk(frame_type, payload).expect("a container");
        let columns = buffers.walk(frame_type, payload);
        assert_eq!(columns, Ok(expected.lent()));
    }
    let [few, many] = [3, 300].map(|count| long(1, count));
    for payload in [&few, &many, &few, &many] {
        let columns = buffers.walk(Video, payload).expect("a container");
        assert_equal(columns, Video, payload);
    }
}

/// Where the four columns stand.
fn places(columns: LentColumns) -> [Range<*const ()>; 4] {
    fn place<T>(column: &[T]) -> Range<*const ()> {
        let Range { start, end } = column.as_ptr_range();
        start.cast()..end.cast()
    }
    let columns = columns.track_columns();
    [
        place(columns.ids),
        place(columns.fourccs),
        place(columns.starts),
        place(columns.lengths),
    ]
}

#[test]
fn from_the_longest_walk_on_the_memory_stays() {
    let [few, many] = [20, 300].map(|count| long(1, count));
    let mut buffers = ColumnBuffers::default();
    let first = places(buffers.walk(Video, &many).expect("a container"));
    let then = places(buffers.walk(Video, &few).expect("a container"));
    assert!(ptr::eq(first[0].start, then[0].start) && ptr::eq(first[3].start, then[3].start));
    assert_eq!(
        places(buffers.walk(Video, &many).expect("a container")),
        first
    );

    let mut buffers = ColumnBuffers::with_capacity(300);
    let then = places(buffers.walk(Video, &few).expect("a container"));
    let first = places(buffers.walk(Video, &many).expect("a container"));
    assert!(ptr::eq(first[0].start, then[0].start) && ptr::eq(first[3].start, then[3].start));
}

#[test]
fn a_track_outlives_the_columns() {
    let payload = b"\x95\x01Opus\x07\xAA".to_vec();
    let owned = {
        let columns = Columns::walk(Audio, &payload).expect("a container");
        columns.track(0).expect("a track")
    };
    let lent: Vec<Track> = {
        let mut memory = Memory::filled([1; 4]);
        let columns = memory.lend().walk(Audio, &payload).expect("a container");
        columns.into_iter().collect()
    };
    assert_eq!(lent, [owned]);
    assert!(ptr::eq(owned.payload, &payload[7..]));
}

#[test]
fn lent_columns_are_iterated_over_as_owned_ones() {
    for (frame_type, payload) in CONTAINERS {
        let columns = Columns::walk(frame_type, payload).expect("a container");
        let owned: Vec<Track> = columns.clone().into_iter().collect();
        let lent = columns.lent();
        assert!(columns.iter().eq(owned.iter().copied()));
        assert!((&columns).into_iter().eq(owned.iter().copied()));
        assert!(lent.iter().rev().eq(owned.iter().rev().copied()));
        assert_eq!(lent.iter().len(), owned.len());
        assert_eq!(lent.iter().count(), owned.len());
        assert_eq!(lent.iter().last(), owned.last().copied());
        for n in 0..owned.len() + 2 {
            let (mut ahead, mut expected) = (lent.iter(), owned.iter());
            assert_eq!(ahead.nth(n).as_ref(), expected.nth(n));
            assert_eq!(ahead.nth_back(n).as_ref(), expected.nth_back(n));
            assert!(ahead.eq(expected.copied()));
        }
    }
}

/// The head of a payload that was walked, by its first two bytes.
fn head(columns: &Columns) -> ContainerHead {
    let form = Form::try_from(columns.track_columns().bodies[1] >> 4).expect("a form");
    let first = columns.track(0).expect("a track");
    match (first.packet_type, first.video_frame_type) {
        (PacketType::Audio(packet_type), None) => ContainerHead::Audio { form, packet_type },
        (PacketType::Video(packet_type), Some(video_frame_type)) => ContainerHead::Video {
            form,
            packet_type,
            video_frame_type,
        },
        other => panic!("{other:?} is of no container"),
    }
}

#[test]
fn columns_are_written_as_the_payload_they_are_of() {
    let listed = CONTAINERS.map(|(frame_type, payload)| (frame_type, payload.to_vec()));
    let long = [(Video, long(1, 4_096)), (Video, long(2, 4_096))];
    for (frame_type, payload) in listed.into_iter().chain(long) {
        let columns = Columns::walk(frame_type, &payload).expect("a container");
        let head = head(&columns);
        let mut output = vec![0; payload.len()];
        let columns = columns.track_columns();
        assert_eq!(columns.container_len(head.form()), payload.len());
        let written = columns.write_container(head, &mut output);
        assert_eq!(written, Ok(payload.len()));
        assert!(output == payload, "{payload:02X?}");
    }
}
