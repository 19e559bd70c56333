//! The stored cases of the crate `cases`, whose form, and where their answers come from,
//! `crates/cases/README.md` says; and the stored sample of the program `flv_sheet`.

use std::fmt::Debug;

use hozgrim::{
    CAPS_EX_MODEX, Columns, FlvFrame, FlvReader, FrameType, Refusal, SlotSizes, Store, pass,
};
use hozgrim_sys::{
    ColumnsCall, HozgrimColumns, HozgrimPlaced, HozgrimReport, HozgrimStored, HozgrimTrack,
    StoreCall,
};

use crate::columns::Memory;
use crate::{in_place, numbers};

const CASES: &[u8] = include_bytes!("../../../../crates/cases/stdin");

const RECORDING: &[u8] = include_bytes!("../../../../crates/flv_sheet/stdin");
const SHEET: &str = include_str!("../../../../crates/flv_sheet/stdout");

/// What outputs are full of before they are lent.
const FILLING: u8 = 0xA5;

#[test]
fn the_package_says_what_is_stored() {
    let mut rows = Rows(CASES);
    let mut passes = 0;
    let mut passes_in_place = 0;
    let mut requests = 0;
    let mut offers = 0;
    let mut walks = 0;
    let mut readings = 0;
    let mut followed = None;
    while !rows.0.is_empty() {
        let row = rows.head();
        match row.operation {
            b'W' => {
                compare_pass(&row, &mut rows);
                passes += 1;
            }
            b'Y' => {
                compare_pass_in_place(&row, &mut rows);
                passes_in_place += 1;
            }
            b'Q' => {
                compare_request(&row, &mut rows);
                requests += 1;
            }
            b'J' => {
                followed = compare_offer(&row, &mut rows, followed);
                offers += u32::from(followed.is_some());
            }
            b'X' => {
                compare_walk(&row, &mut rows);
                walks += 1;
            }
            b'Z' => readings += u32::from(compare_reading(&row, &mut rows)),
            _ => {}
        }
    }
    assert!(passes > 1_000 && requests > 100, "{passes}, {requests}");
    assert!(passes_in_place > 100, "{passes_in_place}");
    assert!(offers > 50, "{offers}");
    assert!(walks > 50 && readings > 10, "{walks}, {readings}");
}

/// What every row begins with.
struct Row<'a> {
    operation: u8,
    frame_type: u32,
    number: u32,
    room: usize,
    payload: &'a [u8],
}

/// The rows that are still to be read.
struct Rows<'a>(&'a [u8]);

impl<'a> Rows<'a> {
    fn bytes(&mut self, length: usize) -> &'a [u8] {
        let (bytes, rest) = self.0.split_at(length);
        self.0 = rest;
        bytes
    }

    /// A number of so many bytes.
    fn number(&mut self, bytes: usize) -> u32 {
        let bytes = self.bytes(bytes).iter();
        bytes.fold(0, |number, byte| number << 8 | u32::from(*byte))
    }

    fn next(&mut self) -> u32 {
        self.number(4)
    }

    fn size(&mut self) -> usize {
        self.next() as usize
    }

    fn small(&mut self) -> u8 {
        self.next().try_into().expect("a byte")
    }

    /// Errors stand without their sign.
    fn error(&mut self) -> i32 {
        -self.next().cast_signed()
    }

    /// A number of 64 bits: the high half, then the low one.
    fn wide<T: TryFrom<u64, Error: Debug>>(&mut self) -> T {
        let [high, low] = [self.next(), self.next()].map(u64::from);
        T::try_from(high << 32 | low).expect("a number of this type")
    }

    fn wide_error(&mut self) -> i32 {
        -self.wide::<i32>()
    }

    fn time(&mut self) -> i64 {
        self.wide::<u64>().cast_signed()
    }

    /// Fields are read in the order in which they are written here.
    fn report(&mut self) -> HozgrimReport {
        HozgrimReport {
            error: self.error(),
            result_length: self.size(),
            header_error: self.error(),
            is_ex_header: self.small(),
            packet_type: self.small(),
            fourcc: self.next().to_be_bytes(),
            header_size: self.size(),
            frame_type: self.small(),
            composition_time_ns: self.time(),
            audio_codec: self.small(),
            sample_rate: self.small(),
            sample_size: self.small(),
            channels: self.small(),
            aac_packet_type: self.small(),
            tracks: self.size(),
            records: self.size(),
            valid_records: self.size(),
            kind: self.next(),
            hint: self.next(),
        }
    }

    fn sizes(&mut self) -> [usize; 3] {
        [(); 3].map(|()| self.size())
    }

    fn store(&mut self, sizes: [usize; 3], record: [usize; 3]) -> RowStore<'a> {
        RowStore {
            record,
            buffers: sizes.map(|size| self.bytes(size)),
        }
    }

    /// How many entries columns have, in the order of a row.
    fn column_sizes(&mut self) -> [usize; 4] {
        [(); 4].map(|()| self.wide())
    }

    fn columns(&mut self, [ids, fourccs, starts, lengths]: [usize; 4]) -> Memory {
        Memory {
            ids: self.bytes(ids).to_vec(),
            fourccs: (0..fourccs).map(|_| self.next()).collect(),
            starts: (0..starts).map(|_| self.wide()).collect(),
            lengths: (0..lengths).map(|_| self.wide()).collect(),
        }
    }

    fn head(&mut self) -> Row<'a> {
        let operation = self.number(1) as u8;
        let frame_type = self.number(1);
        let number = self.number(4);
        let room = self.number(3) as usize;
        let length = self.number(3) as usize;
        Row {
            operation,
            frame_type,
            number,
            room,
            payload: self.bytes(length),
        }
    }
}

fn compare_pass(row: &Row, rows: &mut Rows) {
    let flag = rows.next();
    let expected = rows.report();
    let mut output = vec![FILLING; row.room];
    let report = numbers::pass(row.frame_type, row.payload, row.number, flag, &mut output);
    assert_eq!(report, expected, "{:02X?}", row.payload);
    assert_eq!(output, rows.bytes(row.room), "{:02X?}", row.payload);
    // In place there is always room.
    if report.error != Refusal::OutputTooShort.number() {
        let mut payload = row.payload.to_vec();
        let placed = numbers::pass_in_place(row.frame_type, &mut payload, row.number, flag);
        assert_eq!(placed.report, expected, "{:02X?}", row.payload);
        in_place::assert_kept(row.payload, &payload, placed.start);
        if report.error == 0 {
            let result = &output[..report.result_length];
            assert_eq!(&payload[placed.start..], result, "{:02X?}", row.payload);
        }
    }
}

fn compare_pass_in_place(row: &Row, rows: &mut Rows) {
    let flag = rows.next();
    let expected = HozgrimPlaced {
        report: rows.report(),
        start: rows.size(),
    };
    let mut payload = row.payload.to_vec();
    let placed = numbers::pass_in_place(row.frame_type, &mut payload, row.number, flag);
    assert_eq!(placed, expected, "{:02X?}", row.payload);
    assert_eq!(
        payload,
        rows.bytes(row.payload.len()),
        "{:02X?}",
        row.payload
    );
}

/// Fields are read in the order in which they are written here.
fn compare_request(row: &Row, rows: &mut Rows) {
    let expected = HozgrimTrack {
        error: rows.error(),
        count: rows.size(),
        track_id: rows.small(),
        packet_type: rows.small(),
        fourcc: rows.next(),
        video_frame_type: rows.small(),
        start: rows.size(),
        length: rows.size(),
        verdict: rows.small(),
    };
    let track = numbers::track(row.frame_type, row.payload, row.number as usize);
    assert_eq!(track, expected, "{:02X?}", row.payload);
}

/// A store as it stands in a row, by video, audio and keyframe.
#[derive(PartialEq)]
struct RowStore<'a> {
    record: [usize; 3],
    buffers: [&'a [u8]; 3],
}

/// A store of the package, with the same one as a row left it.
struct Followed<'a> {
    ours: Store,
    left: RowStore<'a>,
}

/// The store afterwards; none if the package cannot have the one before, which must be empty, or as
/// the last row left it. The bytes of an empty one are not to be seen.
fn compare_offer<'a>(
    row: &Row,
    rows: &mut Rows<'a>,
    last: Option<Followed<'a>>,
) -> Option<Followed<'a>> {
    let route_has_video = rows.next();
    let sizes = rows.sizes();
    let record = rows.sizes();
    let before = rows.store(sizes, record);
    let expected = HozgrimStored {
        error: rows.error(),
        report: rows.report(),
    };
    let record = rows.sizes();
    let count = rows.size();
    let late = [(); 4].map(|()| (rows.next(), rows.size()));
    let expected_output = rows.bytes(row.room);
    let left = rows.store(sizes, record);

    let mut ours = match last {
        Some(last) if last.left == before => last.ours,
        _ => empty_store(&before)?,
    };
    let call = StoreCall {
        frame_type: row.frame_type,
        payload: row.payload,
        caps_ex_mask: row.number,
        route_has_video,
    };
    let mut output = vec![FILLING; row.room];
    let stored = numbers::store_frame(&mut ours, &call, &mut output);
    assert_eq!(stored, expected, "{call:02X?}");
    assert_eq!(output, expected_output, "{call:02X?}");
    assert_late(&ours, &late[..count], &left);
    Some(Followed { ours, left })
}

fn empty_store(store: &RowStore) -> Option<Store> {
    let [video, audio, keyframe] = store.buffers.map(<[u8]>::len);
    let sizes = SlotSizes {
        video,
        audio,
        keyframe,
    };
    (store.record == [0; 3]).then(|| Store::new(sizes))
}

/// Kinds and lengths are as in the row, the frames are the fronts of their buffers, and nothing else
/// is held.
fn assert_late(ours: &Store, late: &[(u32, usize)], left: &RowStore) {
    let sent: Vec<(u32, &[u8])> = ours
        .late()
        .map(|(kind, frame)| (kind.into(), frame))
        .collect();
    let mut record = [0; 3];
    let expected = late.iter().map(|&(kind, length)| {
        let slot = kind as usize - 1;
        record[slot] = length;
        (kind, &left.buffers[slot][..length])
    });
    assert_eq!(sent, expected.collect::<Vec<_>>());
    assert_eq!(record, left.record);
}

fn compare_walk(row: &Row, rows: &mut Rows) {
    let sizes = rows.column_sizes();
    let expected = HozgrimColumns {
        error: rows.wide_error(),
        count: rows.wide(),
    };
    let left = rows.columns(sizes);
    let mut columns = full_columns(sizes);
    let walked = numbers::walk_columns(row.frame_type, row.payload, columns.lend());
    assert_eq!(walked, expected, "{sizes:?}: {:02X?}", row.payload);
    assert_eq!(columns, left, "{sizes:?}: {:02X?}", row.payload);
}

/// As they are before they are lent.
fn full_columns([ids, fourccs, starts, lengths]: [usize; 4]) -> Memory {
    let place = usize::from_ne_bytes([FILLING; size_of::<usize>()]);
    Memory {
        ids: vec![FILLING; ids],
        fourccs: vec![u32::from_ne_bytes([FILLING; 4]); fourccs],
        starts: vec![place; starts],
        lengths: vec![place; lengths],
    }
}

/// Whether the package can have the columns, which must be as a walk of the payload leaves them. Its
/// entry takes any.
fn compare_reading(row: &Row, rows: &mut Rows) -> bool {
    let count = rows.wide();
    let number = rows.wide();
    let sizes = rows.column_sizes();
    let columns = rows.columns(sizes);
    let expected = HozgrimTrack {
        error: rows.wide_error(),
        count: rows.wide(),
        track_id: rows.wide(),
        packet_type: rows.wide(),
        fourcc: rows.wide(),
        video_frame_type: rows.wide(),
        start: rows.wide(),
        length: rows.wide(),
        verdict: rows.wide(),
    };
    let call = ColumnsCall {
        frame_type: row.frame_type,
        count,
        ids: &columns.ids,
        fourccs: &columns.fourccs,
        starts: &columns.starts,
        lengths: &columns.lengths,
        payload: row.payload,
    };
    let track = hozgrim_sys::column_track(&call, number);
    assert_eq!(track, expected, "{number}: {call:02X?}");
    let walked = is_walked(&call);
    if walked {
        let read = numbers::column_track(row.frame_type, row.payload, number);
        assert_eq!(read, Ok(expected), "{number}: {call:02X?}");
    }
    walked
}

fn is_walked(call: &ColumnsCall) -> bool {
    let walked =
        FrameType::try_from(call.frame_type).and_then(|known| Columns::walk(known, call.payload));
    walked.is_ok_and(|walked| {
        let left = walked.track_columns();
        call.count == walked.len()
            && call.ids.starts_with(left.ids)
            && call.fourccs.starts_with(left.fourccs)
            && call.starts.starts_with(left.starts)
            && call.lengths.starts_with(left.lengths)
    })
}

#[test]
fn the_package_says_what_the_stored_sheet_says() {
    let items = FlvReader::new(RECORDING).expect("the start is right");
    let mut sheet = String::new();
    for (number, item) in (1..).zip(items) {
        match item.and_then(sheet_line) {
            Ok(line) => sheet += &format!("{number:6}{line}\n"),
            Err(refusal) => {
                sheet += &format!("{number:6}{:4}\n", refusal.number());
                break;
            }
        }
    }
    assert_eq!(sheet, SHEET);
}

/// What stands behind the number of a frame.
fn sheet_line(frame: FlvFrame) -> Result<String, Refusal> {
    let mut output = vec![0; frame.payload.len()];
    let report = pass(
        frame.frame_type,
        frame.payload,
        CAPS_EX_MODEX,
        true,
        &mut output,
    )?;
    Ok(format!(
        "{:3}{:9}{:4}{:6}{:3}{:3}",
        u8::from(frame.frame_type),
        frame.payload.len(),
        report.header.map_or_else(|error| error.number(), |_| 0),
        report.tracks,
        u8::from(report.kind),
        u8::from(report.hint)
    ))
}
