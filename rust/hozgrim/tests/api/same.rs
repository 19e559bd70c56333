//! The package says what the entries say on random frames and files, and writes what is asked for
//! on random calls.

use std::fmt::Debug;

use common::calls::{random_container, random_modex};
use common::damage::random_damage;
use common::rng::Rng;
use common::shapes;
use common::writing::{Arguments, ORDER, error};
use hozgrim::{Refusal, SlotSizes, Store, Uplink};
use hozgrim_sys::{ColumnsCall, ColumnsMut, HozgrimLengths, HozgrimWritten, OfferCall, StoreCall};

use crate::columns::Memory;
use crate::flv_reading::random_file;
use crate::{in_place, numbers};

const FRAMES: usize = 200_000;

const HISTORIES: usize = 20_000;

const FILES: usize = 50_000;

const CALLS: usize = 20_000;

#[test]
fn the_package_says_what_the_entries_say() {
    let listed: Vec<(u8, Vec<u8>)> = shapes::listed().collect();
    let mut rng = Rng::new(1);
    let mut refused = 0;
    let mut tracks = 0;
    let mut loud = 0;
    let mut peeled = 0;
    let mut walked = vec![];
    for _ in 0..FRAMES {
        let (mut frame_type, mut payload) = rng.pick(&listed).clone();
        shapes::vary(&mut rng, &mut frame_type, &mut payload);
        let number = if rng.one_in(32) {
            rng.number() as u32
        } else {
            frame_type.into()
        };
        let (error, count) = compare(&mut rng, number, &payload);
        refused += usize::from(error != 0);
        tracks += count;
        let start = compare_in_place(&mut rng, number, &payload);
        peeled += usize::from(start > 0);
        walked.push(compare_columns(&mut rng, number, &payload));
        let level = hozgrim_sys::level(number, &payload);
        assert_eq!(numbers::level(number, &payload), level, "{payload:02X?}");
        loud += usize::from(level.level > 0);
    }
    assert!(refused > FRAMES / 100 && tracks > FRAMES / 10 && loud > FRAMES / 100);
    assert!(peeled > FRAMES / 100, "{peeled}");
    for error in [0, -21, -22, -24] {
        let times = walked.iter().filter(|found| **found == error).count();
        assert!(times > FRAMES / 100, "{error}: {times}");
    }
}

/// Compares all calls on one frame; the error of the pass, and the number of tracks of the payload.
fn compare(rng: &mut Rng, number: u32, payload: &[u8]) -> (i32, usize) {
    let mask = *rng.pick(&[0, 4, 4, u32::MAX]);
    let flag = *rng.pick(&[0, 1, 256]);
    let room = rng.below(payload.len() + 4);
    let mut outputs = [vec![0xA5; room], vec![0xA5; room]];
    let [ours, theirs] = &mut outputs;
    let report = hozgrim_sys::pass(number, payload, mask, flag, theirs);
    let same = numbers::pass(number, payload, mask, flag, ours) == report && ours == theirs;
    assert!(same, "{number} {mask} {flag} {room}: {payload:02X?}");
    let class = hozgrim_sys::classify(number, payload, flag);
    assert_eq!(
        numbers::classify(number, payload, flag),
        class,
        "{payload:02X?}"
    );
    let count = hozgrim_sys::track(number, payload, 0).count;
    for track in 0..count + 2 {
        let answer = hozgrim_sys::track(number, payload, track);
        assert_eq!(
            numbers::track(number, payload, track),
            answer,
            "{payload:02X?}"
        );
    }
    (report.error, count)
}

/// Compares the pass in place with its entry, and the entry with that of the pass: the answer, the
/// result, and the tracks of the result. Where the result starts.
fn compare_in_place(rng: &mut Rng, number: u32, payload: &[u8]) -> usize {
    let mask = *rng.pick(&[0, 4, 4, u32::MAX]);
    let flag = *rng.pick(&[0, 1, 256]);
    let mut payloads = [payload.to_vec(), payload.to_vec()];
    let [ours, theirs] = &mut payloads;
    let placed = hozgrim_sys::pass_in_place(number, theirs, mask, flag);
    let same = numbers::pass_in_place(number, ours, mask, flag) == placed && ours == theirs;
    assert!(same, "{number} {mask} {flag}: {payload:02X?}");
    let mut output = vec![0xA5; payload.len()];
    let report = hozgrim_sys::pass(number, payload, mask, flag, &mut output);
    assert_eq!(placed.report, report, "{payload:02X?}");
    in_place::assert_kept(payload, theirs, placed.start);
    if report.error == 0 {
        let [copied, left] = [&output[..report.result_length], &theirs[placed.start..]];
        assert_eq!(left, copied, "{payload:02X?}");
        for track in 0..report.tracks + 1 {
            let answer = hozgrim_sys::track(number, left, track);
            let expected = hozgrim_sys::track(number, copied, track);
            assert_eq!(answer, expected, "{payload:02X?}");
        }
    }
    placed.start
}

/// Compares a walk into columns of random lengths with its entry, and readings with theirs. The
/// error of the walk.
fn compare_columns(rng: &mut Rng, number: u32, payload: &[u8]) -> i32 {
    let count = hozgrim_sys::track(number, payload, 0).count;
    let lengths = [(); 4].map(|()| match rng.below(16) {
        0 => rng.below(count + 1),
        _ => count + rng.below(3),
    });
    let [mut ours, mut theirs] = [(); 2].map(|()| Memory::filled(lengths));
    let lent = ColumnsMut {
        ids: &mut theirs.ids,
        fourccs: &mut theirs.fourccs,
        starts: &mut theirs.starts,
        lengths: &mut theirs.lengths,
    };
    let answer = hozgrim_sys::walk_columns(number, payload, lent);
    let walked = numbers::walk_columns(number, payload, ours.lend());
    assert_eq!(walked, answer, "{lengths:?}: {payload:02X?}");
    assert_eq!(ours, theirs, "{lengths:?}: {payload:02X?}");
    assert!(
        ours.is_kept_from(answer.count),
        "{lengths:?}: {payload:02X?}"
    );
    if answer.error == 0 {
        let call = ColumnsCall {
            frame_type: number,
            count,
            ids: &theirs.ids,
            fourccs: &theirs.fourccs,
            starts: &theirs.starts,
            lengths: &theirs.lengths,
            payload,
        };
        for track in (0..count + 2).chain([usize::MAX]) {
            let answer = hozgrim_sys::column_track(&call, track);
            let read = numbers::column_track(number, payload, track);
            assert_eq!(read, Ok(answer), "{track}: {payload:02X?}");
        }
        let tracks = (0..count).map(|track| hozgrim_sys::column_track(&call, track));
        let steps = numbers::steps(number, payload);
        assert_eq!(steps, Ok(tracks.collect()), "{payload:02X?}");
    }
    answer.error
}

#[test]
fn the_package_says_what_the_entries_say_of_a_store() {
    let listed: Vec<(u8, Vec<u8>)> = shapes::listed().collect();
    let mut rng = Rng::new(1);
    let mut errors = vec![];
    let mut held = [0; 4];
    for _ in 0..HISTORIES {
        let mut stores = Stores::new(&mut rng);
        for _ in 0..rng.below(24) {
            let (mut frame_type, mut payload) = rng.pick(&listed).clone();
            if rng.one_in(2) {
                shapes::vary(&mut rng, &mut frame_type, &mut payload);
            }
            errors.push(stores.compare_frame(&mut rng, frame_type, &payload));
            held[stores.compare_late()] += 1;
        }
    }
    assert!(held.iter().all(|times| *times > HISTORIES / 20), "{held:?}");
    for error in [0, -3, -22, -31] {
        let times = errors.iter().filter(|found| **found == error).count();
        assert!(times > HISTORIES / 100, "{error}: {times}");
    }
}

/// A store of the package, and what the entry is lent for the same one.
struct Stores {
    package: Store,
    lengths: HozgrimLengths,
    slots: [Vec<u8>; 3],
}

impl Stores {
    fn new(rng: &mut Rng) -> Self {
        let slots = [(); 3].map(|()| vec![0; rng.below(40)]);
        let [video, audio, keyframe] = slots.each_ref().map(Vec::len);
        let sizes = SlotSizes {
            video,
            audio,
            keyframe,
        };
        Self {
            package: Store::new(sizes),
            lengths: HozgrimLengths::default(),
            slots,
        }
    }

    /// The error of a frame that is offered to both.
    fn compare_frame(&mut self, rng: &mut Rng, frame_type: u8, payload: &[u8]) -> i32 {
        let call = StoreCall {
            frame_type: frame_type.into(),
            payload,
            caps_ex_mask: *rng.pick(&[0, 4, 4, u32::MAX]),
            route_has_video: *rng.pick(&[0, 1, 256]),
        };
        let room = match rng.below(8) {
            0 => rng.below(payload.len() + 1),
            _ => payload.len() + rng.below(2),
        };
        let mut outputs = [vec![0xA5; room], vec![0xA5; room]];
        let [ours, theirs] = &mut outputs;
        let slots = self.slots.each_mut().map(Vec::as_mut_slice);
        let stored = hozgrim_sys::store_frame(&mut self.lengths, &call, theirs, slots);
        let answer = numbers::store_frame(&mut self.package, &call, ours);
        assert_eq!(answer, stored, "{room}: {call:02X?}");
        assert_eq!(ours, theirs, "{room}: {call:02X?}");
        stored.error
    }

    /// How many frames a late viewer is sent by both.
    fn compare_late(&self) -> usize {
        let slots = self.slots.each_ref().map(Vec::as_slice);
        let count = hozgrim_sys::late(self.lengths, slots, 0).count;
        let theirs = (0..count).map(|number| {
            let late = hozgrim_sys::late(self.lengths, slots, number);
            (late.kind, &slots[late.kind as usize - 1][..late.length])
        });
        let ours = self.package.late();
        assert_eq!(ours.len(), count);
        assert!(theirs.eq(ours.map(|(kind, frame)| (kind.into(), frame))));
        count
    }
}

#[test]
fn the_package_says_what_the_entries_say_of_an_uplink() {
    let mut rng = Rng::new(1);
    let mut errors = vec![];
    for _ in 0..HISTORIES {
        let mut uplinks = Uplinks::new(*rng.pick(&[0, 1, 2, 3, 63, 64]));
        for _ in 0..rng.below(24) {
            errors.push(uplinks.compare(&mut rng));
        }
    }
    for error in [0, -32, -33] {
        let times = errors.iter().filter(|found| **found == error).count();
        assert!(times > HISTORIES / 10, "{error}: {times}");
    }
}

/// A line of the package, and what the entries are lent for the same one.
struct Uplinks {
    package: Uplink,
    credits: Vec<i32>,
    waiting: Vec<u8>,
}

impl Uplinks {
    fn new(viewers: usize) -> Self {
        Self {
            package: Uplink::new(viewers).unwrap_or_default(),
            credits: vec![0; viewers],
            waiting: vec![0; viewers],
        }
    }

    /// The error of something that happens to both.
    fn compare(&mut self, rng: &mut Rng) -> i32 {
        let error = match rng.below(16) {
            0 => self.compare_join(),
            1 => self.compare_leave(rng),
            2..5 => self.compare_tick(rng),
            _ => self.compare_offer(rng),
        };
        let viewers = self.credits.len();
        assert_eq!(self.package.viewers(), viewers);
        for viewer in 0..viewers {
            let credit = self.package.credit(viewer);
            assert_eq!(credit, Some(self.credits[viewer]));
            let waits = self.package.is_waiting(viewer);
            assert_eq!(waits, Some(self.waiting[viewer] != 0));
        }
        error
    }

    fn compare_join(&mut self) -> i32 {
        let number = self.credits.len();
        let joined = self.package.join();
        if number == 64 {
            assert_eq!(joined, Err(Refusal::OutOfRange));
            return -32;
        }
        assert_eq!(joined, Ok(number));
        self.credits.push(0);
        self.waiting.push(0);
        0
    }

    fn compare_leave(&mut self, rng: &mut Rng) -> i32 {
        let viewer = rng.below(self.credits.len() + 1);
        let left = self.package.leave(viewer);
        if viewer == self.credits.len() {
            assert_eq!(left, Err(Refusal::OutOfRange));
            return -32;
        }
        assert_eq!(left, Ok(()));
        self.credits.remove(viewer);
        self.waiting.remove(viewer);
        0
    }

    fn compare_tick(&mut self, rng: &mut Rng) -> i32 {
        let bytes = *rng.pick(&[0, 9, 100, 100, 16_777_215, 16_777_216]);
        let error = hozgrim_sys::uplink_tick(self.credits.len(), bytes, &mut self.credits);
        assert_eq!(numbers::uplink_tick(&mut self.package, bytes), error);
        error
    }

    fn compare_offer(&mut self, rng: &mut Rng) -> i32 {
        let viewers = self.credits.len();
        let call = OfferCall {
            viewers,
            viewer: rng.below(viewers + 1),
            hint: rng.below(3) as u32,
            length: *rng.pick(&[0, 1, 4, 50, 100, 2_000_000_000, usize::MAX]),
        };
        let answer = hozgrim_sys::uplink_offer(call, &mut self.credits, &mut self.waiting);
        let ours = numbers::uplink_offer(&mut self.package, call);
        assert_eq!(ours, Some(answer), "{call:?}");
        answer.error
    }
}

#[test]
fn the_package_says_what_the_entries_say_of_files() {
    let mut rng = Rng::new(1);
    let (mut found, mut errors) = (0, vec![]);
    for _ in 0..FILES {
        let (mut file, _) = random_file(&mut rng);
        random_damage(&mut rng, &mut file);
        let start = hozgrim_sys::flv_start(&file);
        assert_eq!(numbers::flv_start(&file), start, "{file:02X?}");
        errors.push(start.error);
        let mut places = vec![rng.below(file.len() + 3), rng.number() as usize, start.next];
        while let Some(at) = places.pop() {
            let answer = hozgrim_sys::flv_next(&file, at);
            assert_eq!(numbers::flv_next(&file, at), answer, "{at}: {file:02X?}");
            errors.push(answer.error);
            if answer.found == 1 {
                found += 1;
                places.push(answer.next);
            }
        }
    }
    assert!(found > FILES / 2);
    for error in [0, -25, -29, -30] {
        let times = errors.iter().filter(|found| **found == error).count();
        assert!(times > FILES / 100, "{error}: {times}");
    }
}

#[test]
fn the_package_writes_what_is_asked_for() {
    let mut rng = Rng::new(1);
    let mut errors = vec![];
    for _ in 0..CALLS {
        let call = random_container(&mut rng);
        errors.extend(compare_writer(&mut rng, &call, numbers::write_container));
        let call = random_modex(&mut rng);
        errors.extend(compare_writer(&mut rng, &call, numbers::write_modex));
    }
    for error in ORDER.into_iter().chain([0]) {
        let times = errors.iter().filter(|found| **found == error).count();
        assert!(times > CALLS / 1_000, "{error}: {times}");
    }
}

/// The error of a call that the types of the package can say.
fn compare_writer<A: Arguments + Debug>(
    rng: &mut Rng,
    call: &A,
    package: fn(&A, &mut [u8]) -> Option<HozgrimWritten>,
) -> Option<i32> {
    let exact = call.exact_room();
    let room = if rng.one_in(8) {
        rng.below(exact + 1)
    } else {
        exact + rng.below(4)
    };
    let mut output = vec![0xA5; room];
    let answer = package(call, &mut output)?;
    let error = error(&call.reasons(room));
    let written = if error == 0 { call.written() } else { vec![] };
    let length = written.len();
    assert_eq!(answer, HozgrimWritten { error, length }, "{room}: {call:?}");
    assert!(output.starts_with(&written), "{room}: {call:?}");
    assert!(output[length..].iter().all(|byte| *byte == 0xA5));
    Some(error)
}
