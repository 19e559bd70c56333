//! Configuration records of encoders, as the port judges them.

use std::fmt::Display;

use common::containers::{FORMS, Form, Track, VIDEO, container};
use common::sets::{List, class_of_refused_start, lists, named};
use hozgrim_sys::{classify, pass, track};

use crate::boxes::Record;
use crate::frames::Frame;

/// The frame type of video.
const FRAME_TYPE: u32 = 1;

/// Kind and hint of a video sequence header, by their numbers.
const VIDEO_START: (u8, u8) = (1, 0);

/// Verdicts by their numbers.
const VALID: u8 = 1;
const REFUSED: u8 = 2;

/// What the port says of a frame with records.
#[derive(Debug, PartialEq)]
struct Said {
    error: i32,
    /// Kind and hint, by the whole pass and by the entry for them alone.
    classes: [(u32, u32); 2],
    records: usize,
    valid_records: usize,
    /// The verdict on each track.
    verdicts: Vec<u8>,
}

impl Said {
    fn of(payload: &[u8]) -> Self {
        let mut output = vec![0; payload.len()];
        let report = pass(FRAME_TYPE, payload, 0, 1, &mut output);
        let class = classify(FRAME_TYPE, payload, 1);
        let verdict = |number| track(FRAME_TYPE, payload, number).verdict;
        Self {
            error: report.error,
            classes: [(report.kind, report.hint), (class.kind, class.hint)],
            records: report.records,
            valid_records: report.valid_records,
            verdicts: (0..report.tracks).map(verdict).collect(),
        }
    }

    /// What must be said of a container with these verdicts on its tracks.
    fn of_container(verdicts: &[u8]) -> Self {
        let valid = verdicts.iter().filter(|verdict| **verdict == VALID).count();
        let (kind, hint) = if valid == verdicts.len() {
            VIDEO_START
        } else {
            class_of_refused_start(FRAME_TYPE, true)
        };
        Self {
            error: 0,
            classes: [(kind.into(), hint.into()); 2],
            records: verdicts.len(),
            valid_records: valid,
            verdicts: verdicts.to_vec(),
        }
    }

    /// What must be said of another frame with this verdict on its record.
    fn of_single(verdict: u8) -> Self {
        Self {
            verdicts: vec![],
            ..Self::of_container(&[verdict])
        }
    }

    /// Holds what is said of a payload against it.
    fn check(&self, payload: &[u8]) -> Result<(), String> {
        let found = Self::of(payload);
        if *self == found {
            return Ok(());
        }
        Err(format!("it must be {self:?}, and it is {found:?}"))
    }
}

/// Holds a record against a verdict in each place where records are judged. In containers of many
/// tracks it stands between two others, which are valid.
fn judge(fourcc: &[u8; 4], record: &[u8], verdict: u8, other: &[u8]) -> Result<(), String> {
    let single = |place, front: &[u8]| {
        let asked = Said::of_single(verdict);
        (place, [front, record].concat(), asked)
    };
    let legacy = (fourcc == b"avc1").then(|| single("a legacy frame", b"\x17\0\0\0\0"));
    let enhanced = single("an enhanced frame", &[b"\x90", &fourcc[..]].concat());
    let containers = FORMS.map(|form| {
        let between = [(other, VALID), (record, verdict), (other, VALID)];
        let (place, records) = match form {
            Form::OneTrack => ("one track", &between[1..2]),
            Form::ManyTracks => ("many tracks", &between[..]),
            Form::ManyTracksManyCodecs => ("many tracks and codecs", &between[..]),
        };
        let track = |(id, (body, _)): (u8, &(&[u8], u8))| Track {
            id,
            fourcc: *fourcc,
            body: body.to_vec(),
        };
        let tracks: Vec<Track> = (0..).zip(records).map(track).collect();
        let verdicts: Vec<u8> = records.iter().map(|(_, verdict)| *verdict).collect();
        let asked = Said::of_container(&verdicts);
        (place, container(VIDEO, form, 0, &tracks), asked)
    });
    for (place, payload, asked) in legacy.into_iter().chain([enhanced]).chain(containers) {
        let checked = asked.check(&payload);
        checked.map_err(|reason| format!("in {place}: {reason}"))?;
    }
    Ok(())
}

/// Each list with what it has.
fn row<T: Display>(lists: &[List], of: impl Fn(&[usize]) -> T) -> String {
    let item = |list: &List| format!("{}: {}", list.nal_type, of(&list.places));
    let items: Vec<String> = lists.iter().map(item).collect();
    items.join(", ")
}

/// Holds a record of an encoder to be valid, and to be so with each first byte of each set exactly
/// if the set names the same type. Says how many of these are refused and how many sets each list
/// has.
pub fn check(record: &Record) -> Result<String, String> {
    let (fourcc, bytes) = (record.fourcc, record.bytes);
    let lists = lists(fourcc, bytes).ok_or("the sets of its record cannot be read")?;
    judge(fourcc, bytes, VALID, bytes).map_err(|reason| {
        let firsts = |places: &[usize]| {
            let firsts: Vec<String> = places
                .iter()
                .map(|at| format!("{:02X}", bytes[*at]))
                .collect();
            firsts.join(" ")
        };
        format!(
            "its record, with sets that begin with {}, {reason}",
            row(&lists, firsts)
        )
    })?;
    let (mut count, mut refused) = (0, 0);
    for at in lists.iter().flat_map(|list| &list.places) {
        let mut changed = bytes.to_vec();
        for first in 0..=u8::MAX {
            changed[*at] = first;
            let verdict = if named(fourcc, first) == named(fourcc, bytes[*at]) {
                VALID
            } else {
                refused += 1;
                REFUSED
            };
            judge(fourcc, &changed, verdict, bytes).map_err(|reason| {
                format!(
                    "its record, with {first:02X} for the first byte of a set, at {at}, {reason}"
                )
            })?;
            count += 1;
        }
    }
    let length = bytes.len();
    let sets = row(&lists, <[usize]>::len);
    Ok(format!(
        "{length:>10} bytes of record, {refused:>4} of {count:>4} first bytes refused, \
         sets ({sets})"
    ))
}

/// Holds the AVC sequence headers of a file to be that, each with a valid record. AVC must begin
/// with one. Says how many there are.
pub fn starts(frames: &[Frame]) -> Result<usize, String> {
    let mut count = 0;
    for frame in frames {
        match frame.avc_packet_type() {
            Some(0) => {
                count += 1;
                let checked = Said::of_single(VALID).check(frame.body);
                checked.map_err(|reason| format!("AVC sequence header {count}: {reason}"))?;
            }
            Some(_) if count == 0 => return Err("AVC begins without a sequence header".into()),
            _ => {}
        }
    }
    Ok(count)
}

#[cfg(test)]
mod tests {
    use common::recordings::Recording;
    use common::requirement::AVC;

    use super::*;
    use crate::frames;

    /// The AVC record of the cases, with an extension of two sets and a byte behind it.
    fn long_avc() -> Vec<u8> {
        [AVC, b"\xFD\xF8\xF8\x02\0\x02\x6D\xAA\0\x01\x0D\xBB"].concat()
    }

    fn hevc(arrays: &[&[u8]]) -> Vec<u8> {
        let head = [&[0x01][..], &[0; 21], &[arrays.len() as u8]].concat();
        [head, arrays.concat()].concat()
    }

    /// Two sets of type 33, one of 34, and an array of type 39 without sets.
    fn right_hevc() -> Vec<u8> {
        let arrays: [&[u8]; 3] = [
            b"\xA1\0\x02\0\x02\x42\x01\0\x01\x43",
            b"\x22\0\x01\0\x01\x44",
            b"\x27\0\0",
        ];
        hevc(&arrays)
    }

    fn checked(fourcc: &'static [u8; 4], bytes: &[u8]) -> Result<String, String> {
        check(&Record { fourcc, bytes })
    }

    #[test]
    fn records_that_cannot_be_read() {
        let reason = "the sets of its record cannot be read";
        let long = long_avc();
        for end in (0..long.len() - 1).filter(|end| *end != AVC.len()) {
            assert_eq!(checked(b"avc1", &long[..end]), Err(reason.into()), "{end}");
        }
        let right = right_hevc();
        for end in 0..right.len() {
            assert_eq!(checked(b"hvc1", &right[..end]), Err(reason.into()), "{end}");
        }
    }

    #[test]
    fn rows() {
        for (fourcc, record, row) in [
            (
                b"avc1",
                AVC.to_vec(),
                "        13 bytes of record,  496 of  512 first bytes refused, sets (7: 1, 8: 1)",
            ),
            (
                b"avc1",
                long_avc(),
                "        25 bytes of record,  992 of 1024 first bytes refused, \
                 sets (7: 1, 8: 1, 13: 2)",
            ),
            (
                b"hvc1",
                right_hevc(),
                "        42 bytes of record,  756 of  768 first bytes refused, \
                 sets (33: 2, 34: 1, 39: 0)",
            ),
        ] {
            assert_eq!(checked(fourcc, &record).as_deref(), Ok(row));
        }
    }

    #[test]
    fn refused_records() {
        let exchanged = b"\x01\x42\0\x1E\xFF\xE1\0\x01\x68\x01\0\x01\x67";
        let low_bits = hevc(&[b"\x21\0\x01\0\x01\x42", b"\x22\0\x02\0\x01\x44\0\x01\x22"]);
        for (fourcc, record, front) in [
            (b"avc1", &exchanged[..], "7: 68, 8: 67, in a legacy frame: "),
            (
                b"hvc1",
                &low_bits,
                "33: 42, 34: 44 22, in an enhanced frame: ",
            ),
        ] {
            let front = format!("its record, with sets that begin with {front}it must be ");
            let reason = checked(fourcc, record).expect_err("it is refused");
            assert!(reason.starts_with(&front), "{reason}");
        }
    }

    #[test]
    fn sequence_headers() {
        let right = [b"\x17\0\0\0\0", AVC].concat();
        let exchanged = b"\x17\0\0\0\0\x01\x42\0\x1E\xFF\xE1\0\x01\x68\x01\0\x01\x67";
        let picture = &b"\x27\x01\0\0\0\xAA"[..];
        let found = |bodies: &[&[u8]]| {
            let tags = bodies.iter().map(|body| (9, 0, *body));
            let file = Recording::of(tags.chain([(8, 0, &b"\x17\x01"[..])])).bytes;
            starts(&frames::of(&file)?)
        };
        assert_eq!(found(&[]), Ok(0));
        assert_eq!(found(&[b"\x22\x01", &right, picture, &right]), Ok(2));
        let reason = "AVC begins without a sequence header";
        assert_eq!(found(&[picture, &right]), Err(reason.into()));
        let reason = found(&[&right, picture, exchanged]).expect_err("it is refused");
        assert!(
            reason.starts_with("AVC sequence header 2: it must be "),
            "{reason}"
        );
    }
}
