//! The sets of AVC and HEVC records, and the types that they name: by request N7
//! (docs/REQUIREMENTS.md, section 23) each must name the type of its list. The Rust looks at no
//! type.

/// The types of the three lists of an AVC record: sequence sets, picture sets, sets of the
/// extension.
pub const AVC_LISTS: [u8; 3] = [7, 8, 13];

/// A list of sets in a record.
#[derive(Debug, PartialEq)]
pub struct List {
    /// Its type: in HEVC, that of the array.
    pub nal_type: u8,
    /// Where the first byte of each set stands in the record.
    pub places: Vec<usize>,
}

/// A set that names another type than its list.
#[derive(Debug, PartialEq)]
pub struct Misnamed {
    /// The type of the list.
    pub list: u8,
    /// How many sets stand before it in the list.
    pub before: usize,
}

/// The type that the first byte of a set names: its low five bits in AVC, bits 1 to 6 in HEVC.
pub fn named(fourcc: &[u8; 4], first: u8) -> u8 {
    match fourcc {
        b"avc1" => first & 0x1F,
        _ => first >> 1 & 0x3F,
    }
}

/// Whether every set of a record that the Rust accepts names the type of its list. The FourCC says
/// which rule judges the record; other rules than those of AVC and HEVC know no sets.
pub fn of_their_lists(fourcc: &[u8; 4], record: &[u8]) -> bool {
    first_misnamed(fourcc, record).is_none()
}

/// The first set of a record that the Rust accepts which names another type than its list.
pub fn first_misnamed(fourcc: &[u8; 4], record: &[u8]) -> Option<Misnamed> {
    let lists = lists(fourcc, record).expect("the Rust has read the sets");
    lists.into_iter().find_map(|list| {
        let mut places = list.places.iter();
        let before = places.position(|&at| named(fourcc, record[at]) != list.nal_type)?;
        Some(Misnamed {
            list: list.nal_type,
            before,
        })
    })
}

/// The lists of a record, if its sets can be read.
pub fn lists(fourcc: &[u8; 4], record: &[u8]) -> Option<Vec<List>> {
    match fourcc {
        b"avc1" => avc(record),
        b"hvc1" => hevc(record),
        _ => Some(vec![]),
    }
}

fn avc(record: &[u8]) -> Option<Vec<List>> {
    let [sequence, picture, extension] = AVC_LISTS;
    let (first, at) = list(record, sequence, (record.get(5)? & 0x1F).into(), 6)?;
    let (second, at) = list(record, picture, (*record.get(at)?).into(), at + 1)?;
    let mut lists = vec![first, second];
    if at < record.len() {
        let (third, _) = list(record, extension, (*record.get(at + 3)?).into(), at + 4)?;
        lists.push(third);
    }
    Some(lists)
}

/// The type of an array is the low six bits of its first byte.
fn hevc(record: &[u8]) -> Option<Vec<List>> {
    let (mut lists, mut at) = (vec![], 23);
    for _ in 0..*record.get(22)? {
        let [array, high, low] = *record.get(at..)?.first_chunk()?;
        let count = u16::from_be_bytes([high, low]);
        let (next, end) = list(record, array & 0x3F, count, at + 3)?;
        lists.push(next);
        at = end;
    }
    Some(lists)
}

/// A list of so many sets from a place on, and where it ends. A set is a length, in two bytes, not
/// 0, and that many bytes.
fn list(record: &[u8], nal_type: u8, count: u16, mut at: usize) -> Option<(List, usize)> {
    let mut places = vec![];
    for _ in 0..count {
        let length = u16::from_be_bytes(*record.get(at..)?.first_chunk()?);
        let set = record.get(at + 2..)?.get(..length.into())?;
        set.first()?;
        places.push(at + 2);
        at += 2 + set.len();
    }
    Some((List { nal_type, places }, at))
}

/// The kind and the hint of a sequence start with a refused record, by their numbers.
pub fn class_of_refused_start(frame_type: u32, route_has_video: bool) -> (u8, u8) {
    let resync = frame_type == 0 && !route_has_video;
    (0, if resync { 1 } else { 2 })
}

#[cfg(test)]
mod tests {
    use super::*;
    use crate::requirement::AVC;

    /// Behind the head of a record: two sequence sets and two picture sets; an extension with two
    /// sets, and a byte behind it.
    const SETS: &[u8] = b"\xE2\0\x01\x67\0\x02\x07\x68\x02\0\x01\xE8\0\x01\x08";
    const EXTENSION: &[u8] = b"\x2D\x2D\x2D\x02\0\x01\x6D\0\x01\x0D\x67";

    fn avc_record(behind_head: &[&[u8]]) -> Vec<u8> {
        [b"\x01\x42\0\x1E\xFF", &behind_head.concat()[..]].concat()
    }

    fn hevc_record(arrays: &[&[u8]]) -> Vec<u8> {
        let head = [&[0x01][..], &[0; 21], &[arrays.len() as u8]].concat();
        [head, arrays.concat()].concat()
    }

    /// With this byte at a place of the record.
    fn changed(record: &[u8], at: usize, byte: u8) -> Vec<u8> {
        let mut changed = record.to_vec();
        changed[at] = byte;
        changed
    }

    fn found(fourcc: &[u8; 4], record: &[u8]) -> Option<Vec<(u8, Vec<usize>)>> {
        let pair = |list: List| (list.nal_type, list.places);
        Some(lists(fourcc, record)?.into_iter().map(pair).collect())
    }

    #[test]
    fn the_lists_of_avc() {
        let short = avc_record(&[SETS]);
        let long = avc_record(&[SETS, EXTENSION]);
        let two = vec![(7, vec![8, 11]), (8, vec![16, 19])];
        assert_eq!(found(b"avc1", &short), Some(two.clone()));
        let three = [&two[..], &[(13, vec![26, 29])]].concat();
        assert_eq!(found(b"avc1", &long), Some(three));
        let empty = avc_record(&[SETS, b"\0\0\0\0\x67"]);
        let none = [&two[..], &[(13, vec![])]].concat();
        assert_eq!(found(b"avc1", &empty), Some(none));
        for record in [AVC, &short, &long, &empty] {
            assert!(of_their_lists(b"avc1", record));
        }
    }

    #[test]
    fn the_lists_of_hevc() {
        let arrays: [&[u8]; 3] = [
            b"\xA1\0\x02\0\x02\x42\x01\0\x01\x43",
            b"\x22\0\x01\0\x01\x44",
            b"\x27\0\0",
        ];
        let record = hevc_record(&arrays);
        let lists = vec![(33, vec![28, 32]), (34, vec![38]), (39, vec![])];
        assert_eq!(found(b"hvc1", &record), Some(lists));
        for end in 0..record.len() {
            assert_eq!(found(b"hvc1", &record[..end]), None, "{end}");
        }
    }

    #[test]
    fn cut_and_empty_sets_of_avc() {
        let long = avc_record(&[SETS, EXTENSION]);
        let short = avc_record(&[SETS]).len();
        // The byte behind the extension belongs to no set.
        for end in (0..long.len() - 1).filter(|end| *end != short) {
            assert_eq!(found(b"avc1", &long[..end]), None, "{end}");
        }
        let empty_set = avc_record(&[b"\xE1\0\0\x01\0\x01\x68"]);
        assert_eq!(found(b"avc1", &empty_set), None);
    }

    #[test]
    fn the_first_misnamed_set() {
        let record = avc_record(&[SETS, EXTENSION]);
        assert_eq!(first_misnamed(b"avc1", &record), None);
        for (at, list, before) in [(8, 7, 0), (11, 7, 1), (16, 8, 0), (19, 8, 1), (29, 13, 1)] {
            // The last set of all is misnamed too.
            let record = changed(&changed(&record, 29, 0x00), at, 0x00);
            let misnamed = Misnamed { list, before };
            assert_eq!(first_misnamed(b"avc1", &record), Some(misnamed));
        }
    }

    #[test]
    fn every_first_byte_of_avc() {
        let record = avc_record(&[SETS, EXTENSION]);
        for (at, list) in [(8, 7), (11, 7), (16, 8), (19, 8), (26, 13), (29, 13)] {
            for first in 0..=u8::MAX {
                let fits = of_their_lists(b"avc1", &changed(&record, at, first));
                assert_eq!(fits, first % 32 == list, "{at}: {first:02X}");
            }
        }
        // The second byte of a set, the extension's first three, and what stands behind it.
        for at in [12, 20, 21, 22, 30] {
            for byte in 0..=u8::MAX {
                assert!(of_their_lists(b"avc1", &changed(&record, at, byte)));
            }
        }
    }

    #[test]
    fn every_first_byte_and_array_of_hevc() {
        let right: [&[u8]; 2] = [b"\x21\0\x01\0\x01\x42", b"\xE2\0\x01\0\x02\xC5\0"];
        for array in 0..=u8::MAX {
            for first in 0..=u8::MAX {
                let own = [array, 0, 1, 0, 1, first];
                let record = hevc_record(&[right[0], &own, right[1]]);
                let fits = of_their_lists(b"hvc1", &record);
                assert_eq!(
                    fits,
                    first / 2 % 64 == array % 64,
                    "{array:02X} {first:02X}"
                );
            }
            // Without sets an array names nothing.
            let record = hevc_record(&[right[0], &[array, 0, 0], right[1]]);
            assert!(of_their_lists(b"hvc1", &record));
        }
    }

    #[test]
    fn later_sets_of_an_array() {
        for (sets, fits) in [
            (&b"\0\x01\x42\0\x01\xC3"[..], true),
            (b"\0\x01\x42\0\x01\x44", false),
            (b"\0\x01\x44\0\x01\x42", false),
            (b"\0\x01\x42\0\x02\x43\x44", true),
        ] {
            let array = [b"\x21\0\x02", sets].concat();
            let record = hevc_record(&[&array, b"\x22\0\x01\0\x01\x44"]);
            assert_eq!(of_their_lists(b"hvc1", &record), fits, "{sets:02X?}");
        }
    }

    #[test]
    fn other_records_have_no_sets() {
        for fourcc in [b"mp4a", b"Opus", b"AVC1", b"avc2", b"vvc1"] {
            assert!(of_their_lists(fourcc, b""));
            assert!(of_their_lists(fourcc, AVC));
        }
    }

    #[test]
    fn kinds_and_hints() {
        for (frame_type, route_has_video, hint) in
            [(0, false, 1), (0, true, 2), (1, false, 2), (1, true, 2)]
        {
            let class = class_of_refused_start(frame_type, route_has_video);
            assert_eq!(class, (0, hint));
        }
    }
}
