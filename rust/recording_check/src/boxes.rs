//! The boxes of MP4 and MOV files, and the configuration records in them.

/// A configuration record, with the FourCC that a frame names its codec by.
#[derive(Clone, Copy, Debug, PartialEq)]
pub struct Record<'a> {
    pub fourcc: &'static [u8; 4],
    pub bytes: &'a [u8],
}

/// The boxes around the description of a track's samples, from the outermost on, and how many bytes
/// stand in each before the boxes inside it.
const AROUND: [(&[u8; 4], usize); 6] = [
    (b"moov", 0),
    (b"trak", 0),
    (b"mdia", 0),
    (b"minf", 0),
    (b"stbl", 0),
    (b"stsd", 8),
];

/// How many bytes stand in a description of pictures before the boxes inside it.
const OF_PICTURES: usize = 78;

/// Descriptions, the box of the record in each, and the FourCC of its codec.
const DESCRIPTIONS: [[&[u8; 4]; 3]; 3] = [
    [b"avc1", b"avcC", b"avc1"],
    [b"hvc1", b"hvcC", b"hvc1"],
    [b"hev1", b"hvcC", b"hvc1"],
];

/// The only record of a file.
pub fn record(file: &[u8]) -> Result<Record<'_>, String> {
    let mut records = records(file).ok_or("its boxes do not fill each other")?;
    match (records.pop(), records.len()) {
        (Some(record), 0) => Ok(record),
        (None, _) => Err("it has no AVC or HEVC record".into()),
        (_, more) => Err(format!("it has {} AVC and HEVC records", more + 1)),
    }
}

fn records(file: &[u8]) -> Option<Vec<Record<'_>>> {
    let mut records = vec![];
    for [description, name, fourcc] in DESCRIPTIONS {
        let inner = [(description, OF_PICTURES), (name, 0)];
        let mut found = vec![file];
        for (name, before) in AROUND.into_iter().chain(inner) {
            let mut inside = vec![];
            for bytes in found {
                for content in named(bytes, name)? {
                    inside.push(content.get(before..)?);
                }
            }
            found = inside;
        }
        records.extend(found.into_iter().map(|bytes| Record { fourcc, bytes }));
    }
    Some(records)
}

/// What the boxes of this name hold, if boxes fill these bytes: each begins with its size, in four
/// bytes, and its name.
fn named<'a>(mut bytes: &'a [u8], name: &[u8; 4]) -> Option<Vec<&'a [u8]>> {
    let mut found = vec![];
    while !bytes.is_empty() {
        let ([a, b, c, d, own @ ..], rest) = bytes.split_first_chunk::<8>()?;
        let size = u32::from_be_bytes([*a, *b, *c, *d]) as usize;
        let (content, next) = rest.split_at_checked(size.checked_sub(8)?)?;
        if own == name {
            found.push(content);
        }
        bytes = next;
    }
    Some(found)
}

#[cfg(test)]
mod tests {
    use super::*;

    fn a_box(name: &[u8; 4], content: &[u8]) -> Vec<u8> {
        let size = 8 + content.len() as u32;
        [&size.to_be_bytes(), &name[..], content].concat()
    }

    /// A track whose samples are described by this box.
    fn track(description: &[u8]) -> Vec<u8> {
        let mut track = [&[0; 8], description].concat();
        for name in [b"stsd", b"stbl", b"minf", b"mdia", b"trak"] {
            track = [a_box(b"free", b"avcC"), a_box(name, &track)].concat();
        }
        track
    }

    fn description(name: &[u8; 4], record: &[u8; 4], content: &[u8]) -> Vec<u8> {
        let boxes = [a_box(b"pasp", b"\0\0"), a_box(record, content)].concat();
        a_box(name, &[&[0; OF_PICTURES], &boxes[..]].concat())
    }

    fn file(tracks: &[Vec<u8>]) -> Vec<u8> {
        [a_box(b"mdat", b"avcC"), a_box(b"moov", &tracks.concat())].concat()
    }

    #[test]
    fn the_record_of_each_description() {
        let sound = track(&a_box(b"mp4a", b"sound"));
        for [name, record_name, fourcc] in DESCRIPTIONS {
            let pictures = track(&description(name, record_name, b"record"));
            let asked = Record {
                fourcc,
                bytes: b"record",
            };
            for tracks in [
                vec![pictures.clone()],
                vec![sound.clone(), pictures.clone()],
                vec![pictures.clone(), sound.clone()],
            ] {
                assert_eq!(record(&file(&tracks)), Ok(asked));
            }
        }
    }

    #[test]
    fn no_record_and_two() {
        let pictures = track(&description(b"avc1", b"avcC", b"record"));
        let others = track(&description(b"hvc1", b"hvcC", b"record"));
        let mixed = track(&description(b"avc1", b"hvcC", b"record"));
        let none = "it has no AVC or HEVC record";
        let two = "it has 2 AVC and HEVC records";
        for (tracks, reason) in [
            (vec![], none),
            (vec![mixed], none),
            (vec![pictures.clone(), pictures.clone()], two),
            (vec![pictures, others], two),
        ] {
            assert_eq!(record(&file(&tracks)), Err(reason.into()));
        }
    }

    #[test]
    fn cut_at_every_byte() {
        let file = file(&[track(&description(b"avc1", b"avcC", b"record"))]);
        let movie = a_box(b"mdat", b"avcC").len();
        for end in 0..file.len() {
            let reason = if [0, movie].contains(&end) {
                "it has no AVC or HEVC record"
            } else {
                "its boxes do not fill each other"
            };
            assert_eq!(record(&file[..end]), Err(reason.into()), "{end}");
        }
    }
}
