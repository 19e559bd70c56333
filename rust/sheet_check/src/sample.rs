//! The stored samples of the programs `sheet` and `flv_sheet`: what each reads, and what it must
//! print for it. They are made by `rust/run-sheet sample crates/sheet` and `rust/run-sheet
//! flv_sample crates/flv_sheet` in the root of the repository; a folder, if it is not absolute,
//! counts from the caller's.

use std::io;
use std::path::Path;

use common::recordings::Recording;
use common::{files, flv, say};
use sheet_check::frames::{self, head, listed};
use sheet_check::reading::{LONGEST, sheet};
use sheet_check::recording;

/// Writes the sample of `sheet`.
pub fn write(folder: &Path) -> io::Result<()> {
    write_both(folder, &input(), sheet)
}

/// Writes the sample of `flv_sheet`.
pub fn write_flv(folder: &Path) -> io::Result<()> {
    write_both(folder, &file(), recording::sheet)
}

/// Writes the files `stdin` and `stdout` in the folder, and prints how long they are.
fn write_both(folder: &Path, input: &[u8], sheet: fn(&[u8]) -> Vec<u8>) -> io::Result<()> {
    let output = sheet(input);
    files::write(&folder.join("stdin"), input)?;
    files::write(&folder.join("stdout"), &output)?;
    say!("{} bytes in, {} out", input.len(), output.len());
    Ok(())
}

/// The listed frames, one with an offset of a single data byte, and one that is not reached.
fn input() -> Vec<u8> {
    let refused = [&head(0, 4)[..], b"\x97\x00\xAA\x01"].concat();
    [frames::bytes(&listed()), refused, head(2, 0).to_vec()].concat()
}

/// The listed frames that a tag can hold, behind other tags, the last of which is longer than a
/// frame may be; then a frame whose back-pointer leaves out its head, and one that is not reached.
fn file() -> Vec<u8> {
    let others: [(u8, &[u8]); 5] = [
        (0x28, b"\xAF\x01\x21"),
        (0x29, b"\x17\x01\x00\x00\x00"),
        (0x32, b"\x02\x00\x0AonMetaData"),
        (0x00, b""),
        (0xFF, &[0x08; LONGEST + 1]),
    ];
    let mut recording = Recording::default();
    // Neither the flags nor a stream id is read.
    recording.bytes[4] = 0xFF;
    for (number, frame) in listed().iter().enumerate() {
        if let Some((type_byte, body)) = others.get(number) {
            recording.push(*type_byte, 40 * number as u32, body);
        }
        frame.record(number as u32 * 0x0100_0028, &mut recording);
    }
    let id = recording.heads[1] + flv::HEAD - 1;
    recording.bytes[id] = 0xFF;
    let mut wrong = flv::tag(9, 0, b"\x17\x01\x00\x00\x00");
    let last = wrong.len() - 1;
    wrong[last] = 5;
    [recording.bytes, wrong, flv::tag(8, 0, b"")].concat()
}

#[cfg(test)]
mod tests {
    use std::collections::BTreeSet;

    use sheet_check::reading::{self, Frame, Seen};

    use super::*;

    /// What a column of a sheet shows.
    fn shown<'a, T: Ord>(
        frames: impl Iterator<Item = Result<Frame<'a>, i32>>,
        column: impl Fn(u8, Seen) -> T,
    ) -> BTreeSet<T> {
        frames
            .flatten()
            .map(|frame| column(frame.frame_type as u8, frame.seen()))
            .collect()
    }

    /// Everything but the frame types.
    fn shows_everything<'a, I: Iterator<Item = Result<Frame<'a>, i32>>>(frames: impl Fn() -> I) {
        assert_eq!(shown(frames(), |_, seen| seen.error), [-7, -1, 0].into());
        assert_eq!(shown(frames(), |_, seen| seen.tracks), [0, 1, 2, 3].into());
        assert_eq!(shown(frames(), |_, seen| seen.kind), [0, 1, 2, 3].into());
        assert_eq!(shown(frames(), |_, seen| seen.hint), [0, 1, 2].into());
        let peeled = [(0, true), (1, true), (2, true)].into();
        let of_types = shown(frames(), |frame_type, seen| (frame_type, seen.peeled));
        assert!(of_types.is_superset(&peeled));
    }

    #[test]
    fn it_shows_everything() {
        let input = input();
        let frames = || reading::frames(&input);
        assert_eq!(shown(frames(), |number, _| number), [0, 1, 2, 3].into());
        shows_everything(frames);
    }

    #[test]
    fn the_file_shows_everything() {
        let file = file();
        let frames = || recording::frames(&file);
        assert_eq!(shown(frames(), |number, _| number), [0, 1, 2].into());
        shows_everything(frames);
        let tags = flv::tags(&file, flv::START.len()).flatten();
        let others = tags.filter(|tag| tag.head.frame_type().is_none());
        let others: Vec<u8> = others.map(|tag| tag.head.type_byte).collect();
        assert_eq!(others, [0x28, 0x29, 0x32, 0x00, 0xFF]);
    }

    #[test]
    fn each_ends_with_a_refusal() {
        let last = |output: Vec<u8>| {
            let output = String::from_utf8(output).expect("digits, signs and spaces");
            output.lines().last().map(String::from)
        };
        assert_eq!(last(sheet(&input())).as_deref(), Some("    32  -3"));
        assert_eq!(
            last(recording::sheet(&file())).as_deref(),
            Some("    31 -30")
        );
    }
}
