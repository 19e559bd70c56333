//! The frame sheet of an FLV file, read from the words of request N3 (docs/REQUIREMENTS.md, section
//! 23): the sheet's lines, under the sheet's limits, of the frames that common::flv finds. A frame
//! passes only where its back-pointer matched.

use std::iter;

use common::flv::{self, Head, START, Tag};
use common::requirement::OUTPUT_TOO_SHORT;
use oracle::FRAME_TYPES;

use crate::reading::{Frame, LAST, LONGEST, lines};

/// What the sheet of a file is.
pub fn sheet(file: &[u8]) -> Vec<u8> {
    lines(frames(file))
}

/// The frames of a file, up to the last one that the sheet takes. A refusal is the end of them.
pub fn frames(file: &[u8]) -> impl Iterator<Item = Result<Frame<'_>, i32>> {
    let mut place = Some(flv::start(file).map_err(|(number, _)| number));
    let tags = iter::from_fn(move || {
        let at = match place.take()? {
            Ok(at) if at == file.len() => return None,
            at => at,
        };
        let tag = at.and_then(|at| limited(file, at));
        place = tag.ok().map(|tag| Ok(tag.next));
        Some(tag)
    });
    let frames = tags.filter_map(move |tag| tag.map(|tag| frame(file, tag)).transpose());
    frames.take(LAST)
}

/// What a tag holds, if it is a frame.
fn frame(file: &[u8], tag: Tag) -> Option<Frame<'_>> {
    Some(Frame {
        frame_type: FRAME_TYPES[tag.head.frame_type()? as usize],
        payload: &file[tag.body()],
    })
}

/// The tag at a place. A frame that is too long is refused by its head, and one that the pass
/// refuses behind everything else.
fn limited(file: &[u8], at: usize) -> Result<Tag, i32> {
    let too_long = |head: Head| head.frame_type().is_some() && head.length > LONGEST;
    if Head::at(file, at).is_some_and(too_long) {
        return Err(OUTPUT_TOO_SHORT);
    }
    let tag = Tag::at(file, at).map_err(|(number, _)| number)?;
    frame(file, tag).map_or(Ok(()), |frame| frame.passes())?;
    Ok(tag)
}

/// Where the tag of a line stands, or that which the line is missing for.
pub fn place_of_line(file: &[u8], line: usize) -> usize {
    let before = flv::frames(file, START.len()).take(line).flatten();
    before.last().map_or(0, |tag| tag.next)
}

#[cfg(test)]
mod tests {
    use common::flv::tag;
    use common::recordings::{Recording, four_tags};

    use super::*;

    const EMPTY_LINE: &str = "  0        0  -1     0  0  0\n";

    fn text(parts: &[&[u8]]) -> String {
        let file = parts.concat();
        String::from_utf8(sheet(&file)).expect("digits, signs and spaces")
    }

    /// An empty audio tag.
    fn empty() -> Vec<u8> {
        tag(8, 0, b"")
    }

    #[test]
    fn other_tags_have_no_line_and_no_number() {
        let lines = "     1  1        5   0     0  3  1\n     2  0        1   0     0  0  2\n";
        assert_eq!(text(&[&four_tags().bytes]), lines);
    }

    #[test]
    fn refusals_stand_under_the_next_number() {
        let (start, empty, other) = (&START[..], &empty()[..], &tag(0, 0, b"")[..]);
        assert_eq!(text(&[]), "     1 -25\n");
        assert_eq!(text(&[start]), "");
        assert_eq!(text(&[&[0; 9]]), "     1 -29\n");
        assert_eq!(text(&[&start[..12], b"\x01"]), "     1 -30\n");
        let cut = text(&[start, other, empty, &empty[..14]]);
        assert_eq!(cut, format!("     1{EMPTY_LINE}     2 -25\n"));
        let wrong = text(&[start, &empty[..14], b"\x0C", empty]);
        assert_eq!(wrong, "     1 -30\n");
        let in_other = text(&[start, empty, &other[..14], b"\x00", empty]);
        assert_eq!(in_other, format!("     1{EMPTY_LINE}     2 -30\n"));
    }

    #[test]
    fn too_long_a_frame_is_refused_by_its_head() {
        let head = |type_byte: u8, low: u8| [&[type_byte, 0, 0x80, low][..], &[0; 7]].concat();
        for type_byte in [8, 9, 18] {
            assert_eq!(text(&[START, &head(type_byte, 1)]), "     1 -22\n");
            assert_eq!(text(&[START, &head(type_byte, 1)[..10]]), "     1 -25\n");
            assert_eq!(text(&[START, &head(type_byte, 0)]), "     1 -25\n");
            let whole = tag(type_byte, 0, &[0; LONGEST + 1]);
            assert_eq!(text(&[START, &whole, &empty()]), "     1 -22\n");
        }
        assert_eq!(text(&[START, &head(0x28, 1)]), "     1 -25\n");
        let other = tag(0x28, 0, &[0; LONGEST + 1]);
        assert_eq!(
            text(&[START, &other, &empty()]),
            format!("     1{EMPTY_LINE}")
        );
        let longest = text(&[START, &tag(18, 0, &[0; LONGEST])]);
        assert_eq!(longest, "     1  2    32768   0     0  0  0\n");
    }

    #[test]
    fn an_offset_is_judged_behind_everything_else() {
        let refused = |type_byte| tag(type_byte, 0, b"\x97\x00\xAA\x01");
        for type_byte in [8, 9, 18] {
            let refused = &refused(type_byte)[..];
            assert_eq!(text(&[START, refused, &empty()]), "     1  -3\n");
            let behind = text(&[START, &empty(), refused]);
            assert_eq!(behind, format!("     1{EMPTY_LINE}     2  -3\n"));
            let (front, _) = refused.split_at(refused.len() - 1);
            assert_eq!(text(&[START, front]), "     1 -25\n");
            assert_eq!(text(&[START, front, b"\x00"]), "     1 -30\n");
        }
        let other = text(&[START, &refused(0x28), &empty()]);
        assert_eq!(other, format!("     1{EMPTY_LINE}"));
    }

    #[test]
    fn nothing_behind_the_last_frame() {
        // How many frames there are, and the refusal behind them.
        let found = |parts: &[&[u8]]| {
            let file = parts.concat();
            let (frames, refused): (Vec<_>, Vec<_>) = frames(&file).partition(Result::is_ok);
            (frames.len(), refused.into_iter().find_map(Result::err))
        };
        let frames = empty().repeat(LAST - 1);
        let wrong = [&empty()[..14], b"\x0C"].concat();
        for behind in [&b""[..], &empty(), &wrong, b"\x08", &[9; 11]] {
            assert_eq!(found(&[START, &frames, &empty(), behind]), (LAST, None));
        }
        assert_eq!(found(&[START, &frames, &wrong]), (LAST - 1, Some(-30)));
    }

    #[test]
    fn places_of_lines() {
        let Recording { bytes, heads, .. } = four_tags();
        assert_eq!(place_of_line(&bytes, 0), 0);
        assert_eq!(place_of_line(&bytes, 1), heads[1]);
        assert_eq!(place_of_line(&bytes, 2), bytes.len());
    }
}
