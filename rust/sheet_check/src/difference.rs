//! Where what a sheet printed is not what it must print.

/// Of a longer input, only a part is shown.
const SHOWN_BYTES: usize = 600;

/// From the first difference on, as many lines of each output are shown.
const SHOWN_LINES: usize = 3;

/// The first line, counted from 0, in which two outputs differ.
pub fn first_line(expected: &[u8], printed: &[u8]) -> Option<usize> {
    if expected == printed {
        return None;
    }
    let mut pairs = lines(expected).zip(lines(printed));
    let differing = pairs.position(|(expected, printed)| expected != printed);
    let common = lines(expected).count().min(lines(printed).count());
    Some(differing.unwrap_or(common))
}

/// The last line, counted from 0.
pub fn last_line(output: &[u8]) -> usize {
    lines(output).count().saturating_sub(1)
}

/// The lines, each with its end.
pub fn lines(output: &[u8]) -> impl Iterator<Item = &[u8]> {
    output.split_inclusive(|byte| *byte == b'\n')
}

/// The input, whose frame of this line stands at this place, and both outputs from the line on.
pub fn show(input: &[u8], place: usize, expected: &[u8], printed: &[u8], line: usize) -> String {
    let (from, shown) = part(input, place);
    let bytes: String = shown.iter().map(|byte| format!(" {byte:02X}")).collect();
    let (count, all, number) = (shown.len(), input.len(), line + 1);
    let [expected, printed] = [expected, printed].map(|output| shown_lines(output, line));
    format!(
        "  input, {count} of {all} bytes from byte {from} on:{bytes}\n  \
         it must print, from line {number} on:\n{expected}  \
         it printed, from line {number} on:\n{printed}"
    )
}

fn shown_lines(output: &[u8], from: usize) -> String {
    let lines = lines(output).skip(from).take(SHOWN_LINES);
    lines
        .map(|line| format!("    \"{}\"\n", line.escape_ascii()))
        .collect()
}

/// Where the shown part of an input begins, and the part: all of a short one, else what begins at
/// this place.
fn part(input: &[u8], place: usize) -> (usize, &[u8]) {
    if input.len() <= SHOWN_BYTES {
        return (0, input);
    }
    let end = input.len().min(place + SHOWN_BYTES);
    (place, &input[place..end])
}

#[cfg(test)]
mod tests {
    use sheet_check::frames::{bytes, listed};
    use sheet_check::reading::{place_of_line, sheet};

    use super::*;

    #[test]
    fn equal_outputs() {
        let expected = sheet(&bytes(&listed()));
        assert_eq!(first_line(&expected, &expected), None);
    }

    #[test]
    fn every_changed_byte_is_found() {
        let expected = sheet(&bytes(&listed()));
        for at in 0..expected.len() {
            let mut printed = expected.clone();
            printed[at] ^= 1;
            let line = last_line(&expected[..=at]);
            assert_eq!(first_line(&expected, &printed), Some(line));
        }
    }

    #[test]
    fn every_missing_and_added_byte_is_found() {
        let expected = sheet(&bytes(&listed()));
        for at in 0..expected.len() {
            let mut printed = expected.clone();
            printed.remove(at);
            assert!(first_line(&expected, &printed).is_some());
            assert!(first_line(&expected, &expected[..at]).is_some());
            assert!(first_line(&expected[..at], &expected).is_some());
        }
    }

    #[test]
    fn the_frame_of_the_line_is_shown() {
        let frames = vec![listed()[1].clone(); 1_000];
        let (input, expected) = (bytes(&frames), sheet(&bytes(&frames)));
        let shown = show(&input, place_of_line(&input, 900), &expected, b"", 900);
        assert!(shown.contains("from byte 8100 on: 01 00 00 05 17 01 00 00 00 01"));
        assert!(shown.contains("from line 901 on:\n    \"   901  1        5   0     0  3  1\\n\""));
    }
}
