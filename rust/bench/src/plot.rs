//! A plot of characters: a line for each size, a mark for each side, time on a logarithmic scale.

/// Columns for a power of ten.
const DECADE: usize = 14;

/// A mark, and its time in nanoseconds.
pub type Mark = (char, f64);

pub fn plot<const N: usize>(lines: &[(String, [Mark; N])]) -> String {
    let times = || lines.iter().flat_map(|(_, marks)| marks);
    let logs = || times().map(|(_, time)| time.log10());
    let first = logs().fold(f64::MAX, f64::min).floor() as i32;
    let last = logs().fold(f64::MIN, f64::max).ceil() as i32;
    let names = lines.iter().map(|(name, _)| name.len());
    let margin = names.max().unwrap_or(0) + 2;
    let mut text = scale(first, last, margin);
    for (name, marks) in lines {
        text += &format!("{name:>0$}  {1}\n", margin - 2, line(first, last, marks));
    }
    text
}

/// The times that the powers of ten stand for.
fn scale(first: i32, last: i32, margin: usize) -> String {
    let labels = (first..=last).map(|power| format!("{:<DECADE$}", label(power)));
    let labels: String = labels.collect();
    format!("{}{}\n", " ".repeat(margin), labels.trim_end())
}

fn label(power: i32) -> String {
    let unit = ["ns", "us", "ms", "s"][power as usize / 3];
    format!("{} {unit}", 10_u32.pow(power as u32 % 3))
}

/// A point at each power of ten, and the marks; `*` is more than one.
fn line(first: i32, last: i32, marks: &[Mark]) -> String {
    let mut columns = vec![' '; (last - first) as usize * DECADE + 1];
    columns.iter_mut().step_by(DECADE).for_each(|c| *c = '.');
    for &(mark, time) in marks {
        let at = (time.log10() - f64::from(first)) * DECADE as f64;
        let column = &mut columns[at.round() as usize];
        *column = if ['.', ' '].contains(column) {
            mark
        } else {
            '*'
        };
    }
    columns.into_iter().collect()
}
