//! Measures the port beside the original, on the same inputs. Nothing fails on a time.
//! rust/run-bench says how it is called.

mod agreement;
mod buffers;
mod columns;
mod frames;
mod levels;
mod machine;
mod original;
mod page;
mod plain;
mod plot;
mod port;
mod program;
mod recording;
mod results;
mod rows;
mod sides;
mod store;
mod targets;
mod timing;
mod uplink;
mod writing;

use std::env;
use std::path::Path;
use std::process::ExitCode;
use std::time::{Duration, Instant};

use buffers::{Buffers, State};
use common::{say, words};
use frames::Frame;
use page::{Page, nanoseconds};
use results::{Run, avc_records};
use rows::SIDES;
use timing::{Batch, Plan};

/// What the tables and plots have in common.
const LEGEND: &str = "\
Times are medians, in nanoseconds a call. original/port is how many times as fast the port is, and
no copy/in place how many times as fast it is where neither need copy. In the plots o is the original,
p the port, c the bare copy, * more than one of them.";

/// The words of a call.
const POSSIBLE: [&str; 4] = ["--quick", "--markdown", "--loop", "--recording"];

/// How long a loop for a profiler runs.
const LOOP: Duration = Duration::from_secs(5);

fn main() -> ExitCode {
    let words: Vec<String> = env::args().skip(1).collect();
    let words: Vec<&str> = words.iter().map(String::as_str).collect();
    let done = match words[..] {
        ["--loop", side, shape] => run_loop(side, shape),
        ["--recording", program, folder, ref words @ ..] => {
            parse(words).and_then(|(page, plan)| run_programs(page, plan, program, folder))
        }
        _ => parse(&words).map(|(page, plan)| run(page, plan)),
    };
    words::end("bench", done.map(|()| true))
}

fn parse(words: &[&str]) -> Result<(Page, Plan), String> {
    let (mut page, mut plan) = (Page::Text, Plan::FULL);
    for word in words {
        match *word {
            "--markdown" => page = Page::Markdown,
            "--quick" => plan = Plan::QUICK,
            "--loop" => return Err("--loop stands alone, with a side and a shape".into()),
            "--recording" => return Err("--recording stands first".into()),
            _ => return Err(words::impossible(word, POSSIBLE)),
        }
    }
    Ok((page, plan))
}

fn run(page: Page, plan: Plan) {
    page.chapter("Results");
    page.list(&machine::described());
    page.paragraph(LEGEND);
    let mut run = Run::new(page, plan);
    let rows = State::BOTH.map(|state| run.shapes(state));
    targets::print(page, "Targets", &targets::SHAPES, &rows);
    for state in State::BOTH {
        run.lengths(state);
    }
    run.tracks("without records", frames::short_tracks);
    run.tracks("with AVC records", avc_records);
    let rows = run.columns();
    targets::print(page, "Targets of columns", &targets::COLUMNS, &[rows]);
    let rows = State::BOTH.map(|state| run.offered(state));
    targets::print(page, "Target of the store", &targets::STORE, &rows);
    let rows = run.uplink();
    targets::print(page, "Target of the uplink", &targets::UPLINK, &[rows]);
    for state in State::BOTH {
        run.written(state);
    }
    for state in State::BOTH {
        run.recordings_read(state);
    }
    for state in State::BOTH {
        run.recordings_written(state);
    }
    let rows = State::BOTH.map(|state| run.levels(state));
    targets::print(page, "Target of levels", &targets::LEVELS, &rows);
}

/// Runs `flv_sheet` on a long recording, which is made in the folder.
fn run_programs(page: Page, plan: Plan, program: &str, folder: &str) -> Result<(), String> {
    let ran = program::run(page, Path::new(program), Path::new(folder), plan.recording);
    ran.map_err(|error| error.to_string())
}

/// Runs a side on a shape. An error is about the words.
fn run_loop(side: &str, shape: &str) -> Result<(), String> {
    let (batch, frame) = (side_named(side)?, shape_named(shape)?);
    let mut buffers = Buffers::new(&frame.payload, State::Warm);
    let (mut calls, mut time) = (0, Duration::ZERO);
    let start = Instant::now();
    while start.elapsed() < LOOP {
        time += batch(&frame, &mut buffers, 1_000);
        calls += 1_000;
    }
    let each = nanoseconds(time.as_nanos() as f64 / f64::from(calls));
    say!("{side}, {shape}: {calls} calls, {each} ns each");
    Ok(())
}

fn side_named(word: &str) -> Result<Batch, String> {
    let side = SIDES.into_iter().find(|(name, _)| *name == word);
    let (_, batch) = side.ok_or_else(|| words::impossible(word, SIDES.map(|(name, _)| name)))?;
    Ok(batch)
}

fn shape_named(word: &str) -> Result<Frame, String> {
    let shape = frames::shapes()
        .into_iter()
        .find(|frame| frame.name == word);
    shape.ok_or_else(|| {
        let names = frames::shapes()
            .into_iter()
            .map(|frame| format!("'{}'", frame.name));
        words::impossible(word, [names.collect::<Vec<_>>().join("\n  ")])
    })
}

#[cfg(test)]
mod tests {
    use super::*;

    const SCRIPT: &str = include_str!("../../run-bench");

    #[test]
    fn the_usage_has_the_sides_and_a_shape() {
        let [first, second, third, fourth, last] = SIDES.map(|(name, _)| name);
        let sides = format!("{first}, {second}, {third}, {fourth} and {last};");
        assert!(SCRIPT.contains(&sides));
        let is_named = |shape: &String| SCRIPT.contains(&format!("--loop {third} '{shape}'\n"));
        assert!(frames::shapes().iter().any(|frame| is_named(&frame.name)));
        assert!(SCRIPT.contains(&format!("for {} seconds", LOOP.as_secs())));
    }

    #[test]
    fn bad_words_are_named_with_those_that_are_possible() {
        let line = parse(&["--quick", "fast"]).err();
        let possible = "possible are:\n  --quick --markdown --loop --recording";
        assert_eq!(
            line,
            Some(format!("\"fast\" is not possible here; {possible}"))
        );
        let line = run_loop("left", "empty audio").expect_err("there is no such side");
        assert!(
            line.starts_with("\"left\" is not possible here; "),
            "{line}"
        );
        assert!(
            line.ends_with("\n  original without-copy port in-place copy"),
            "{line}"
        );
        let line = run_loop("port", "round").expect_err("there is no such shape");
        assert!(
            line.starts_with("\"round\" is not possible here; "),
            "{line}"
        );
        assert!(line.contains("\n  'AAC, 1,200 B'\n"), "{line}");
        assert!(parse(&["--loop", "port"]).is_err_and(|line| line.starts_with("--loop ")));
    }
}
