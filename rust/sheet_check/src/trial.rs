//! Runs of a sheet, held against the reading.

use std::error::Error;
use std::io;
use std::process::Command;
use std::time::Duration;

use common::progress::Progress;
use sheet_check::reading::LINE;

use crate::difference;
use crate::program::{Feed, Program, Programs, Ran};

/// Why a check did not pass: a difference, with the input that shows it, or a run that failed.
pub type Failure = Box<dyn Error>;

/// The runs of one check.
pub struct Trial<'a> {
    pub programs: &'a Programs,
    /// The one that the check is about.
    pub program: &'a Program,
    progress: Progress,
    pub runs: u64,
    pub lines: u64,
}

impl<'a> Trial<'a> {
    pub fn new(name: &'static str, programs: &'a Programs, program: &'a Program) -> Self {
        Self {
            programs,
            program,
            progress: Progress::new(name, "lines"),
            runs: 0,
            lines: 0,
        }
    }

    /// Runs the sheet and judges what it printed; gives the time that it took.
    pub fn compare(&mut self, what: &str, input: &[u8], feed: Feed) -> Result<Duration, Failure> {
        let command = Command::new(&self.program.path);
        self.compare_as(command, what, input, feed)
    }

    /// Runs the sheet by this command.
    pub fn compare_as(
        &mut self,
        command: Command,
        what: &str,
        input: &[u8],
        feed: Feed,
    ) -> Result<Duration, Failure> {
        let ran = self.run_as(command, input, feed)?;
        let expected = (self.program.sheet)(input);
        judge(self.program, what, input, &expected, &ran)?;
        self.passed(&expected);
        Ok(ran.time)
    }

    /// Runs the sheet by this command, and judges nothing.
    pub fn run_as(&mut self, command: Command, input: &[u8], feed: Feed) -> io::Result<Ran> {
        let watch = |printed| self.progress.reach(self.lines + printed / LINE as u64);
        self.program.run(command, input, feed, watch)
    }

    /// How much memory the program has held at most behind the last frame of an input.
    pub fn memory_behind(&mut self, input: &[u8]) -> Result<Option<u64>, Failure> {
        let expected = (self.program.sheet)(input);
        let memory = self.program.memory_behind(input, expected.len())?;
        self.passed(&expected);
        Ok(memory)
    }

    /// Counts a run that printed this, as it must.
    pub fn passed(&mut self, printed: &[u8]) {
        self.runs += 1;
        self.lines += difference::lines(printed).count() as u64;
    }

    /// Ends the line that shows how far the runs are.
    pub fn pause(&mut self) {
        self.progress.pause();
    }
}

/// Passes a run that printed what it must, said nothing else and ended well.
fn judge(
    program: &Program,
    what: &str,
    input: &[u8],
    expected: &[u8],
    ran: &Ran,
) -> Result<(), Failure> {
    let line = difference::first_line(expected, &ran.output);
    let end = match ran.status {
        None => "did not end by itself",
        Some(status) if !status.success() => &format!("ended badly, with {status}"),
        Some(_) if !ran.errors.is_empty() => &format!("said \"{}\"", ran.errors.escape_ascii()),
        Some(_) if line.is_some() => "ended well",
        Some(_) => return Ok(()),
    };
    let line = line.unwrap_or_else(|| difference::last_line(expected));
    let place = (program.place_of_line)(input, line);
    let shown = difference::show(input, place, expected, &ran.output, line);
    let name = program.name;
    Err(format!("{what}; {name} {end}\n{shown}").into())
}
