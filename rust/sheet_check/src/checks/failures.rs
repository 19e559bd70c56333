//! Inputs and outputs that fail, and arguments: a sheet prints the lines of the frames that it has
//! read whole, and says on standard error why it ends. It never ends early in silence.

use std::ops::RangeInclusive;
use std::process::Command;

use common::flv;
use sheet_check::frames::{self, listed};
use sheet_check::reading::{HEAD, LINE};

use super::calls::{cannot_trace, strace};
use crate::difference::lines;
use crate::program::{Feed, Program, Ran};
use crate::trial::{Failure, Trial};

/// What a sheet says of.
#[derive(Clone, Copy)]
enum Said {
    Input,
    Output,
    Arguments,
}

impl Said {
    /// What is said begins with this; if it is about arguments, it is this.
    fn begins(self, program: &Program) -> String {
        match self {
            Self::Input => format!("{}: standard input", program.name),
            Self::Output => format!("{}: standard output", program.name),
            Self::Arguments => program.takes_none.into(),
        }
    }

    fn is_said(self, program: &Program, errors: &[u8]) -> bool {
        let begins = self.begins(program);
        match self {
            Self::Arguments => errors == begins.as_bytes(),
            Self::Input | Self::Output => {
                errors.starts_with(begins.as_bytes())
                    && errors.ends_with(b"\n")
                    && lines(errors).count() == 1
            }
        }
    }
}

/// Calls of a shell whose `$0` is the sheet, with a good input, and what the sheet must speak of.
/// It prints nothing.
const TURNED_AWAY: [(&str, Said); 9] = [
    // The input is a folder; it is closed; it can be written only.
    (r#"exec "$0" < /"#, Said::Input),
    (r#"exec "$0" <&-"#, Said::Input),
    (r#"exec "$0" 0> /dev/null"#, Said::Input),
    // The output has no room; it is closed.
    (r#"exec "$0" > /dev/full"#, Said::Output),
    (r#"exec "$0" >&-"#, Said::Output),
    // Arguments: what the program is for, and how it is called.
    (r#"exec "$0" --help"#, Said::Arguments),
    (r#"exec "$0" /dev/null"#, Said::Arguments),
    (r#"exec "$0" """#, Said::Arguments),
    (r#"exec "$0" -- -"#, Said::Arguments),
];

/// The input comes through a pipe, the first `$1` bytes before the sheet begins and the others
/// later. A read does not wait for them: dd leaves the pipe so.
const NOT_WAITING: &str = r#"
    { dd bs="$1" count=1; sleep 0.3; cat; } 2> /dev/null | {
        dd iflag=nonblock count=0 2> /dev/null
        until read -t 0; do sleep 0.01; done
        exec timeout 5 "$0"
    }"#;

/// Whether dd can do that: bit 04000 of the flags is O_NONBLOCK.
const CAN_BE_LEFT_SO: &str = r#"
    sleep 0 | {
        dd iflag=nonblock count=0 2> /dev/null
        grep -q '^flags:.*[4-7]...$' /proc/self/fdinfo/0
    }"#;

/// The sheet waits for its input, and is stopped and continued meanwhile.
const STOPPED: &str = r#"
    { sleep 0.3; cat; } | {
        "$0" <&0 &
        sleep 0.1; kill -STOP $!; sleep 0.1; kill -CONT $!; wait $!
    }"#;

/// System calls, the errors that strace gives to the seventh of each, and what is to be said of.
const INJECTED: [(&str, Said); 6] = [
    ("read:error=EINTR", Said::Input),
    ("read:error=EAGAIN", Said::Input),
    ("read:error=EIO", Said::Input),
    ("write:error=EINTR", Said::Output),
    ("write:error=EAGAIN", Said::Output),
    ("write:error=ENOSPC", Said::Output),
];

pub fn of_sheet(trial: &mut Trial, _: u64) -> Result<String, Failure> {
    let second = HEAD + listed()[0].payload.len();
    let third = second + HEAD + listed()[1].payload.len();
    let stops = [1, second, second + 1, third - 1, third, third + HEAD];
    check(trial, &frames::bytes(&listed()), &stops)
}

pub fn of_flv_sheet(trial: &mut Trial, _: u64) -> Result<String, Failure> {
    let file = frames::recording(&listed());
    let first = flv::START.len();
    let mut tags = flv::tags(&file, first).flatten().skip(1);
    let second = tags.next().expect("there are more than two");
    let third = second.next;
    let body = second.body();
    let mut stops = vec![1, flv::HEADER, first - 1, first, first + 1];
    stops.extend([body.start, body.end - 1, body.end, third - 1]);
    stops.extend([third, third + 1, third + flv::HEAD]);
    check(trial, &file, &stops)
}

/// The input stops at some of these places.
fn check(trial: &mut Trial, input: &[u8], stops: &[usize]) -> Result<String, Failure> {
    for (script, said) in TURNED_AWAY {
        let ran = trial.run_as(shell(trial, script), input, Feed::File)?;
        let expected = (trial.program.sheet)(input);
        judge(trial.program, script, &ran, &expected, 0..=0, said)?;
        trial.passed(&[]);
    }
    trial.compare_as(shell(trial, STOPPED), "a stopped run", input, Feed::File)?;
    let remarks = [not_waiting(trial, input, stops)?, injected(trial, input)?];
    Ok(remarks.into_iter().flatten().collect::<Vec<_>>().join("; "))
}

/// A command that runs the sheet through a shell.
fn shell(trial: &Trial, script: &str) -> Command {
    let mut command = Command::new("bash");
    command.arg("-c").arg(script).arg(&trial.program.path);
    command
}

/// The input stops before anything, between two frames, and inside of them. The sheet either waits
/// or says that it does not. Gives a remark if nothing could be tried.
fn not_waiting(
    trial: &mut Trial,
    input: &[u8],
    stops: &[usize],
) -> Result<Option<String>, Failure> {
    let tried = trial.run_as(shell(trial, CAN_BE_LEFT_SO), b"", Feed::File)?;
    if !tried.status.is_some_and(|status| status.success()) {
        return Ok(Some("no input was left without waiting: dd cannot".into()));
    }
    for there in stops {
        let mut command = shell(trial, NOT_WAITING);
        command.arg(there.to_string());
        let ran = trial.run_as(command, input, Feed::File)?;
        let before = (trial.program.sheet)(&input[..*there]);
        let whole = lines(&before).filter(|line| line.len() == LINE).count();
        let what = format!("an input that stops at byte {there}");
        judge_whole_or_cut(trial, &what, input, &ran, whole..=whole, Said::Input)?;
    }
    Ok(None)
}

/// A read or a write fails in the middle. Gives a remark if nothing could be tried.
fn injected(trial: &mut Trial, input: &[u8]) -> Result<Option<String>, Failure> {
    let log = trial.program.folder.join("strace");
    let frames = lines(&(trial.program.sheet)(input)).count();
    for (error, said) in INJECTED {
        let options = ["-e", &format!("inject={error}:when=7")];
        if let Some(reason) = cannot_trace(&log, &options) {
            return Ok(Some(format!("no error was injected: {reason}")));
        }
        let command = strace(&log, &options, &trial.program.path);
        let ran = trial.run_as(command, input, Feed::File)?;
        judge_whole_or_cut(trial, error, input, &ran, 1..=frames - 1, said)?;
    }
    Ok(None)
}

/// Passes a run that printed the whole sheet and said nothing, or so many lines and why it ended.
fn judge_whole_or_cut(
    trial: &mut Trial,
    what: &str,
    input: &[u8],
    ran: &Ran,
    printed: RangeInclusive<usize>,
    said: Said,
) -> Result<(), Failure> {
    let expected = (trial.program.sheet)(input);
    if ran.output != expected || !ran.errors.is_empty() {
        judge(trial.program, what, ran, &expected, printed, said)?;
    }
    trial.passed(&ran.output);
    Ok(())
}

/// Passes a run that printed so many of the first lines of the sheet, said what it must, and ended
/// by itself.
fn judge(
    program: &Program,
    what: &str,
    ran: &Ran,
    expected: &[u8],
    printed: RangeInclusive<usize>,
    said: Said,
) -> Result<(), Failure> {
    let ended = ran.status.is_some_and(|status| status.code().is_some());
    let is_front = lines(expected)
        .zip(lines(&ran.output))
        .all(|(one, other)| one == other)
        && printed.contains(&lines(&ran.output).count());
    if ended && is_front && said.is_said(program, &ran.errors) {
        return Ok(());
    }
    let [output, errors] = [&ran.output, &ran.errors].map(|text| text.escape_ascii());
    let (least, most) = printed.into_inner();
    let begins = said.begins(program);
    Err(format!(
        "{what}\n  it must print {least} to {most} lines of the sheet, and say: \"{}\"\n  \
         it printed: \"{output}\"\n  on standard error: \"{errors}\"",
        begins.escape_default()
    )
    .into())
}
