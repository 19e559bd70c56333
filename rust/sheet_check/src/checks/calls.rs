//! How often a sheet reads and writes.

use std::path::Path;
use std::process::Command;
use std::{fs, iter};

use common::files;
use common::flv::{START, tag};
use common::rng::Rng;
use common::writing::LONGEST_BODY;
use sheet_check::frames::{self, Frame, listed};

use crate::program::Feed;
use crate::trial::{Failure, Trial};

const FRAMES: usize = 1_000;

/// What the start and the end may take.
const BESIDE: usize = 20;

/// How much of another tag is read at once, at least.
const AT_ONCE: usize = 32_768;

const COUNTED: [&str; 6] = ["read", "write", "readv", "writev", "pread64", "pwrite64"];

/// A head, a body and a line for each frame.
pub fn of_sheet(trial: &mut Trial, seed: u64) -> Result<String, Failure> {
    let input = frames::bytes(&random_frames(seed));
    let what = format!("{FRAMES} frames");
    counted(trial, &what, &input, 3 * FRAMES)
}

/// A head, a body with its back-pointer and a line for each frame; for another tag that is long its
/// head, its back-pointer, and its body in large parts.
pub fn of_flv_sheet(trial: &mut Trial, seed: u64) -> Result<String, Failure> {
    let mut frames = random_frames(seed);
    // No tag has type 3.
    frames.retain(|frame| frame.frame_type < 3);
    let what = format!("{} frames", frames.len());
    let file = frames::recording(&frames);
    let remark = counted(trial, &what, &file, 3 * frames.len())?;
    let file = [&START[..], &tag(0, 0, &vec![0x17; LONGEST_BODY])].concat();
    let what = "another tag of 16,777,215 bytes";
    let other = counted(trial, what, &file, 2 + LONGEST_BODY / AT_ONCE + 1)?;
    Ok(format!("{remark}; {other}"))
}

/// Traces a run, which may read and write so often beside its start and its end.
fn counted(trial: &mut Trial, what: &str, input: &[u8], most: usize) -> Result<String, Failure> {
    let log = trial.program.folder.join("strace");
    if let Some(reason) = cannot_trace(&log, &[]) {
        return Ok(format!("nothing was counted: {reason}"));
    }
    // A program that strace runs goes on where strace is ended: only one that ends is traced.
    trial.compare("a run to be traced", input, Feed::File)?;
    let command = strace(&log, &[], &trial.program.path);
    trial.compare_as(command, "a traced run", input, Feed::File)?;
    let log = fs::read_to_string(&log).map_err(files::named(&log))?;
    let names = || log.lines().filter_map(|line| Some(line.split_once('(')?.0));
    let counted = names().filter(|name| COUNTED.contains(name)).count();
    let all = names().count();
    let remark = format!("{counted} reads and writes for {what}, of {all} system calls in all");
    if counted > most + BESIDE {
        return Err(format!("more than {most} and {BESIDE}: {remark}").into());
    }
    Ok(remark)
}

/// A command that runs a program under strace, with these options of it.
pub fn strace(log: &Path, options: &[&str], program: &Path) -> Command {
    let mut command = Command::new("strace");
    command.arg("-o").arg(log).args(options).arg(program);
    command
}

/// Why strace cannot be run with these options.
pub fn cannot_trace(log: &Path, options: &[&str]) -> Option<String> {
    match strace(log, options, Path::new("true")).output() {
        Err(error) => Some(format!("strace: {error}")),
        Ok(ran) if !ran.status.success() => Some(format!("strace: {}", ran.status)),
        Ok(_) => None,
    }
}

/// Frames with bodies.
fn random_frames(seed: u64) -> Vec<Frame> {
    let (mut rng, listed) = (Rng::new(seed), listed());
    let frames = iter::repeat_with(|| frames::random(&mut rng, &listed));
    let frames = frames.filter(|frame| !frame.payload.is_empty());
    frames.take(FRAMES).collect()
}
