//! The program `flv_sheet` on a long recording, beside programs that only read it.

use std::fs::{self, File};
use std::io::{self, BufWriter, Write};
use std::path::Path;
use std::process::{Command, Stdio};
use std::thread;
use std::time::{Duration, Instant};

use common::flv::START;
use common::{files, memory};

use crate::page::{Page, grouped, ratio};
use crate::recording::{tags, typical};

/// Each program runs so often, in turn; the median counts.
const ROUNDS: usize = 3;

/// How often a program is asked for its memory.
const PAUSE: Duration = Duration::from_millis(5);

/// What a run took.
struct Taken {
    seconds: f64,
    /// The most memory that was seen, in KiB.
    memory: Option<u64>,
}

/// Makes a recording of about so many bytes in the folder, and prints what each program takes for
/// it. The recording is removed.
pub fn run(page: Page, program: &Path, folder: &Path, bytes: usize) -> io::Result<()> {
    let path = folder.join("recording.flv");
    let (bytes, frames) = record(&path, bytes)?;
    let measured = measure(program, &path);
    fs::remove_file(&path).map_err(files::named(&path))?;
    let row = |(name, taken): (&str, Taken)| {
        vec![
            name.into(),
            ratio(taken.seconds),
            grouped((bytes as f64 / taken.seconds / 1e6).round() as usize),
            taken.memory.map_or("?".into(), |kib| grouped(kib as usize)),
        ]
    };
    let rows: Vec<Vec<String>> = measured?.into_iter().map(row).collect();
    let (bytes, frames) = (grouped(bytes), grouped(frames));
    page.section(&format!("A recording of {bytes} bytes, {frames} frames"));
    page.table(&["program", "seconds", "MB a second", "memory, KiB"], &rows);
    Ok(())
}

/// Writes the same ten seconds again and again, up to so many bytes; gives how many bytes and
/// frames there are.
fn record(path: &Path, bytes: usize) -> io::Result<(usize, usize)> {
    let listed = typical(10);
    let part = tags(&listed);
    let parts = bytes.div_ceil(part.len());
    let mut file = BufWriter::new(files::create(path)?);
    file.write_all(START)?;
    for _ in 0..parts {
        file.write_all(&part)?;
    }
    file.flush()?;
    Ok((START.len() + parts * part.len(), parts * listed.len()))
}

fn measure(program: &Path, path: &Path) -> io::Result<Vec<(&'static str, Taken)>> {
    let commands = [
        ("flv_sheet", Command::new(program)),
        ("cat", Command::new("cat")),
        ("dd bs=32768", {
            let mut dd = Command::new("dd");
            dd.args(["bs=32768", "status=none"]);
            dd
        }),
    ];
    let mut runs = commands.map(|(name, command)| (name, command, vec![]));
    for _ in 0..ROUNDS {
        for (_, command, taken) in &mut runs {
            taken.push(run_once(command, path)?);
        }
    }
    let median = |mut taken: Vec<Taken>| {
        taken.sort_by(|one, other| one.seconds.total_cmp(&other.seconds));
        Taken {
            seconds: taken[ROUNDS / 2].seconds,
            memory: taken.iter().filter_map(|taken| taken.memory).max(),
        }
    };
    Ok(runs
        .into_iter()
        .map(|(name, _, taken)| (name, median(taken)))
        .collect())
}

/// From the recording to nowhere.
fn run_once(command: &mut Command, path: &Path) -> io::Result<Taken> {
    command.stdin(File::open(path)?).stdout(Stdio::null());
    let start = Instant::now();
    let mut child = command.spawn()?;
    let mut most = None;
    while child.try_wait()?.is_none() {
        most = most.max(memory::most_of(child.id()));
        thread::sleep(PAUSE);
    }
    Ok(Taken {
        seconds: start.elapsed().as_secs_f64(),
        memory: most,
    })
}
