//! Runs a program.

use std::fs::{self, File};
use std::io::{self, Write};
use std::path::{Path, PathBuf};
use std::process::{Child, ChildStdin, Command, ExitStatus, Stdio};
use std::thread;
use std::time::{Duration, Instant};

use common::{files, memory};
use sheet_check::reading::{self, HEAD, LINE};
use sheet_check::recording;

/// How the program gets its input.
#[derive(Clone, Copy)]
pub enum Feed {
    /// From a file.
    File,
    /// Through a pipe, as many bytes at a time.
    Pieces(usize),
    /// Through a pipe that stays open behind the last byte: the program has to end by itself.
    HeldOpen,
}

/// A program that prints a sheet, and a folder for what it reads and prints.
pub struct Program {
    /// What its messages begin with.
    pub name: &'static str,
    /// What it says if it is given arguments.
    pub takes_none: &'static str,
    /// What it must print for an input.
    pub sheet: fn(&[u8]) -> Vec<u8>,
    /// Where in an input the frame of a line stands.
    pub place_of_line: fn(&[u8], usize) -> usize,
    pub path: PathBuf,
    pub folder: PathBuf,
}

/// The programs that are checked.
pub struct Programs {
    /// `sheet`, over frames.
    pub sheet: Program,
    /// `flv_sheet`, over an FLV file.
    pub flv_sheet: Program,
}

impl Programs {
    /// Those that are in a folder, with another one for what they read and print.
    pub fn new(programs: &Path, folder: &Path) -> Self {
        Self {
            sheet: Program {
                name: "sheet",
                takes_none: "sheet: takes no argument; frames come on standard input, the sheet \
                             goes to standard output\nusage: sheet < FRAMES > SHEET\n",
                sheet: reading::sheet,
                place_of_line: reading::place_of_line,
                path: programs.join("sheet"),
                folder: folder.into(),
            },
            flv_sheet: Program {
                name: "flv_sheet",
                takes_none: "flv_sheet: takes no argument; an FLV file comes on standard input, \
                             the sheet goes to standard output\n\
                             usage: flv_sheet < FILE > SHEET\n",
                sheet: recording::sheet,
                place_of_line: recording::place_of_line,
                path: programs.join("flv_sheet"),
                folder: folder.into(),
            },
        }
    }
}

/// What a run gave. Without a status the program was ended: it took too long, or printed too much.
pub struct Ran {
    pub output: Vec<u8>,
    /// What it wrote on standard error.
    pub errors: Vec<u8>,
    pub status: Option<ExitStatus>,
    pub time: Duration,
}

impl Program {
    /// How long a piece is left alone in the pipe.
    const PAUSE: Duration = Duration::from_micros(100);

    /// Runs the program by this command. Meanwhile `watch` is told how many bytes it has printed.
    pub fn run(
        &self,
        mut command: Command,
        input: &[u8],
        feed: Feed,
        watch: impl FnMut(u64),
    ) -> io::Result<Ran> {
        let [stdout, stderr] = ["stdout", "stderr"].map(|name| self.folder.join(name));
        let stdin = match feed {
            Feed::File => self.file(input)?.into(),
            Feed::Pieces(_) | Feed::HeldOpen => Stdio::piped(),
        };
        command.stdin(stdin);
        command.stdout(files::create(&stdout)?);
        command.stderr(files::create(&stderr)?);
        let start = Instant::now();
        let name = PathBuf::from(command.get_program());
        let mut child = command.spawn().map_err(files::named(&name))?;
        let pipe = child.stdin.take();
        let status = thread::scope(|scope| {
            let fed = pipe.map(|pipe| scope.spawn(move || feed.write(pipe, input)));
            let status = wait(&mut child, &stdout, Limits::new(input), watch);
            // Here a pipe that was held open is closed.
            drop(fed.map(|fed| fed.join()));
            status
        })?;
        Ok(Ran {
            time: start.elapsed(),
            output: files::read(&stdout)?,
            errors: files::read(&stderr)?,
            status,
        })
    }

    /// How much memory the program has held at most, in KiB, once it has printed so many bytes for
    /// an input whose pipe is still open; none, if the system does not say.
    pub fn memory_behind(&self, input: &[u8], printed: usize) -> io::Result<Option<u64>> {
        let stdout = self.folder.join("stdout");
        let mut command = Command::new(&self.path);
        command
            .stdin(Stdio::piped())
            .stdout(files::create(&stdout)?);
        let mut child = command.spawn().map_err(files::named(&self.path))?;
        let pipe = child.stdin.take();
        thread::scope(|scope| {
            let fed = pipe.map(|pipe| scope.spawn(move || Feed::HeldOpen.write(pipe, input)));
            let reached = wait_for(&stdout, printed as u64, &Limits::new(input));
            let memory = memory::most_of(child.id());
            child.kill()?;
            child.wait()?;
            drop(fed.map(|fed| fed.join()));
            reached?;
            Ok(memory)
        })
    }

    fn file(&self, input: &[u8]) -> io::Result<File> {
        let path = self.folder.join("stdin");
        files::write(&path, input)?;
        files::open(&path)
    }
}

impl Feed {
    /// Writes the input, and hands back the pipe if it stays open. The program may end before it
    /// has read everything, so that a write may fail.
    fn write(self, mut pipe: ChildStdin, input: &[u8]) -> Option<ChildStdin> {
        let Self::Pieces(size) = self else {
            return pipe.write_all(input).is_ok().then_some(pipe);
        };
        for piece in input.chunks(size) {
            pipe.write_all(piece).ok()?;
            thread::sleep(Program::PAUSE);
        }
        None
    }
}

/// What no run goes beyond.
struct Limits {
    time: Duration,
    printed: u64,
}

impl Limits {
    fn new(input: &[u8]) -> Self {
        let frames = input.len() / HEAD + 1;
        Self {
            time: Duration::from_secs(10 + input.len() as u64 / 100_000),
            printed: (frames * LINE) as u64,
        }
    }
}

/// Waits until so much is printed.
fn wait_for(stdout: &Path, printed: u64, limits: &Limits) -> io::Result<()> {
    let start = Instant::now();
    while fs::metadata(stdout).map_err(files::named(stdout))?.len() < printed {
        if start.elapsed() > limits.time {
            return Err(io::Error::other(
                "the lines of frames that were there whole did not come while the pipe was open",
            ));
        }
        thread::sleep(Duration::from_millis(1));
    }
    Ok(())
}

/// Waits for the end, and ends a program that goes beyond its limits.
fn wait(
    child: &mut Child,
    stdout: &Path,
    limits: Limits,
    mut watch: impl FnMut(u64),
) -> io::Result<Option<ExitStatus>> {
    let start = Instant::now();
    loop {
        if let Some(status) = child.try_wait()? {
            return Ok(Some(status));
        }
        let printed = fs::metadata(stdout).map_err(files::named(stdout))?.len();
        if start.elapsed() > limits.time || printed > limits.printed {
            child.kill()?;
            child.wait()?;
            return Ok(None);
        }
        watch(printed);
        thread::sleep(Duration::from_millis(1));
    }
}
