//! What the example programs share that print a line for each frame of an FLV file.

use std::error::Error;
use std::ffi::OsString;
use std::io::{self, Write};
use std::process::ExitCode;
use std::{env, fs};

use hozgrim::{FlvFrame, FlvReader, FrameType, Refusal, flv_start, write_flv_frame};

/// A program that takes a file, or a sample that it writes first.
pub struct Listing {
    pub name: &'static str,
    pub usage: &'static str,
    /// Type, time and payload of each frame.
    pub sample: &'static [(FrameType, u32, &'static [u8])],
    /// What is printed of a frame.
    pub line: fn(FlvFrame) -> Result<String, Refusal>,
}

impl Listing {
    /// The program, with the words behind its name.
    pub fn main(&self) -> ExitCode {
        let words: Vec<OsString> = env::args_os().skip(1).collect();
        match self.run(&words, &mut io::stdout().lock()) {
            Ok(()) => ExitCode::SUCCESS,
            Err(error) => {
                eprintln!("{}: {error}", self.name);
                ExitCode::FAILURE
            }
        }
    }

    /// Prints what these words ask for, up to what goes wrong.
    pub fn run(&self, words: &[OsString], output: &mut impl Write) -> Result<(), Box<dyn Error>> {
        match words {
            [word] if word == "--help" => Ok(output.write_all(self.usage.as_bytes())?),
            [] => self.list(&self.sample()?, output),
            [path] => self.list(&fs::read(path)?, output),
            _ => Err("it takes one file".into()),
        }
    }

    fn sample(&self) -> Result<Vec<u8>, Refusal> {
        let mut file = flv_start().to_vec();
        for &(frame_type, timestamp, payload) in self.sample {
            let frame = FlvFrame {
                frame_type,
                timestamp,
                payload,
            };
            write_flv_frame(frame, &mut file)?;
        }
        Ok(file)
    }

    fn list(&self, file: &[u8], output: &mut impl Write) -> Result<(), Box<dyn Error>> {
        for frame in FlvReader::new(file)? {
            writeln!(output, "{}", (self.line)(frame?)?)?;
        }
        Ok(())
    }
}
