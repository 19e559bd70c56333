//! The sheet of a written file is that which `sheet` prints of the same frames.

use std::iter;
use std::process::Command;

use common::rng::Rng;
use sheet_check::frames::{self, Frame, listed};
use sheet_check::reading::LONGEST;

use crate::difference;
use crate::program::Feed;
use crate::trial::{Failure, Trial};

const FRAMES: usize = 20_000;

pub fn check(trial: &mut Trial, seed: u64) -> Result<String, Failure> {
    let (mut rng, listed) = (Rng::new(seed), listed());
    let random = iter::repeat_with(|| frames::random(&mut rng, &listed)).take(FRAMES);
    let longest = Frame::new(1, &[0x17; LONGEST]);
    let frames = listed.iter().cloned().chain([longest]).chain(random);
    // No tag has type 3.
    let frames: Vec<Frame> = frames.filter(|frame| frame.frame_type < 3).collect();
    let [of_frames, of_file] = [
        (&trial.programs.sheet, frames::bytes(&frames)),
        (&trial.programs.flv_sheet, frames::recording(&frames)),
    ]
    .map(|(program, input)| {
        let ran = trial.run_as(Command::new(&program.path), &input, Feed::File)?;
        trial.passed(&ran.output);
        Ok::<_, Failure>((input, ran.output))
    });
    let ((_, of_frames), (file, of_file)) = (of_frames?, of_file?);
    match difference::first_line(&of_frames, &of_file) {
        None if difference::lines(&of_file).count() == frames.len() => Ok(String::new()),
        line => {
            let line = line.unwrap_or_else(|| difference::last_line(&of_file));
            let place = (trial.program.place_of_line)(&file, line);
            let shown = difference::show(&file, place, &of_frames, &of_file, line);
            Err(format!("sheet and flv_sheet on the same frames\n{shown}").into())
        }
    }
}
