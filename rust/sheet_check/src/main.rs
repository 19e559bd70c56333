//! Holds the programs `sheet` and `flv_sheet` against readings of docs/REQUIREMENTS.md, section 17
//! and request N3 of section 23. rust/run-sheet says how it is called.

mod checks;
mod difference;
mod program;
mod sample;
mod trial;

use std::env;
use std::io;
use std::path::Path;
use std::process::ExitCode;

use checks::CHECKS;
use common::{say, words};
use program::Programs;
use trial::Trial;

const SEED: u64 = 1;

fn main() -> ExitCode {
    let words: Vec<String> = env::args().skip(1).collect();
    let words: Vec<&str> = words.iter().map(String::as_str).collect();
    let passed = match words[..] {
        ["sample", folder] => Ok(write_sample(sample::write, folder)),
        ["flv_sample", folder] => Ok(write_sample(sample::write_flv, folder)),
        ["check", programs, folder, ref words @ ..] => check(programs, folder, words),
        _ => Err("it is run by rust/run-sheet".into()),
    };
    words::end("sheet_check", passed)
}

fn write_sample(write: fn(&Path) -> io::Result<()>, folder: &str) -> bool {
    let written = write(Path::new(folder));
    if let Err(error) = &written {
        eprintln!("sheet_check: {error}");
    }
    written.is_ok()
}

/// Makes the checks that are named, prints a table of them, and is true if all passed. An error is
/// about the words.
fn check(programs: &str, folder: &str, words: &[&str]) -> Result<bool, String> {
    let mut seed = SEED;
    let checks = words::chosen(words, CHECKS, &mut [("--seed", &mut seed)])?;
    let programs = Programs::new(Path::new(programs), Path::new(folder));
    for program in [&programs.sheet, &programs.flv_sheet] {
        if !program.path.is_file() {
            let (name, path) = (program.name, program.path.display());
            eprintln!(
                "sheet_check: there is no program \"{path}\"; `rt run` in crates/{name} builds it"
            );
            return Ok(false);
        }
    }
    say!("seed {seed}");
    let mut table = String::from("        runs       lines  check");
    let (mut runs, mut lines, mut failed) = (0, 0, 0);
    for (name, check) in checks {
        let mut trial = Trial::new(name, &programs, (check.of)(&programs));
        let remark = (check.run)(&mut trial, seed).unwrap_or_else(|failure| {
            trial.pause();
            say!("{name}, after {} runs: {failure}", trial.runs);
            failed += 1;
            "FAILED".into()
        });
        let row = format!("{:>12}{:>12}  {name:<14}{remark}", trial.runs, trial.lines);
        table += "\n";
        table += row.trim_end();
        (runs, lines) = (runs + trial.runs, lines + trial.lines);
    }
    say!("{table}");
    say!("sheet and flv_sheet: {runs} runs, {lines} lines, {failed} checks failed");
    Ok(failed == 0)
}

#[cfg(test)]
mod tests {
    use common::words::in_usage;

    use super::*;

    const SCRIPT: &str = include_str!("../../run-sheet");

    #[test]
    fn the_usage_lists_the_checks() {
        let names: Vec<&str> = CHECKS.iter().map(|(name, _)| *name).collect();
        assert_eq!(in_usage(SCRIPT, "Checks"), names);
    }

    #[test]
    fn the_usage_has_the_default() {
        assert!(SCRIPT.contains(&format!("are drawn with (default {SEED})\n")));
    }
}
