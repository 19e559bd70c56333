//! Runs the port and the Rust files beside each other on the same inputs. rust/run-differential
//! says how it is called.

mod aac;
mod cases;
mod classify;
mod columns;
mod containers;
mod descriptor;
mod exaudio;
mod expansion;
mod exvideo;
mod flv_read;
mod flv_write;
mod fourcc;
mod headers;
mod hints;
mod input;
mod leaf;
mod level;
mod modex;
mod modex_layer;
mod modex_prefix;
mod numbers;
mod pass;
mod pass_in_place;
mod reaches;
mod records;
mod run;
mod sealed;
mod split_time;
mod starts;
mod store;
mod times;
mod uplink;
mod write_container;
mod write_modex;
mod writing;

use std::env;
use std::io;
use std::path::Path;
use std::process::ExitCode;

use aac::Aac;
use classify::Classify;
use columns::Columns;
use common::{say, words};
use containers::Containers;
use descriptor::Descriptor;
use exaudio::Exaudio;
use expansion::Expansion;
use exvideo::Exvideo;
use flv_read::FlvRead;
use flv_write::FlvWrite;
use fourcc::Fourcc;
use hints::Hints;
use level::Level;
use modex::Modex;
use modex_layer::ModexLayer;
use modex_prefix::ModexPrefix;
use numbers::Numbers;
use pass::Pass;
use pass_in_place::PassInPlace;
use records::Records;
use run::{Comparison, run};
use sealed::Sealed;
use split_time::SplitTime;
use starts::Starts;
use store::Store;
use times::Times;
use uplink::Uplink;
use write_container::WriteContainer;
use write_modex::WriteModex;

/// Runs one comparison with a seed and a number of random inputs; true if it passed.
type Run = fn(u64, u64) -> bool;

const COMPARISONS: &[(&str, Run)] = &[
    (Fourcc::NAME, run::<Fourcc>),
    (Modex::NAME, run::<Modex>),
    (ModexLayer::NAME, run::<ModexLayer>),
    (ModexPrefix::NAME, run::<ModexPrefix>),
    (Exvideo::NAME, run::<Exvideo>),
    (Times::NAME, run::<Times>),
    (Exaudio::NAME, run::<Exaudio>),
    (Records::NAME, run::<Records>),
    (Aac::NAME, run::<Aac>),
    (Starts::NAME, run::<Starts>),
    (Descriptor::NAME, run::<Descriptor>),
    (Numbers::NAME, run::<Numbers>),
    (Containers::NAME, run::<Containers>),
    (Classify::NAME, run::<Classify>),
    (Hints::NAME, run::<Hints>),
    (Pass::NAME, run::<Pass>),
    (PassInPlace::NAME, run::<PassInPlace>),
    (Store::NAME, run::<Store>),
    (Columns::NAME, run::<Columns>),
    (Uplink::NAME, run::<Uplink>),
    (Sealed::NAME, run::<Sealed>),
    (WriteContainer::NAME, run::<WriteContainer>),
    (WriteModex::NAME, run::<WriteModex>),
    (FlvRead::NAME, run::<FlvRead>),
    (FlvWrite::NAME, run::<FlvWrite>),
    (Expansion::NAME, run::<Expansion>),
    (Level::NAME, run::<Level>),
    (SplitTime::NAME, run::<SplitTime>),
];

const SEED: u64 = 1;
const COUNT: u64 = 1_000_000;

fn main() -> ExitCode {
    let words: Vec<String> = env::args().skip(1).collect();
    let words: Vec<&str> = words.iter().map(String::as_str).collect();
    let passed = match words[..] {
        ["reaches"] => Ok(reach()),
        ["cases", folder] => Ok(written(cases::write(Path::new(folder)))),
        ["uplink_cases", folder] => Ok(written(cases::uplinks::write(Path::new(folder)))),
        _ => compare(&words),
    };
    words::end("differential", passed)
}

fn reach() -> bool {
    reaches::call_each();
    say!("every function in scope was called; none reaches a stand-in");
    true
}

/// Whether stored cases could be written.
fn written(cases: io::Result<()>) -> bool {
    if let Err(error) = &cases {
        eprintln!("differential: {error}");
    }
    cases.is_ok()
}

/// Makes the comparisons that are named. An error is about the words.
fn compare(words: &[&str]) -> Result<bool, String> {
    let (mut seed, mut count) = (SEED, COUNT);
    let mut options = [("--seed", &mut seed), ("--count", &mut count)];
    let runs = words::chosen(words, COMPARISONS, &mut options)?;
    say!("seed {seed}");
    let passed = runs.into_iter().map(|(_, run)| run(seed, count));
    Ok(passed.fold(true, |all, passed| all & passed))
}

#[cfg(test)]
mod tests {
    use common::words::in_usage;

    use super::*;

    const SCRIPT: &str = include_str!("../../run-differential");

    #[test]
    fn the_usage_lists_the_comparisons() {
        let names: Vec<&str> = COMPARISONS.iter().map(|(name, _)| *name).collect();
        assert_eq!(in_usage(SCRIPT, "Comparisons"), names);
    }

    #[test]
    fn the_usage_has_the_defaults() {
        assert!(SCRIPT.contains(&format!("are drawn with (default {SEED})\n")));
        assert!(SCRIPT.contains(&format!("a comparison has (default {COUNT});")));
    }
}
