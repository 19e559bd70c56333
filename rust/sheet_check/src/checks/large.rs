//! As many frames as the sheet takes, and what it must not take behind them.

use std::collections::BTreeMap;

use common::progress::Progress;
use common::rng::Rng;
use common::say;
use sheet_check::frames::{self, REFUSED_OFFSETS, head, listed};
use sheet_check::reading::{self, Frame, LAST};

use crate::program::Feed;
use crate::trial::{Failure, Trial};

/// What the sheet tells apart: type, header error, whether there are tracks, kind and hint.
type Shown = (u8, i32, bool, u8, u8);

/// Of payloads that are peeled, and of others.
const SHOWN: [Shown; 19] = [
    (0, -1, false, 0, 2),
    (0, 0, false, 0, 0),
    (0, 0, false, 0, 2),
    (0, 0, false, 2, 0),
    (0, 0, true, 0, 0),
    (0, 0, true, 0, 2),
    (0, 0, true, 2, 0),
    (1, -1, false, 0, 0),
    (1, -1, false, 0, 2),
    (1, 0, false, 0, 0),
    (1, 0, false, 0, 2),
    (1, 0, false, 1, 0),
    (1, 0, false, 3, 1),
    (1, 0, true, 0, 0),
    (1, 0, true, 0, 2),
    (1, 0, true, 1, 0),
    (1, 0, true, 3, 1),
    (2, 0, false, 0, 0),
    (3, 0, false, 0, 0),
];

/// Empty audio and refused sound formats: no payload peels to these.
const SHOWN_UNPEELED: [Shown; 2] = [(0, -1, false, 0, 0), (0, -7, false, 0, 2)];

/// How many frames there are of each class: what is shown, and whether the payload was peeled.
type Tally = BTreeMap<(Shown, bool), u64>;

pub fn check(trial: &mut Trial, seed: u64) -> Result<String, Failure> {
    let input = input(seed);
    print(&tally(&input));
    let more = [frames::bytes(&listed()), head(9, 0).to_vec()].concat();
    let larger = [&input[..], &more].concat();
    let time = trial.compare("frames behind the last one", &larger, Feed::File)?;
    let refused = frames::Frame::new(0, REFUSED_OFFSETS[0]).bytes();
    for behind in [&head(9, 0)[..], &head(0, 0)[..2], &refused] {
        let larger = [&input[..], behind].concat();
        trial.compare("a refused frame behind the last one", &larger, Feed::File)?;
    }
    trial.compare("no end behind the last one", &input, Feed::HeldOpen)?;
    let (seconds, bytes) = (time.as_secs_f64(), larger.len());
    Ok(format!(
        "{LAST} lines in {seconds:.2} seconds, from {bytes} bytes"
    ))
}

/// As many random frames as the sheet takes.
fn input(seed: u64) -> Vec<u8> {
    let (mut rng, listed) = (Rng::new(seed), listed());
    let mut progress = Progress::new("making the large input", "frames");
    let mut input = vec![];
    for _ in 0..LAST {
        input.extend(frames::random(&mut rng, &listed).bytes());
        progress.step();
    }
    input
}

/// No class is empty, and there is no other; no frame is refused.
fn tally(input: &[u8]) -> Tally {
    let peeled = SHOWN.map(|shown| (shown, true));
    let unpeeled = SHOWN.into_iter().chain(SHOWN_UNPEELED);
    let classes = unpeeled.map(|shown| (shown, false)).chain(peeled);
    let mut tally: Tally = classes.map(|class| (class, 0)).collect();
    for frame in reading::frames(input).flatten() {
        let count = tally.get_mut(&class(&frame));
        *count.expect("the classes are listed") += 1;
    }
    for (class, count) in &tally {
        assert!(*count > 0, "no frame of the class {class:?}");
    }
    assert_eq!(tally.values().sum::<u64>(), LAST as u64);
    tally
}

fn class(frame: &Frame) -> (Shown, bool) {
    let seen = frame.seen();
    let shown = (
        frame.frame_type as u8,
        seen.error,
        seen.tracks > 0,
        seen.kind,
        seen.hint,
    );
    (shown, seen.peeled)
}

fn print(tally: &Tally) {
    say!("      frames  type  error  tracks  kind  hint");
    for (((frame_type, error, tracks, kind, hint), peeled), count) in tally {
        let tracks = if *tracks { "some" } else { "none" };
        let peeled = if *peeled { "  peeled" } else { "" };
        let shown = format!("{frame_type:>6}{error:>7}{tracks:>8}{kind:>6}{hint:>6}");
        say!("{count:>12}{shown}{peeled}");
    }
}
