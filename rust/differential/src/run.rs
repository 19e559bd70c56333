//! What a comparison is, and how one is run: inputs are counted by class, the first difference is
//! made small, and a report is printed.

use std::fmt::Debug;

use common::progress::Progress;
use common::rng::Rng;
use common::say;

use crate::input::Input;

/// Functions of the port beside those of the Rust files, on the same inputs.
pub trait Comparison {
    const NAME: &'static str;

    /// The classes of inputs. A run must reach each of them.
    const CLASSES: &'static [&'static str];

    /// Whose the two answers are.
    const SIDES: [&'static str; 2] = ["Rust", "port"];

    type Input: Input;

    /// The inputs that every run takes.
    fn listed() -> impl Iterator<Item = Self::Input>;

    /// An input of a seeded run.
    fn random(rng: &mut Rng) -> Self::Input;

    /// The input's class, if the two sides answer alike.
    fn compare(input: &Self::Input) -> Result<&'static str, Difference>;
}

/// Two answers to one input that are not the same.
pub struct Difference([String; 2]);

/// The class of an input that must be accepted, or refused.
pub type Class = Result<&'static str, &'static str>;

/// The class of an input that was accepted, or refused, as it must be.
pub fn fitting(class: Class, accepted: bool) -> &'static str {
    let name = name_of(class);
    assert_eq!(class.is_ok(), accepted, "no input of \"{name}\"");
    name
}

pub fn name_of(class: Class) -> &'static str {
    class.unwrap_or_else(|refused| refused)
}

/// The answer that both sides give.
pub fn same<A: Debug + PartialEq>(first: A, second: A) -> Result<A, Difference> {
    if first == second {
        return Ok(first);
    }
    Err(Difference(
        [first, second].map(|answer| format!("{answer:?}")),
    ))
}

/// Runs a comparison on its listed inputs and on `count` random ones, and prints a report. True if
/// the two sides answered alike and every class was reached.
pub fn run<C: Comparison>(seed: u64, count: u64) -> bool {
    let mut tally = Tally::new(C::CLASSES);
    if let Some((input, difference)) = first_difference::<C>(seed, count, &mut tally) {
        let (input, difference) = smallest::<C>(input, difference);
        say!("{}: a difference after {} inputs", C::NAME, tally.total());
        say!("  smallest input found: {}", input.show());
        for (side, answer) in C::SIDES.iter().zip(difference.0) {
            say!("  {side}: {answer}");
        }
        return false;
    }
    tally.print();
    say!("{}: {} inputs, 0 differences", C::NAME, tally.total());
    for class in tally.empty_classes() {
        say!("{}: no input of the class \"{class}\"", C::NAME);
    }
    tally.empty_classes().next().is_none()
}

/// Compares until the two sides differ.
fn first_difference<C: Comparison>(
    seed: u64,
    count: u64,
    tally: &mut Tally,
) -> Option<(C::Input, Difference)> {
    let mut rng = Rng::new(seed);
    let random = (0..count).map(|_| C::random(&mut rng));
    let mut progress = Progress::new(C::NAME, "inputs");
    for input in C::listed().chain(random) {
        match C::compare(&input) {
            Ok(class) => tally.count(class),
            Err(difference) => return Some((input, difference)),
        }
        progress.step();
    }
    None
}

/// Goes to a smaller input that still shows a difference, for as long as there is one.
fn smallest<C: Comparison>(
    mut input: C::Input,
    mut difference: Difference,
) -> (C::Input, Difference) {
    loop {
        let differing = |smaller| Some((C::compare(&smaller).err()?, smaller));
        let Some((found, smaller)) = input.smaller().find_map(differing) else {
            break;
        };
        (input, difference) = (smaller, found);
    }
    (input, difference)
}

/// How many inputs each class had.
pub struct Tally(Vec<(&'static str, u64)>);

impl Tally {
    pub fn new(classes: &[&'static str]) -> Self {
        Self(classes.iter().map(|&class| (class, 0)).collect())
    }

    pub fn count(&mut self, class: &'static str) {
        let row = self.0.iter_mut().find(|(name, _)| *name == class);
        row.expect("a comparison lists its classes").1 += 1;
    }

    fn total(&self) -> u64 {
        self.0.iter().map(|(_, inputs)| inputs).sum()
    }

    pub fn empty_classes(&self) -> impl Iterator<Item = &'static str> {
        self.0
            .iter()
            .filter(|(_, inputs)| *inputs == 0)
            .map(|(class, _)| *class)
    }

    pub fn print(&self) {
        for (class, inputs) in &self.0 {
            say!("{inputs:>12}  {class}");
        }
    }
}
