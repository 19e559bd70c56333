//! How far a long run is.

use std::io::{self, IsTerminal};
use std::time::{Duration, Instant};

/// One line on standard error, renewed once a second. Where that is no terminal, there is none.
pub struct Progress {
    name: &'static str,
    /// What is counted.
    unit: String,
    count: u64,
    /// When the line is renewed.
    next: Option<Instant>,
    shown: bool,
}

impl Progress {
    const PAUSE: Duration = Duration::from_secs(1);

    pub fn new(name: &'static str, unit: impl Into<String>) -> Self {
        Self::on(io::stderr().is_terminal(), name, unit)
    }

    fn on(terminal: bool, name: &'static str, unit: impl Into<String>) -> Self {
        Self {
            name,
            unit: unit.into(),
            count: 0,
            next: terminal.then(|| Instant::now() + Self::PAUSE),
            shown: false,
        }
    }

    /// One more is done.
    pub fn step(&mut self) {
        self.count += 1;
        if self.count.is_multiple_of(1024) {
            self.reach(self.count);
        }
    }

    /// So many are done.
    pub fn reach(&mut self, count: u64) {
        self.count = count;
        if let Some(line) = self.line(Instant::now()) {
            eprint!("\r{line}");
            self.shown = true;
        }
    }

    /// The line, if it has to be renewed.
    fn line(&mut self, now: Instant) -> Option<String> {
        self.next.filter(|next| now >= *next)?;
        self.next = Some(now + Self::PAUSE);
        Some(format!("{}: {} {}", self.name, self.count, self.unit))
    }

    /// Ends the line, so that something else can be printed.
    pub fn pause(&mut self) {
        if self.shown {
            eprintln!();
            self.shown = false;
        }
    }
}

impl Drop for Progress {
    fn drop(&mut self) {
        self.pause();
    }
}

#[cfg(test)]
mod tests {
    use super::*;

    #[test]
    fn a_terminal_gets_a_line_a_second() {
        let mut progress = Progress::on(true, "making", "frames");
        progress.count = 7;
        let later = |pauses| Instant::now() + pauses * Progress::PAUSE;
        assert_eq!(progress.line(Instant::now()), None);
        assert_eq!(progress.line(later(2)).as_deref(), Some("making: 7 frames"));
        assert_eq!(progress.line(later(2)), None);
        assert!(progress.line(later(4)).is_some());
    }

    #[test]
    fn it_asks_whether_there_is_a_terminal() {
        let progress = Progress::new("making", "frames");
        assert_eq!(progress.next.is_some(), io::stderr().is_terminal());
    }

    #[test]
    fn anything_else_gets_none() {
        let mut progress = Progress::on(false, "making", "frames");
        assert_eq!(progress.line(Instant::now() + 9 * Progress::PAUSE), None);
    }
}
