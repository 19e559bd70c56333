//! Whether the frames of others change a viewer's answers: the port beside itself on two histories.

use super::line::{Event, Line};
use super::{Answer, Call, Columns, History, class};
use crate::input::{Input, parts};
use crate::run::{Difference, same};

/// In which of two histories an event is.
#[derive(Clone, Copy, Debug, PartialEq)]
pub enum In {
    Both,
    First,
    Second,
}

/// Two histories that differ in nothing but the frames of others, seen from one viewer. Columns are
/// fresh.
#[derive(Clone)]
pub struct Apart {
    pub line: Line,
    /// How many entries stand behind those of the viewers in each history.
    pub behind: [usize; 2],
    pub watched: usize,
    /// Ticks, and what is offered to the watched viewer, are in both.
    pub events: Vec<(In, Event)>,
}

impl Apart {
    fn is_apart(&self) -> bool {
        let is_fit =
            |(side, event): &(In, Event)| *side == In::Both || event.is_of_others(self.watched);
        self.events.iter().all(is_fit)
    }

    fn histories(&self) -> [History; 2] {
        [(In::First, 0), (In::Second, 1)].map(|(side, number)| {
            let events = self.events.iter();
            let events = events.filter(|(of, _)| *of == In::Both || *of == side);
            History {
                start: Columns::fresh(self.line.viewers, self.behind[number]),
                calls: events.map(|(_, event)| event.on(self.line)).collect(),
            }
        })
    }

    /// What is answered to the offers of the watched viewer.
    fn answers(&self, history: &History) -> Vec<Answer> {
        let answers = history.calls.iter().zip(history.of_port());
        let own = answers.filter(|(call, _)| match call {
            Call::Tick { .. } => false,
            Call::Offer(offer) => offer.viewer == self.watched,
        });
        own.map(|(_, answer)| answer).collect()
    }

    /// What the viewer is answered in the first history it must be answered in the second.
    pub fn compare(&self) -> Result<&'static str, Difference> {
        assert!(self.is_apart(), "{}", self.show());
        let histories = self.histories();
        let [first, second] = histories.each_ref().map(|history| self.answers(history));
        let answers = same(first, second)?;
        for history in &histories {
            history.same_as_asked()?;
        }
        Ok(class::of_apart(self, &answers))
    }
}

impl Input for Apart {
    fn smaller(&self) -> impl Iterator<Item = Self> {
        let fewer = parts(self.events.len()).map(|part| {
            let mut fewer = self.clone();
            fewer.events.drain(part);
            fewer
        });
        let lines = self.line.smaller().map(|line| Self {
            line,
            ..self.clone()
        });
        let behind = (0..2).filter_map(|side| {
            let mut fewer = self.clone();
            fewer.behind[side] = self.behind[side].checked_sub(1)?;
            Some(fewer)
        });
        let events = self.events.iter().enumerate();
        let events = events.flat_map(move |(at, (_, event))| {
            event.smaller().map(move |event| {
                let mut smaller = self.clone();
                smaller.events[at].1 = event;
                smaller
            })
        });
        let smaller = fewer.chain(lines).chain(behind).chain(events);
        smaller.filter(Self::is_apart)
    }

    fn show(&self) -> String {
        let events = self.events.iter().map(|(side, event)| {
            let side = match side {
                In::Both => "in both",
                In::First => "in the first",
                In::Second => "in the second",
            };
            format!("\n    {side}: {}", event.show())
        });
        format!(
            "two histories, {}, fresh columns, {} and {} entries behind, seen from viewer {}{}",
            self.line.show(),
            self.behind[0],
            self.behind[1],
            self.watched,
            events.collect::<String>()
        )
    }
}
