//! Whether the bytes of a viewer's shares are all accounted for, by what the port answers.

use super::alone::SENT;
use super::line::{Event, Line};
use super::{Answer, Call, Columns, History, class};
use crate::input::{Input, parts, with_one_smaller};
use crate::run::{Difference, same};

/// A history from fresh columns with viewers and U in range, of which the bytes are counted.
#[derive(Clone)]
pub struct Counted {
    pub line: Line,
    pub behind: usize,
    pub events: Vec<Event>,
}

/// What the shares of a viewer became.
#[derive(Clone, Copy, Debug, Default, PartialEq)]
pub struct Account {
    pub ticks: i128,
    /// Of frames that were answered sent.
    pub sent: i128,
    pub left: i128,
    pub cut_off: i128,
}

impl Counted {
    fn history(&self) -> History {
        let events = self.events.iter();
        History {
            start: Columns::fresh(self.line.viewers, self.behind),
            calls: events.map(|event| event.on(self.line)).collect(),
        }
    }

    fn share(&self) -> i128 {
        i128::from(self.line.uplink) / self.line.viewers as i128
    }

    /// Of every viewer, from what the port answers and from the credits that it leaves.
    fn accounts(&self, history: &History) -> Vec<Account> {
        let viewers = self.line.viewers;
        let mut accounts = vec![Account::default(); viewers];
        let mut lent = history.lent();
        for call in &history.calls {
            let before = lent.columns().0[..viewers].to_vec();
            match (call, lent.call(call)) {
                (Call::Tick { .. }, _) => {
                    for (account, credit) in accounts.iter_mut().zip(before) {
                        account.ticks += 1;
                        account.cut_off += (i128::from(credit) - self.share()).max(0);
                    }
                }
                (Call::Offer(offer), Answer::Offer(answer)) if answer.decision == SENT => {
                    if let Some(account) = accounts.get_mut(offer.viewer) {
                        account.sent += offer.length as i128;
                    }
                }
                _ => {}
            }
        }
        for (account, credit) in accounts.iter_mut().zip(lent.columns().0) {
            account.left = (*credit).into();
        }
        accounts
    }

    /// A viewer's shares are what was sent, what is left and what was cut off.
    pub fn compare(&self) -> Result<&'static str, Difference> {
        let history = self.history();
        let accounts = self.accounts(&history);
        for (viewer, account) in accounts.iter().enumerate() {
            let shares = account.ticks * self.share();
            let sum = account.sent + account.left + account.cut_off;
            same((viewer, shares), (viewer, sum))?;
        }
        history.same_as_asked()?;
        Ok(class::of_counted(self, &accounts[0]))
    }
}

impl Input for Counted {
    fn smaller(&self) -> impl Iterator<Item = Self> {
        let fewer = parts(self.events.len()).map(|part| {
            let mut fewer = self.clone();
            fewer.events.drain(part);
            fewer
        });
        let lines = self.line.smaller().filter(|line| line.viewers > 0);
        let lines = lines.map(|line| Self {
            line,
            ..self.clone()
        });
        let events = with_one_smaller(&self.events).map(|events| Self {
            events,
            ..self.clone()
        });
        fewer.chain(lines).chain(events)
    }

    fn show(&self) -> String {
        let events = self.events.iter().zip(1..);
        let events =
            events.map(|(event, number)| format!("\n    event {number}: {}", event.show()));
        format!(
            "bytes counted, {}, fresh columns, {} entries behind{}",
            self.line.show(),
            self.behind,
            events.collect::<String>()
        )
    }
}
