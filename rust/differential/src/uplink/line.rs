//! A line whose calls all have one number of viewers and one U, and what happens on it.

use hozgrim_sys::OfferCall;

use super::{Call, lower_size, smaller_offers};
use crate::input::{Input, lower};

/// The number of viewers and U, where all calls of a history have the same.
#[derive(Clone, Copy, Debug, PartialEq)]
pub struct Line {
    pub viewers: usize,
    pub uplink: u32,
}

/// What happens on such a line.
#[derive(Clone, Copy, Debug, PartialEq)]
pub enum Event {
    Tick,
    Offer {
        viewer: usize,
        hint: u32,
        length: usize,
    },
}

impl Event {
    pub fn on(self, line: Line) -> Call {
        let Line { viewers, uplink } = line;
        match self {
            Self::Tick => Call::Tick { viewers, uplink },
            Self::Offer {
                viewer,
                hint,
                length,
            } => Call::Offer(OfferCall {
                viewers,
                viewer,
                hint,
                length,
            }),
        }
    }

    /// Whether it is a frame that is offered to another viewer.
    pub fn is_of_others(self, watched: usize) -> bool {
        matches!(self, Self::Offer { viewer, .. } if viewer != watched)
    }
}

impl Input for Event {
    fn smaller(&self) -> impl Iterator<Item = Self> {
        let offer = match *self {
            Self::Tick => None,
            Self::Offer {
                viewer,
                hint,
                length,
            } => Some(OfferCall {
                viewer,
                hint,
                length,
                ..OfferCall::default()
            }),
        };
        let offers = offer.into_iter().flat_map(smaller_offers);
        offers.map(|offer| Self::Offer {
            viewer: offer.viewer,
            hint: offer.hint,
            length: offer.length,
        })
    }

    fn show(&self) -> String {
        match self {
            Self::Tick => "tick".into(),
            Self::Offer {
                viewer,
                hint,
                length,
            } => format!("offer, viewer {viewer}, hint {hint}, length {length}"),
        }
    }
}

impl Input for Line {
    fn smaller(&self) -> impl Iterator<Item = Self> {
        let Self { viewers, uplink } = *self;
        let fewer = lower_size(viewers).map(move |viewers| Self { viewers, uplink });
        let lower = lower(uplink.into()).map(move |uplink| Self {
            viewers,
            uplink: uplink as u32,
        });
        fewer.chain(lower)
    }

    fn show(&self) -> String {
        format!("{} viewers, U {}", self.viewers, self.uplink)
    }
}
