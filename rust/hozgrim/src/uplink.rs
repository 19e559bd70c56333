use core::fmt;

use hozgrim_sys::OfferCall;

use crate::excluded::excluded;
use crate::{DeliveryHint, Refusal};

/// One line, shared among up to 64 viewers, numbered from 0 on, so that none of them takes from
/// another.
///
/// Each viewer has a credit, which is 0 at first: how many bytes may still be sent to it. A
/// [`tick`](Self::tick) gives each its share of what the line carries, and each frame is
/// [offered](Self::offer) to each viewer by its delivery hint and length:
///
/// - [`Critical`](DeliveryHint::Critical) frames are sent whatever the credit is. A credit below 0
///   is a debt, which the ticks that follow pay back.
/// - Other frames are sent if they are no longer than the credit, and else dropped.
/// - After a drop the viewer waits: nothing [`Droppable`](DeliveryHint::Droppable) is sent until a
///   [`ResyncPoint`](DeliveryHint::ResyncPoint) was. Neither a tick nor a critical frame ends that.
///
/// What is sent is taken off the credit. What is dropped costs nothing.
///
/// ```
/// use hozgrim::{CAPS_EX_MODEX, Decision, DeliveryHint, FrameType, Refusal, Uplink, pass};
///
/// /// Sends a picture to those who have credit for it.
/// fn relay(
///     payload: &[u8],
///     uplink: &mut Uplink,
///     connections: &mut [Vec<u8>],
/// ) -> Result<(), Refusal> {
///     let mut output = vec![0; payload.len()];
///     let report = pass(FrameType::Video, payload, CAPS_EX_MODEX, true, &mut output)?;
///     for (viewer, connection) in connections.iter_mut().enumerate() {
///         match uplink.offer(viewer, report.hint, report.result_len) {
///             Ok(Decision::Sent) => connection.extend(report.result(&output)),
///             Ok(Decision::Dropped) => {}
///             Err(refusal) => eprintln!("viewer {viewer}: {refusal}"), // The others go on.
///         }
///     }
///     Ok(())
/// }
///
/// let mut uplink = Uplink::new(2)?;
/// let mut connections = [vec![], vec![]];
/// uplink.tick(13)?; // 6 bytes for each viewer
///
/// // A frame for viewer 1 alone, and then a keyframe of 6 bytes.
/// assert_eq!(uplink.offer(1, DeliveryHint::Critical, 8)?, Decision::Sent);
/// relay(b"\x17\x01\x00\x00\x00\x65", &mut uplink, &mut connections)?;
/// assert_eq!(connections, [b"\x17\x01\x00\x00\x00\x65".to_vec(), vec![]]);
/// assert_eq!((uplink.credit(0), uplink.is_waiting(0)), (Some(0), Some(false)));
/// assert_eq!((uplink.credit(1), uplink.is_waiting(1)), (Some(-2), Some(true)));
/// # Ok::<(), Refusal>(())
/// ```
///
/// # What a viewer can rely on
///
/// What is decided for a viewer is the same whatever is offered to others, if its own frames and
/// the ticks are the same, in the same order. And its shares equal the bytes that were sent to it
/// plus the credit that is left, a debt counting below 0, plus the credit that ticks cut off.
///
/// Both are proved of histories that begin with [`new`](Self::new), and have one number of viewers
/// and one number of bytes a tick. After a [`join`](Self::join) or a [`leave`](Self::leave) the
/// share is another one: credits and debts stay as they are, and the next tick cuts off what is
/// over the new limit.
#[derive(Clone, PartialEq, Eq)]
pub struct Uplink {
    viewers: usize,
    // Entries behind the viewers are 0.
    credits: [i32; Uplink::MOST_VIEWERS],
    waiting: [u8; Uplink::MOST_VIEWERS],
}

/// What becomes of a frame that is offered to a viewer of an [`Uplink`].
#[derive(Clone, Copy, Debug, PartialEq, Eq, Hash)]
#[must_use = "it says whether the frame is to be sent"]
pub enum Decision {
    /// It is to be sent, and is paid for.
    Sent,
    /// It is not to be sent. The viewer waits for a [`ResyncPoint`](DeliveryHint::ResyncPoint).
    Dropped,
}

impl Decision {
    /// Of the number that the entry gives beside no error.
    fn of(number: u32) -> Self {
        match number {
            1 => Self::Sent,
            2 => Self::Dropped,
            _ => excluded("decision", number, "offer_answer, uplink/specs/Uplink"),
        }
    }
}

impl fmt::Display for Decision {
    fn fmt(&self, f: &mut fmt::Formatter<'_>) -> fmt::Result {
        f.pad(match self {
            Self::Sent => "sent",
            Self::Dropped => "dropped",
        })
    }
}

impl Uplink {
    /// The most viewers that can share a line.
    pub const MOST_VIEWERS: usize = 64;

    /// The most bytes that a tick can have, for all viewers together.
    pub const MOST_BYTES: u32 = 16_777_215;

    /// A line with so many viewers, who have no credit yet and do not wait.
    ///
    /// # Errors
    ///
    /// [`Refusal::OutOfRange`] if there are none, or more than
    /// [`MOST_VIEWERS`](Self::MOST_VIEWERS). [`Uplink::default`] has none: they
    /// [`join`](Self::join).
    pub fn new(viewers: usize) -> Result<Self, Refusal> {
        match viewers {
            1..=Self::MOST_VIEWERS => Ok(Self {
                viewers,
                ..Self::default()
            }),
            _ => Err(Refusal::OutOfRange),
        }
    }

    /// How many viewers there are.
    #[must_use]
    pub const fn viewers(&self) -> usize {
        self.viewers
    }

    /// One viewer more, who has no credit yet and does not wait. Its number is returned, which is
    /// the number of viewers before. The credits of the others stay as they are.
    ///
    /// # Errors
    ///
    /// [`Refusal::OutOfRange`] if there are [`MOST_VIEWERS`](Self::MOST_VIEWERS).
    ///
    /// ```
    /// use hozgrim::{Refusal, Uplink};
    ///
    /// let mut uplink = Uplink::default();
    /// assert_eq!(uplink.join(), Ok(0));
    /// uplink.tick(100)?;
    /// assert_eq!(uplink.join(), Ok(1));
    /// assert_eq!(uplink.credit(0), Some(100));
    ///
    /// // A share is 50 from now on, and a credit at most twice as much.
    /// uplink.tick(100)?;
    /// assert_eq!(uplink.credit(0), Some(100));
    /// assert_eq!(uplink.credit(1), Some(50));
    /// # Ok::<(), Refusal>(())
    /// ```
    pub fn join(&mut self) -> Result<usize, Refusal> {
        let number = self.viewers;
        if number == Self::MOST_VIEWERS {
            return Err(Refusal::OutOfRange);
        }
        self.viewers += 1;
        Ok(number)
    }

    /// The viewer of this number goes, and with it its credit or debt. Those behind it move up by
    /// one number, with theirs, waiting or not, as in a vector that the viewer is removed from.
    ///
    /// # Errors
    ///
    /// [`Refusal::OutOfRange`] if no viewer has this number.
    ///
    /// ```
    /// use hozgrim::{DeliveryHint, Refusal, Uplink};
    ///
    /// let mut uplink = Uplink::new(3)?;
    /// let _ = uplink.offer(2, DeliveryHint::Critical, 7)?;
    /// uplink.leave(0)?;
    /// assert_eq!(uplink.viewers(), 2);
    /// assert_eq!(uplink.credit(1), Some(-7));
    /// assert_eq!(uplink.credit(2), None);
    /// # Ok::<(), Refusal>(())
    /// ```
    pub fn leave(&mut self, viewer: usize) -> Result<(), Refusal> {
        if viewer >= self.viewers {
            return Err(Refusal::OutOfRange);
        }
        self.credits[viewer..self.viewers].rotate_left(1);
        self.waiting[viewer..self.viewers].rotate_left(1);
        self.viewers -= 1;
        self.credits[self.viewers] = 0;
        self.waiting[self.viewers] = 0;
        Ok(())
    }

    /// How many bytes may still be sent to a viewer; below 0, how many were sent beyond that. None
    /// if no viewer has this number.
    ///
    /// It is at most 33,554,430, two shares of [`MOST_BYTES`](Self::MOST_BYTES) for one viewer, and
    /// at least -2,000,000,000.
    #[must_use]
    pub fn credit(&self, viewer: usize) -> Option<i32> {
        self.credits[..self.viewers].get(viewer).copied()
    }

    /// Whether a frame for this viewer was dropped, and no
    /// [`ResyncPoint`](DeliveryHint::ResyncPoint) was sent to it since. None if no viewer has this
    /// number.
    #[must_use]
    pub fn is_waiting(&self, viewer: usize) -> Option<bool> {
        self.waiting[..self.viewers]
            .get(viewer)
            .map(|mark| *mark != 0)
    }

    /// A tick: the line carries so many bytes more, and each viewer has its share of them, which is
    /// `bytes` divided by the number of viewers, rounded down. The remainder is lost.
    ///
    /// Of the credit that was left unused, at most one share is kept, and the rest is cut off. A
    /// debt is kept whole.
    ///
    /// # Errors
    ///
    /// No credit changes then.
    ///
    /// [`Refusal::OutOfRange`] if there are no viewers, or more than
    /// [`MOST_BYTES`](Self::MOST_BYTES).
    ///
    /// ```
    /// use hozgrim::{DeliveryHint, Refusal, Uplink};
    ///
    /// let mut uplink = Uplink::new(2)?;
    /// let _ = uplink.offer(1, DeliveryHint::Critical, 10)?;
    /// let credits = [(); 4].map(|()| {
    ///     uplink.tick(9)?; // 4 bytes for each
    ///     Ok::<_, Refusal>((uplink.credit(0).unwrap(), uplink.credit(1).unwrap()))
    /// });
    /// assert_eq!(credits, [Ok((4, -6)), Ok((8, -2)), Ok((8, 2)), Ok((8, 6))]);
    /// # Ok::<(), Refusal>(())
    /// ```
    #[inline]
    pub fn tick(&mut self, bytes: u32) -> Result<(), Refusal> {
        let credits = &mut self.credits[..self.viewers];
        Refusal::check(hozgrim_sys::uplink_tick(self.viewers, bytes, credits), 0)
    }

    /// Decides whether a frame is sent to a viewer. `length` is that of the result, as the pass
    /// reports it: [`Report::result_len`](crate::Report::result_len). Every length is taken.
    ///
    /// # Errors
    ///
    /// Nothing changes then, and the frame does not count as dropped. In this order:
    ///
    /// - [`Refusal::OutOfRange`] if no viewer has this number;
    /// - [`Refusal::DebtLimit`] if the frame is [`Critical`](DeliveryHint::Critical), and the
    ///   viewer would owe more than 2,000,000,000 bytes with it.
    ///
    /// ```
    /// use hozgrim::DeliveryHint::{Critical, Droppable, ResyncPoint};
    /// use hozgrim::{Decision, Refusal, Uplink};
    ///
    /// let mut uplink = Uplink::new(2)?;
    /// uplink.tick(12)?; // 6 bytes for each
    /// let mut offer = |hint, length| uplink.offer(0, hint, length);
    /// assert_eq!(offer(Droppable, 2), Ok(Decision::Sent));
    /// assert_eq!(offer(ResyncPoint, 5), Ok(Decision::Dropped)); // Its credit is 4.
    /// assert_eq!(offer(Droppable, 1), Ok(Decision::Dropped)); // It waits.
    /// assert_eq!(offer(Critical, 1), Ok(Decision::Sent));
    /// assert_eq!(offer(Droppable, 1), Ok(Decision::Dropped)); // It still does.
    /// assert_eq!(offer(ResyncPoint, 2), Ok(Decision::Sent));
    /// assert_eq!(offer(Droppable, 1), Ok(Decision::Sent));
    /// assert_eq!(offer(Critical, 2_000_000_001), Err(Refusal::DebtLimit));
    /// assert_eq!(offer(Critical, 2_000_000_000), Ok(Decision::Sent));
    ///
    /// assert_eq!(uplink.credit(0), Some(-2_000_000_000));
    /// assert_eq!(uplink.credit(1), Some(6));
    /// # Ok::<(), Refusal>(())
    /// ```
    #[inline]
    pub fn offer(
        &mut self,
        viewer: usize,
        hint: DeliveryHint,
        length: usize,
    ) -> Result<Decision, Refusal> {
        let call = OfferCall {
            viewers: self.viewers,
            viewer,
            hint: hint.into(),
            length,
        };
        let credits = &mut self.credits[..self.viewers];
        let waiting = &mut self.waiting[..self.viewers];
        let answer = hozgrim_sys::uplink_offer(call, credits, waiting);
        Refusal::check(answer.error, 0)?;
        Ok(Decision::of(answer.decision))
    }
}

/// Nobody is there yet.
impl Default for Uplink {
    fn default() -> Self {
        Self {
            viewers: 0,
            credits: [0; Self::MOST_VIEWERS],
            waiting: [0; Self::MOST_VIEWERS],
        }
    }
}

/// The credits by the viewers' numbers, and who waits.
impl fmt::Debug for Uplink {
    fn fmt(&self, f: &mut fmt::Formatter<'_>) -> fmt::Result {
        f.write_str("Uplink ")?;
        let mut map = f.debug_map();
        let entries = self.credits.iter().zip(&self.waiting).take(self.viewers);
        for (viewer, (credit, mark)) in entries.enumerate() {
            match mark {
                0 => map.entry(&viewer, credit),
                _ => map.entry(&viewer, &format_args!("{credit} waiting")),
            };
        }
        map.finish()
    }
}

#[cfg(test)]
mod tests {
    use super::*;

    #[test]
    fn every_decision_has_a_number() {
        assert_eq!(Decision::of(1), Decision::Sent);
        assert_eq!(Decision::of(2), Decision::Dropped);
    }

    #[test]
    #[should_panic(expected = "decision 0 is excluded")]
    fn no_refused_frame_is_decided_on() {
        let _ = Decision::of(0);
    }

    #[test]
    #[should_panic(expected = "decision 3 is excluded")]
    fn no_other_number_becomes_a_decision() {
        let _ = Decision::of(3);
    }
}
