//! The histories by which the readings of request N10 are told apart.

use hozgrim_sys::OfferCall;

use super::alone::{CRITICAL, DROPPABLE, RESYNC_POINT};
use super::{Call, Columns, History};

/// A share of 4 bytes for each of two viewers. One byte is left over.
const TICK: Call = Call::Tick {
    viewers: 2,
    uplink: 9,
};

const fn tick(viewers: usize, uplink: u32) -> Call {
    Call::Tick { viewers, uplink }
}

const fn offer(viewers: usize, viewer: usize, hint: u32, length: usize) -> Call {
    Call::Offer(OfferCall {
        viewers,
        viewer,
        hint,
        length,
    })
}

/// Frames that are offered to one of two viewers.
const fn critical(viewer: usize, length: usize) -> Call {
    offer(2, viewer, CRITICAL, length)
}

const fn resync_point(viewer: usize, length: usize) -> Call {
    offer(2, viewer, RESYNC_POINT, length)
}

const fn droppable(viewer: usize, length: usize) -> Call {
    offer(2, viewer, DROPPABLE, length)
}

/// A Critical frame that is offered to the only viewer.
const fn alone(length: usize) -> Call {
    offer(1, 0, CRITICAL, length)
}

/// Each of them stands in rows of the stored cases, a row for each call.
pub fn examples() -> Vec<History> {
    let mut examples = vec![];
    examples.extend(ticks());
    examples.extend(lengths());
    examples.extend(debts());
    examples.extend(waits());
    examples.extend(numbers());
    examples.extend(lent_columns());
    examples.extend(lent_credits());
    examples
}

fn history(credits: &[i32], marks: &[u8], calls: &[Call]) -> History {
    History {
        start: Columns {
            credits: credits.to_vec(),
            marks: marks.to_vec(),
        },
        calls: calls.to_vec(),
    }
}

/// From columns of zeros for two viewers.
fn fresh(calls: &[Call]) -> History {
    history(&[0; 2], &[0; 2], calls)
}

/// What a tick adds, and what it cuts off.
fn ticks() -> Vec<History> {
    let marks = &[0; 3];
    vec![
        history(&[9, 3], marks, &[TICK]),
        history(&[4, 5], marks, &[TICK, TICK]),
        history(&[-10, -4], marks, &[TICK]),
        history(&[5_000, 0], marks, &[TICK]),
        history(&[5, -5], marks, &[tick(2, 0)]),
        history(&[3, 0], marks, &[tick(2, 1)]),
        history(&[0; 3], marks, &[tick(3, 11)]),
        history(
            &[0],
            &[0],
            &[
                tick(1, 16_777_215),
                tick(1, 16_777_215),
                tick(1, 16_777_215),
                offer(1, 0, RESYNC_POINT, 33_554_430),
            ],
        ),
    ]
}

/// Lengths at the credit, and one over; a length of 0; lengths of more than 32 bits.
fn lengths() -> Vec<History> {
    vec![
        fresh(&[droppable(0, 0), TICK, droppable(0, 4), droppable(0, 1)]),
        history(&[4, 3], &[0; 2], &[resync_point(0, 4), droppable(1, 4)]),
        history(&[0, -1], &[0; 2], &[resync_point(0, 0), resync_point(1, 0)]),
        history(&[-1, 0], &[0; 2], &[droppable(0, 0)]),
        history(
            &[4; 2],
            &[0; 2],
            &[
                critical(0, (1 << 32) + 4),
                resync_point(0, (1 << 32) + 4),
                droppable(1, 1 << 63),
                resync_point(1, usize::MAX),
            ],
        ),
    ]
}

/// Critical frames, up to the most debt and beyond.
fn debts() -> Vec<History> {
    vec![
        fresh(&[critical(0, 5), TICK, TICK, resync_point(0, 3)]),
        history(&[3, -2], &[0, 1], &[critical(0, 5), critical(1, 7)]),
        history(&[0], &[0], &[alone(2_000_000_000), alone(0), alone(1)]),
        history(&[5], &[0], &[alone(2_000_000_006), alone(2_000_000_005)]),
        history(&[-5], &[0], &[alone(1_999_999_996), alone(1_999_999_995)]),
        // Neither a drop nor the end of waiting.
        fresh(&[critical(0, usize::MAX), droppable(0, 0)]),
        history(
            &[0; 2],
            &[1, 0],
            &[critical(0, 2_000_000_001), droppable(0, 0)],
        ),
    ]
}

/// What makes a viewer wait, and what ends it.
fn waits() -> Vec<History> {
    vec![
        fresh(&[
            resync_point(0, 1),
            critical(0, 0),
            droppable(0, 0),
            TICK,
            droppable(0, 1),
            resync_point(0, 5),
            droppable(0, 4),
            resync_point(0, 4),
            droppable(0, 0),
        ]),
        fresh(&[
            droppable(0, 1),
            resync_point(0, 1),
            droppable(0, 0),
            resync_point(0, 0),
        ]),
        history(
            &[6, 0],
            &[0; 2],
            &[resync_point(0, 7), droppable(0, 1), resync_point(0, 6)],
        ),
        // One viewer waits, and the other does not; one has credit, and the other has not.
        fresh(&[resync_point(0, 1), droppable(1, 0)]),
        history(&[5, 0], &[0; 2], &[droppable(1, 5), resync_point(0, 5)]),
        history(&[0, 5], &[0; 2], &[resync_point(0, 5), resync_point(1, 5)]),
        // Other marks.
        history(
            &[4; 2],
            &[2, 255],
            &[droppable(0, 0), critical(1, 1), resync_point(1, 3)],
        ),
        history(&[4; 2], &[2, 255], &[resync_point(0, 5), droppable(1, 5)]),
    ]
}

/// Numbers of viewers, viewers, hints and U.
fn numbers() -> Vec<History> {
    let of_hint = |hint| offer(2, 0, hint, 0);
    let wide = 1 << 32;
    let mut credits = [0; 66];
    credits[64..].copy_from_slice(&[i32::MAX, 5]);
    vec![
        fresh(&[of_hint(3), of_hint(256), of_hint(u32::MAX), droppable(0, 0)]),
        history(
            &[1; 3],
            &[0; 3],
            &[
                critical(2, 1),
                critical(wide, 1),
                critical(usize::MAX, 1),
                // -32 comes before -33.
                critical(2, usize::MAX),
            ],
        ),
        history(
            &[5; 2],
            &[0; 2],
            &[
                tick(0, 9),
                offer(0, 0, CRITICAL, 1),
                tick(wide + 1, 9),
                offer(wide + 1, 0, CRITICAL, 1),
                tick(usize::MAX, 9),
                offer(usize::MAX, 0, CRITICAL, 1),
            ],
        ),
        history(
            &credits,
            &[0; 66],
            &[
                tick(64, 700),
                offer(64, 63, CRITICAL, 11),
                offer(64, 64, CRITICAL, 1),
                tick(64, 63),
            ],
        ),
        history(
            &[5; 66],
            &[0; 66],
            &[tick(65, 700), offer(65, 0, CRITICAL, 1)],
        ),
        fresh(&[tick(2, 16_777_216), tick(2, u32::MAX), tick(2, 16_777_215)]),
    ]
}

/// Columns that are longer than there are viewers, and shorter.
fn lent_columns() -> Vec<History> {
    let three = [tick(3, 9), offer(3, 0, CRITICAL, 1)];
    vec![
        history(
            &[0, 0, i32::MAX],
            &[0, 0, 7],
            &[TICK, resync_point(1, 4), droppable(1, 1)],
        ),
        history(&[1; 2], &[0; 3], &three),
        history(&[1; 3], &[0; 2], &three),
        history(&[], &[], &[tick(1, 9), offer(1, 0, CRITICAL, 0)]),
    ]
}

/// Credits at both ends, and past them.
fn lent_credits() -> Vec<History> {
    let [highest, lowest] = [33_554_430, -2_000_000_000];
    vec![
        history(
            &[0, highest + 1],
            &[0; 2],
            &[
                critical(0, 1),
                TICK,
                critical(1, 1),
                critical(1, usize::MAX),
            ],
        ),
        history(
            &[3, 4, lowest - 1],
            &[0; 3],
            &[tick(3, 9), offer(3, 2, DROPPABLE, 0), TICK],
        ),
        history(&[i32::MAX, 1], &[0; 2], &[TICK, resync_point(1, 1)]),
        history(&[1, i32::MIN], &[0; 2], &[TICK, critical(1, 0)]),
        history(
            &[highest, lowest],
            &[0; 2],
            &[TICK, critical(1, 5), critical(1, 4)],
        ),
        history(
            &[highest, lowest],
            &[0; 2],
            &[
                resync_point(0, 33_554_431),
                resync_point(0, 33_554_430),
                critical(1, 0),
                critical(1, 1),
                droppable(1, 0),
            ],
        ),
    ]
}

#[cfg(test)]
mod tests {
    use super::super::Answer;
    use super::super::alone::Viewers;
    use super::*;

    /// The decision of each offer by its number, or the error; of each tick the error. Then the
    /// credits and the marks that are left. By the words of the request, one line for each example.
    const LEFT: &[(&[i32], &[i32], &[u8])] = &[
        (&[0], &[8, 7], &[0; 3]),
        (&[0, 0], &[8, 8], &[0; 3]),
        (&[0], &[-6, 0], &[0; 3]),
        (&[0], &[8, 4], &[0; 3]),
        (&[0], &[0, -5], &[0; 3]),
        (&[0], &[0, 0], &[0; 3]),
        (&[0], &[3, 3, 3], &[0; 3]),
        (&[0, 0, 0, 1], &[0], &[0]),
        (&[1, 0, 1, 2], &[0, 4], &[1, 0]),
        (&[1, 2], &[0, 3], &[0, 1]),
        (&[1, 2], &[0, -1], &[0, 1]),
        (&[2], &[-1, 0], &[1, 0]),
        (&[-33, 2, 2, 2], &[4, 4], &[1, 1]),
        (&[1, 0, 0, 1], &[0, 8], &[0, 0]),
        (&[1, 1], &[-2, -9], &[0, 1]),
        (&[1, 1, -33], &[-2_000_000_000], &[0]),
        (&[-33, 1], &[-2_000_000_000], &[0]),
        (&[-33, 1], &[-2_000_000_000], &[0]),
        (&[-33, 1], &[0, 0], &[0, 0]),
        (&[-33, 2], &[0, 0], &[1, 0]),
        (&[2, 1, 2, 0, 2, 2, 2, 1, 1], &[0, 4], &[0, 0]),
        (&[2, 2, 2, 1], &[0, 0], &[0, 0]),
        (&[2, 2, 1], &[0, 0], &[0, 0]),
        (&[2, 1], &[0, 0], &[1, 0]),
        (&[2, 1], &[0, 0], &[0, 1]),
        (&[2, 1], &[0, 0], &[1, 0]),
        (&[2, 1, 1], &[4, 0], &[1, 0]),
        (&[2, 2], &[4, 4], &[1, 1]),
        (&[-32, -32, -32, 1], &[0, 0], &[0, 0]),
        (&[-32; 4], &[1; 3], &[0; 3]),
        (&[-32; 6], &[5; 2], &[0; 2]),
        (&[0, 1, -32, 0], &MANY, &[0; 66]),
        (&[-32; 2], &[5; 66], &[0; 66]),
        (&[-32, -32, 0], &[8_388_607; 2], &[0; 2]),
        (&[0, 1, 2], &[4, 0, i32::MAX], &[0, 1, 7]),
        (&[-32; 2], &[1; 2], &[0; 3]),
        (&[0, -32], &[4; 3], &[0; 2]),
        (&[-32; 2], &[], &[]),
        (&[1, -32, -32, -32], &[-1, 33_554_431], &[0; 2]),
        (&[-32, -32, 0], &[7, 8, -2_000_000_001], &[0; 3]),
        (&[-32, 1], &[i32::MAX, 0], &[0; 2]),
        (&[-32, -32], &[1, i32::MIN], &[0; 2]),
        (&[0, -33, 1], &[8, -2_000_000_000], &[0; 2]),
        (&[2, 1, 1, -33, 2], &[0, -2_000_000_000], &[0, 1]),
    ];

    /// A share of 10 for each of 64, of which the last owes a byte; a tick without a share then
    /// cuts off the rest. Behind them stand two entries.
    const MANY: [i32; 66] = {
        let mut credits = [0; 66];
        credits[63] = -1;
        credits[64] = i32::MAX;
        credits[65] = 5;
        credits
    };

    #[test]
    fn what_the_examples_leave() {
        let examples = examples();
        assert_eq!(examples.len(), LEFT.len());
        for (number, (history, left)) in examples.iter().zip(LEFT).enumerate() {
            let mut viewers = Viewers::new(&history.start);
            let answers = history.calls.iter().map(|call| match viewers.answer(call) {
                Answer::Tick(error) => error,
                Answer::Offer(offer) if offer.error == 0 => offer.decision as i32,
                Answer::Offer(offer) => {
                    assert_eq!(offer.decision, 0);
                    offer.error
                }
            });
            assert_eq!(answers.collect::<Vec<_>>(), left.0, "{number}");
            let Columns { credits, marks } = viewers.columns();
            assert_eq!((&credits[..], &marks[..]), (left.1, left.2), "{number}");
        }
    }
}
