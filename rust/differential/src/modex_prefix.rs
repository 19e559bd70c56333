//! `modex_parse_prefix` and `modex_parse`.

use common::layers::Form::{Long, Short};
use common::layers::{self, layer};
use common::rng::Rng;
use oracle::ertmp::modex::{modex_parse, modex_parse_prefix};
use oracle::types::{self, Modex, ModexType};

use crate::input::{Input, lower};
use crate::leaf::{self, LeafModex};
use crate::run::{Comparison, Difference, same};

pub struct ModexPrefix;

impl Comparison for ModexPrefix {
    const NAME: &'static str = "modex_prefix";

    const CLASSES: &'static [&'static str] = &["unreadable", "short offset", "offset read", "Nop"];

    type Input = Given;

    fn listed() -> impl Iterator<Item = Given> {
        let layers = layers::cut_layers().chain(layers::large_layers());
        let payloads = layers::up_to_three_bytes().chain(layers).chain(offsets());
        payloads.flat_map(given)
    }

    fn random(rng: &mut Rng) -> Given {
        Given {
            payload: layers::random_layer_payload(rng),
            number: rng.byte() % 2,
            offset: rng.number(),
            next: rng.byte(),
        }
    }

    fn compare(given: &Given) -> Result<&'static str, Difference> {
        let answers = same(Answers::of_rust(given), Answers::of_port(given))?;
        Ok(match (answers.prefix.error, answers.prefix.modex_type) {
            (-1, _) => "unreadable",
            (-3, _) => "short offset",
            (0, 0) => "offset read",
            (0, 1) => "Nop",
            _ => panic!("no such answer is known: {answers:?}"),
        })
    }
}

/// A payload, and the Modex that is given to be filled.
#[derive(Clone)]
pub struct Given {
    payload: Vec<u8>,
    /// The Modex: 0 is TimestampOffsetNano, 1 Nop.
    number: u8,
    offset: u64,
    next: u8,
}

impl Given {
    fn modex(&self) -> Modex {
        let modex_type = match self.number {
            0 => ModexType::TimestampOffsetNano,
            _ => ModexType::Nop,
        };
        Modex {
            modex_type,
            offset: self.offset,
            next_packet_type: self.next,
        }
    }
}

impl Input for Given {
    fn smaller(&self) -> impl Iterator<Item = Self> {
        let payloads = self
            .payload
            .smaller()
            .map(|payload| Self { payload, ..*self });
        let numbers = lower(self.number.into()).map(|number| Self {
            number: number as u8,
            ..self.clone()
        });
        let offsets = lower(self.offset).map(|offset| Self {
            offset,
            ..self.clone()
        });
        let nexts = lower(self.next.into()).map(|next| Self {
            next: next as u8,
            ..self.clone()
        });
        payloads.chain(numbers).chain(offsets).chain(nexts)
    }

    fn show(&self) -> String {
        let payload = self.payload.show();
        format!("given {:?}, payload of {payload}", self.modex())
    }
}

/// The payload with a Modex of either type, and with offsets and next packet types at the limits.
fn given(payload: Vec<u8>) -> Vec<Given> {
    let mut all = vec![];
    for number in [0, 1] {
        for offset in [0, 1, 1 << 24, u64::MAX] {
            for next in [0, 7, 255] {
                all.push(Given {
                    payload: payload.clone(),
                    number,
                    offset,
                    next,
                });
            }
        }
    }
    all
}

/// Layers of type 0 with 1 to 4 data bytes: each bit alone, no bit, all bits, and bytes in order.
fn offsets() -> impl Iterator<Item = Vec<u8>> {
    let bits = (0..u32::BITS).map(|bit| 1 << bit);
    let numbers = bits.chain([0, u32::MAX, 0x0102_0304]);
    let cut = |data: [u8; 4], size| [Short, Long].map(|form| layer(form, &data[..size], 0x01));
    numbers.flat_map(move |number| (1..=4).flat_map(move |size| cut(number.to_be_bytes(), size)))
}

/// What the two functions answer.
#[derive(Debug, PartialEq)]
struct Answers {
    prefix: LeafModex,
    whole: LeafModex,
}

impl Answers {
    fn of_rust(given: &Given) -> Self {
        let payload = &given.payload;
        Self {
            prefix: of_rust(given, |modex| modex_parse_prefix(modex, payload)),
            whole: of_rust(given, |modex| modex_parse(modex, payload).map(|()| 0)),
        }
    }

    fn of_port(given: &Given) -> Self {
        let (number, offset, next) = (given.number, given.offset, given.next);
        Self {
            prefix: leaf::modex_parse_prefix(number, offset, next, &given.payload),
            whole: leaf::modex_parse(number, offset, next, &given.payload),
        }
    }
}

/// The answer, and the Modex afterwards.
fn of_rust(given: &Given, parse: impl FnOnce(&mut Modex) -> types::Result<usize>) -> LeafModex {
    let mut modex = given.modex();
    let (error, consumed) = match parse(&mut modex) {
        Ok(consumed) => (0, consumed),
        Err(error) => (error as i32, 0),
    };
    LeafModex {
        error,
        modex_type: modex.modex_type as u8,
        next_packet_type: modex.next_packet_type,
        consumed,
        offset: modex.offset,
    }
}
