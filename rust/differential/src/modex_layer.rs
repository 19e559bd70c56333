//! `parse_modex_layer`.

use common::layers;
use common::rng::Rng;

use crate::input::{Input, lower};
use crate::leaf::{self, LeafLayer};
use crate::run::{Comparison, Difference, same};

pub struct ModexLayer;

impl Comparison for ModexLayer {
    const NAME: &'static str = "modex_layer";

    const CLASSES: &'static [&'static str] = &[
        "behind the end",
        "layer truncated",
        "layer read, short size",
        "layer read, long size",
    ];

    type Input = Place;

    fn listed() -> impl Iterator<Item = Place> {
        let alone = layers::cut_layers().chain(layers::large_layers());
        let wrapped = layers::cut_layers()
            .chain(layers::large_layers())
            .map(layers::wrapped);
        let payloads = layers::up_to_three_bytes().chain(alone).chain(wrapped);
        payloads.flat_map(places)
    }

    /// Three in four positions are in the payload or right behind it.
    fn random(rng: &mut Rng) -> Place {
        let payload = match rng.below(2) {
            0 => layers::random_payload(rng),
            _ => layers::random_layer_payload(rng),
        };
        let pos = match rng.below(8) {
            0 => rng.number() as usize,
            1 => usize::MAX - rng.below(4),
            2 | 3 => rng.below(2),
            _ => rng.below(payload.len() + 2),
        };
        Place { payload, pos }
    }

    fn compare(place: &Place) -> Result<&'static str, Difference> {
        let Place { payload, pos } = place;
        let answer = same(of_rust(place), leaf::parse_modex_layer(payload, *pos))?;
        Ok(match payload.get(*pos) {
            None => "behind the end",
            Some(_) if answer.error != 0 => "layer truncated",
            Some(0xFF) => "layer read, long size",
            Some(_) => "layer read, short size",
        })
    }
}

/// A payload and the position of a layer in it.
#[derive(Clone)]
pub struct Place {
    payload: Vec<u8>,
    pos: usize,
}

impl Input for Place {
    fn smaller(&self) -> impl Iterator<Item = Self> {
        let payloads = self
            .payload
            .smaller()
            .map(|payload| Self { payload, ..*self });
        let positions = lower(self.pos as u64).map(|pos| Self {
            pos: pos as usize,
            ..self.clone()
        });
        payloads.chain(positions)
    }

    fn show(&self) -> String {
        format!("position {} in {}", self.pos, self.payload.show())
    }
}

/// The positions at both ends of a payload, and the last of all.
fn places(payload: Vec<u8>) -> impl Iterator<Item = Place> {
    let length = payload.len();
    let mut positions = vec![
        0,
        1,
        2,
        length.saturating_sub(1),
        length,
        length + 1,
        usize::MAX,
    ];
    positions.sort();
    positions.dedup();
    positions.into_iter().map(move |pos| Place {
        payload: payload.clone(),
        pos,
    })
}

/// A `None` is -1.
fn of_rust(place: &Place) -> LeafLayer {
    match oracle::parse_modex_layer(&place.payload, place.pos) {
        Some(layer) => LeafLayer {
            error: 0,
            modex_type: layer.modex_type,
            next_packet_type: layer.next_packet_type,
            data_start: layer.data_start,
            data_end: layer.data_end,
            next_pos: layer.next_pos,
        },
        None => LeafLayer {
            error: -1,
            modex_type: 0,
            next_packet_type: 0,
            data_start: 0,
            data_end: 0,
            next_pos: 0,
        },
    }
}
