//! `hozgrim_write_modex` beside what is asked of it. The Rust peels and reads what it writes.

use common::calls::{modex, modex_changes, random_modex};
use common::layers::MODEX;
use common::naming::names_itself;
use common::rng::Rng;
use common::writing::{AUDIO, METADATA, MOST_DATA, MOST_LAYERS, ModexArguments, SCRIPT, VIDEO};
use hozgrim_sys::ModexCall;
use oracle::media::modex::normalize_modex_payload_with_frame_type;
use oracle::types::CAPS_EX_MASK_MODEX;
use oracle::{FRAME_TYPES, parse_modex_layer};

use crate::containers::tiled;
use crate::input::Input;
use crate::run::{Comparison, Difference, same};
use crate::writing::{
    Lent, Writer, changed, fewer, lower_column, lower_number, smaller_bytes, take_out,
};

pub struct WriteModex;

impl Comparison for WriteModex {
    const NAME: &'static str = "write_modex";

    const CLASSES: &'static [&'static str] = &[
        "1 layer, audio",
        "1 layer, video",
        "1 layer, script data",
        "1 layer, metadata",
        "2 to 31 layers, audio",
        "2 to 31 layers, video",
        "2 to 31 layers, script data",
        "2 to 31 layers, metadata",
        "32 layers",
        "255 data bytes",
        "256 data bytes",
        "257 to 65,535 data bytes",
        "65,536 data bytes",
        "type 0 with under 3 data bytes",
        "columns that are longer",
        "around a container that names itself",
        "a frame type above 3",
        "no layer",
        "over 32 layers",
        "too few types",
        "too few starts",
        "too few lengths",
        "a part that leaves what was lent",
        "a part that ends at 2^64 or past it",
        "a layer without data",
        "over 65,536 data bytes",
        "a layer's type above 15",
        "an empty payload",
        "a payload without bit 7",
        "a payload of low nibble 7",
        "an audio payload without high nibble 9",
        "too short an output",
        "several reasons of -26",
        "several reasons of -27",
        "several reasons of -28",
        "-21 before -26",
        "-21 before -27",
        "-21 before -28",
        "-21 before -22",
        "-26 before -27",
        "-26 before -28",
        "-26 before -22",
        "-27 before -28",
        "-27 before -22",
        "-28 before -22",
    ];

    const SIDES: [&'static str; 2] = ["requirement", "port"];

    type Input = Lent<ModexArguments>;

    fn listed() -> impl Iterator<Item = Self::Input> {
        first_bytes()
            .chain(containers())
            .chain(sizes())
            .chain(rows())
    }

    fn random(rng: &mut Rng) -> Self::Input {
        let arguments = random_modex(rng);
        Lent::random(rng, arguments)
    }

    fn compare(lent: &Self::Input) -> Result<&'static str, Difference> {
        let arguments = &lent.arguments;
        let call = ModexCall {
            frame_type: arguments.frame_type,
            count: arguments.count,
            types: &arguments.types,
            starts: &arguments.data.starts,
            lengths: &arguments.data.lengths,
            data: &arguments.data.lent,
            payload: &arguments.payload,
        };
        let written = lent.same_as_asked(|output| hozgrim_sys::write_modex(&call, output))?;
        if let Some(written) = written {
            same_when_peeled(arguments, &written)?;
            same(given(arguments), found(&written))?;
        }
        Ok(lent.class())
    }
}

/// Holds what the Rust peels against the payload; without the bit for ModEx, against what was
/// written.
fn same_when_peeled(arguments: &ModexArguments, written: &[u8]) -> Result<(), Difference> {
    let known = FRAME_TYPES[arguments.frame_type as usize];
    for (mask, result) in [
        (CAPS_EX_MASK_MODEX, &arguments.payload[..]),
        (u32::MAX, &arguments.payload),
        (0, written),
        (!CAPS_EX_MASK_MODEX, written),
    ] {
        let peeled = normalize_modex_payload_with_frame_type(written, mask, known);
        same((mask, result), (mask, &*peeled))?;
    }
    Ok(())
}

/// A layer as it stands in a payload.
#[derive(Debug, PartialEq)]
struct Found {
    modex_type: u8,
    next: u8,
    /// How many bytes say its size.
    size_bytes: usize,
    data: Vec<u8>,
}

/// The layers of a call that is not refused, and what stands behind them.
fn given(arguments: &ModexArguments) -> (Vec<Found>, &[u8]) {
    let layer = |(modex_type, data): (u8, &[u8])| Found {
        modex_type,
        next: MODEX,
        size_bytes: if data.len() < 256 { 1 } else { 3 },
        data: data.to_vec(),
    };
    let mut layers: Vec<Found> = arguments.layers().map(layer).collect();
    if let Some(last) = layers.last_mut() {
        last.next = arguments.payload[0] & 0x0F;
    }
    (layers, &arguments.payload[1..])
}

/// The layers that the Rust reads from byte 1 on, and what stands behind them.
fn found(written: &[u8]) -> (Vec<Found>, &[u8]) {
    let mut layers = vec![];
    let mut at = 1;
    while let Some(layer) = parse_modex_layer(written, at) {
        layers.push(Found {
            modex_type: layer.modex_type,
            next: layer.next_packet_type,
            size_bytes: layer.data_start - at,
            data: written[layer.data_start..layer.data_end].to_vec(),
        });
        at = layer.next_pos;
        if layer.next_packet_type != MODEX {
            break;
        }
    }
    (layers, &written[at..])
}

/// Payloads of every byte 0, alone and with bytes behind.
fn first_bytes() -> impl Iterator<Item = Lent<ModexArguments>> {
    (0..=u8::MAX).flat_map(|first| {
        [AUDIO, VIDEO, SCRIPT, METADATA]
            .into_iter()
            .flat_map(move |number| {
                let payloads = [vec![first], vec![first, 0x17, 0x01]];
                payloads.map(|payload| Lent::exact(modex(number, &[1], &payload)))
            })
    })
}

/// Containers, of which those that name themselves are written too: byte 1 has no say.
fn containers() -> impl Iterator<Item = Lent<ModexArguments>> {
    tiled::naming().flat_map(|payload| {
        let around = |number, lengths: &[usize]| Lent::exact(modex(number, lengths, &payload));
        let of = |number| [around(number, &[1]), around(number, &[2, 1])];
        [AUDIO, VIDEO].map(of).concat()
    })
}

/// Data around each limit, in each of three layers; and every type of a layer.
fn sizes() -> impl Iterator<Item = Lent<ModexArguments>> {
    let limits = [1, 2, 3, 254, 255, 256, 257, 65_535, 65_536, 65_537];
    let lengths = limits
        .into_iter()
        .flat_map(|most| [[most, 1, 1], [1, most, 1], [1, 1, most]]);
    let sizes = lengths.map(|lengths| modex(AUDIO, &lengths, b"\x91Opus\xAA"));
    let types = (0..=u8::MAX).map(|modex_type| ModexArguments {
        types: vec![modex_type],
        ..modex(VIDEO, &[1], b"\x91avc1")
    });
    sizes.chain(types).map(Lent::exact)
}

/// With every change, and every two of them, and outputs of several lengths.
fn rows() -> impl Iterator<Item = Lent<ModexArguments>> {
    let payloads = [
        (AUDIO, &b"\x91Opus"[..]),
        (VIDEO, b"\xA1avc1"),
        (SCRIPT, b"\x80"),
        (METADATA, b"\xFF\x01"),
    ];
    let bases = payloads.into_iter().flat_map(|(number, payload)| {
        [&[2][..], &[1, 3, 2]].map(|lengths| modex(number, lengths, payload))
    });
    let bases: Vec<_> = bases.collect();
    let changed = changed(bases.clone(), modex_changes);
    bases.into_iter().chain(changed).flat_map(Lent::around)
}

impl Writer for ModexArguments {
    fn written_class(&self) -> &'static str {
        let most = self.data.lengths[..self.count].iter().max();
        let mut layers = self.layers();
        match most.copied().unwrap_or(0) {
            MOST_DATA => "65,536 data bytes",
            257.. => "257 to 65,535 data bytes",
            256 => "256 data bytes",
            255 => "255 data bytes",
            _ if self.count == MOST_LAYERS => "32 layers",
            _ if self.types.len() > self.count => "columns that are longer",
            _ if layers.any(|(modex_type, data)| modex_type == 0 && data.len() < 3) => {
                "type 0 with under 3 data bytes"
            }
            _ if names_itself(self.frame_type, &self.payload) => {
                "around a container that names itself"
            }
            _ => class_of_type(self),
        }
    }
}

fn class_of_type(arguments: &ModexArguments) -> &'static str {
    match (arguments.frame_type, arguments.count) {
        (AUDIO, 1) => "1 layer, audio",
        (VIDEO, 1) => "1 layer, video",
        (SCRIPT, 1) => "1 layer, script data",
        (_, 1) => "1 layer, metadata",
        (AUDIO, _) => "2 to 31 layers, audio",
        (VIDEO, _) => "2 to 31 layers, video",
        (SCRIPT, _) => "2 to 31 layers, script data",
        _ => "2 to 31 layers, metadata",
    }
}

impl Input for ModexArguments {
    fn smaller(&self) -> impl Iterator<Item = Self> {
        let numbers = lower_number(self, |call| &mut call.count)
            .chain(lower_number(self, |call| &mut call.frame_type));
        let columns = lower_column(self, |call| &mut call.types)
            .chain(lower_column(self, |call| &mut call.data.starts))
            .chain(lower_column(self, |call| &mut call.data.lengths));
        fewer(self, self.types.len(), |call, part| {
            call.count = call.count.saturating_sub(part.len());
            take_out(&mut call.types, &part);
            take_out(&mut call.data.starts, &part);
            take_out(&mut call.data.lengths, &part);
        })
        .chain(numbers)
        .chain(columns)
        .chain(smaller_bytes(self, &self.payload, |call| &mut call.payload))
        .chain(smaller_bytes(self, &self.data.lent, |call| {
            &mut call.data.lent
        }))
    }

    fn show(&self) -> String {
        format!(
            "frame type {}, count {}, types {:?}, starts {:?}, lengths {:?}, payload of {}, \
             data of {}",
            self.frame_type,
            self.count,
            self.types,
            self.data.starts,
            self.data.lengths,
            self.payload.show(),
            self.data.lent.show()
        )
    }
}
