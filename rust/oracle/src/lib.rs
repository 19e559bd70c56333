//! The Rust files that the port follows, compiled unchanged from their own folder, with stand-ins
//! for what they lean on.

// What clippy and rustdoc would have otherwise in those files.
#![allow(
    clippy::collapsible_match,
    clippy::derivable_impls,
    clippy::manual_ok_err,
    rustdoc::broken_intra_doc_links
)]

mod stand_ins;

use std::iter;

use ertmp::modex::modex_parse_prefix;
use media::modex::ERTMP_PACKET_TYPE_MODEX;
use stand_ins::{amf, buffer};
use types::{FrameType, Modex, ModexType};

pub mod starts;

include!(concat!(env!("OUT_DIR"), "/src.rs"));

pub mod ertmp {
    include!(concat!(env!("OUT_DIR"), "/ertmp.rs"));
    pub(crate) use crate::stand_ins::metadata;
}

pub mod media {
    include!(concat!(env!("OUT_DIR"), "/media.rs"));
}

/// Frame types by the numbers that docs/REQUIREMENTS.md, section 1, gives them.
pub const FRAME_TYPES: [FrameType; 4] = [
    FrameType::Audio,
    FrameType::Video,
    FrameType::Script,
    FrameType::Metadata,
];

/// `media::modex::ModexLayer`, which is not public.
#[derive(Debug, Clone, Copy, PartialEq, Eq)]
pub struct ModexLayer {
    pub modex_type: u8,
    pub next_packet_type: u8,
    pub data_start: usize,
    pub data_end: usize,
    pub next_pos: usize,
}

/// `media::modex::parse_modex_layer`, which is not public.
pub fn parse_modex_layer(payload: &[u8], pos: usize) -> Option<ModexLayer> {
    let layer = media::modex::parse_modex_layer(payload, pos)?;
    Some(ModexLayer {
        modex_type: layer.modex_type,
        next_packet_type: layer.next_packet_type,
        data_start: layer.data_start,
        data_end: layer.data_end,
        next_pos: layer.next_pos,
    })
}

/// The offset of each layer behind byte 0, as `modex_parse_prefix` reads one; none of another type
/// than 0. A layer that it refuses is the end of them.
pub fn offsets_of_layers(payload: &[u8]) -> impl Iterator<Item = types::Result<Option<u64>>> {
    let mut rest = payload.get(1..);
    iter::from_fn(move || {
        let layer = rest.take()?;
        let mut modex = Modex::default();
        let length = match modex_parse_prefix(&mut modex, layer) {
            Ok(length) => length,
            Err(error) => return Some(Err(error)),
        };
        rest = layer
            .get(length..)
            .filter(|_| modex.next_packet_type == ERTMP_PACKET_TYPE_MODEX);
        let timed = modex.modex_type == ModexType::TimestampOffsetNano;
        Some(Ok(timed.then_some(modex.offset)))
    })
}
