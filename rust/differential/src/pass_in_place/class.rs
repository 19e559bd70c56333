//! The classes of frames, by what is peeled off them and why not.

use std::borrow::Cow;

use common::requirement::BAD_OFFSET;
use hozgrim_sys::HozgrimReport;

use crate::modex::{self, Frame, chain_of};
use crate::pass::class::refused_layers;

/// Those of known frame types stand in threes, by the type, but that Script and Metadata have no
/// containers and no records. A plain offset is one of three bytes before another layer, whose first
/// byte is that of no offset over 999,999: the port passes those that a chain begins with in its own
/// way. A payload that is peeled in several of the ways is of the last class that fits.
pub const CLASSES: &[&str] = &[
    "unknown frame type",
    "offset refused, of the only layer, audio",
    "offset refused, of the only layer, video",
    "offset refused, of the only layer, Script or Metadata",
    "offset refused, of one of several layers, audio",
    "offset refused, of one of several layers, video",
    "offset refused, of one of several layers, Script or Metadata",
    "offset refused, of one of several layers, behind plain offsets, audio",
    "offset refused, of one of several layers, behind plain offsets, video",
    "offset refused, of one of several layers, behind plain offsets, Script or Metadata",
    "offsets refused, of several layers, audio",
    "offsets refused, of several layers, video",
    "offsets refused, of several layers, Script or Metadata",
    "offsets refused, of several layers, behind plain offsets, audio",
    "offsets refused, of several layers, behind plain offsets, video",
    "offsets refused, of several layers, behind plain offsets, Script or Metadata",
    "empty, audio",
    "empty, video",
    "empty, Script or Metadata",
    "not capable, audio",
    "not capable, video",
    "not capable, Script or Metadata",
    "legacy byte, audio",
    "legacy byte, video",
    "legacy byte, Script or Metadata",
    "other packet type, audio",
    "other packet type, video",
    "other packet type, Script or Metadata",
    "audio without nibble 9",
    "truncated chain, audio",
    "truncated chain, video",
    "truncated chain, Script or Metadata",
    "truncated chain, behind plain offsets, audio",
    "truncated chain, behind plain offsets, video",
    "truncated chain, behind plain offsets, Script or Metadata",
    "33 or more layers, audio",
    "33 or more layers, video",
    "33 or more layers, Script or Metadata",
    "33 or more layers, behind plain offsets, audio",
    "33 or more layers, behind plain offsets, video",
    "33 or more layers, behind plain offsets, Script or Metadata",
    "peeled, 1 layer, audio",
    "peeled, 1 layer, video",
    "peeled, 1 layer, Script or Metadata",
    "peeled, 2 to 31 layers, audio",
    "peeled, 2 to 31 layers, video",
    "peeled, 2 to 31 layers, Script or Metadata",
    "peeled, 2 to 31 layers, behind plain offsets, audio",
    "peeled, 2 to 31 layers, behind plain offsets, video",
    "peeled, 2 to 31 layers, behind plain offsets, Script or Metadata",
    "peeled, 32 layers, audio",
    "peeled, 32 layers, video",
    "peeled, 32 layers, Script or Metadata",
    "peeled, 32 layers, behind plain offsets, audio",
    "peeled, 32 layers, behind plain offsets, video",
    "peeled, 32 layers, behind plain offsets, Script or Metadata",
    "peeled, with a long size, audio",
    "peeled, with a long size, video",
    "peeled, with a long size, Script or Metadata",
    "peeled, with a long size, behind plain offsets, audio",
    "peeled, with a long size, behind plain offsets, video",
    "peeled, with a long size, behind plain offsets, Script or Metadata",
    "peeled, nothing behind the chain, audio",
    "peeled, nothing behind the chain, video",
    "peeled, nothing behind the chain, Script or Metadata",
    "peeled, nothing behind the chain, behind plain offsets, audio",
    "peeled, nothing behind the chain, behind plain offsets, video",
    "peeled, nothing behind the chain, behind plain offsets, Script or Metadata",
    "peeled, a record, audio",
    "peeled, a record, video",
    "peeled, a record, behind plain offsets, audio",
    "peeled, a record, behind plain offsets, video",
    "peeled, a container, audio",
    "peeled, a container, video",
    "peeled, a container, behind plain offsets, audio",
    "peeled, a container, behind plain offsets, video",
];

/// The class of a frame that has this result and report.
pub fn class(lent: &Frame, result: Option<&Cow<'_, [u8]>>, report: &HozgrimReport) -> &'static str {
    let how = match (report.error, result) {
        (BAD_OFFSET, _) => of_refused(&lent.payload),
        (0, Some(Cow::Owned(_))) if report.tracks > 0 => "peeled, a container",
        (0, Some(Cow::Owned(_))) if report.records > 0 => "peeled, a record",
        (0, Some(Cow::Owned(result))) if result.len() == 1 => "peeled, nothing behind the chain",
        _ => modex::class(lent, 0),
    };
    let behind = match how {
        "unknown frame type" | "empty" | "not capable" | "legacy byte" => "",
        "other packet type" | "audio without nibble 9" => "",
        _ if starts_plain(&lent.payload) => ", behind plain offsets",
        _ => "",
    };
    let medium = match (how, lent.frame_type) {
        ("unknown frame type" | "audio without nibble 9", _) => "",
        (_, 0) => ", audio",
        (_, 1) => ", video",
        _ => ", Script or Metadata",
    };
    let name = [how, behind, medium].concat();
    let known = CLASSES.iter().find(|known| **known == name);
    known.unwrap_or_else(|| panic!("no frame is of the class {name}"))
}

fn of_refused(payload: &[u8]) -> &'static str {
    match (refused_layers(payload).len(), chain_of(payload).count()) {
        (1, 1) => "offset refused, of the only layer",
        (1, _) => "offset refused, of one of several layers",
        _ => "offsets refused, of several layers",
    }
}

/// Whether the first layer is a plain offset.
fn starts_plain(payload: &[u8]) -> bool {
    matches!(payload, [_, 0x02, 0x00..0x0F, _, _, 0x07, ..])
}
