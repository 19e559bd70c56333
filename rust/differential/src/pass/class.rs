//! The classes of frames, by what the whole pass says about them.

use std::borrow::Cow;

use common::nanoseconds;
use common::requirement::BAD_OFFSET;
use common::sets::of_their_lists;
use hozgrim_sys::HozgrimReport;
use oracle::ModexLayer;
use oracle::ertmp::multitrack_media::foreach_track;
use oracle::starts::record_valid;
use oracle::types::FrameType;
use sheet_check::starts;

use crate::containers::is_left_out;
use crate::modex::{Frame, chain_of};

/// Those of refused offsets stand in fours, by the first layer with one: the only one that is
/// peeled off, the first, one between, the last. From "Script" on they stand in threes: of a
/// payload that is its own result, of a peeled one, and of one that an offset other than 0 is
/// peeled off. A container that names itself is one that the Rust accepts; those that are refused,
/// both refuse. So it is with records that are refused for a type, and others. Where no record is
/// refused otherwise, the Rust takes the frame for a sequence header.
pub const CLASSES: &[&str] = &[
    "refused: frame type above 3",
    "refused: output too short",
    "refused: output too short, peeled",
    "refused: output too short, with a refused offset",
    "refused: one data byte",
    "refused: one data byte, in the first layer",
    "refused: one data byte, in a layer between",
    "refused: one data byte, in the last layer",
    "refused: two data bytes",
    "refused: two data bytes, in the first layer",
    "refused: two data bytes, in a layer between",
    "refused: two data bytes, in the last layer",
    "refused: an offset over 999,999",
    "refused: an offset over 999,999, in the first layer",
    "refused: an offset over 999,999, in a layer between",
    "refused: an offset over 999,999, in the last layer",
    "audio, empty",
    "legacy audio, reserved",
    "legacy audio, AAC start",
    "legacy audio, AAC start refused",
    "legacy audio, AAC without start",
    "legacy audio, other",
    "audio, packet type 7",
    "video, empty",
    "legacy video, AVC start",
    "legacy video, AVC start refused",
    "legacy video, AVC start refused for a type",
    "legacy video, AVC without start",
    "legacy video, other",
    "video, packet type 7",
    "Script",
    "Script, peeled",
    "Script, with an offset",
    "Metadata",
    "Metadata, peeled",
    "Metadata, with an offset",
    "audio, header cut",
    "audio, header cut, peeled",
    "audio, header cut, with an offset",
    "audio start",
    "audio start, peeled",
    "audio start, with an offset",
    "audio start refused",
    "audio start refused, peeled",
    "audio start refused, with an offset",
    "audio start refused for a type",
    "audio start refused for a type, peeled",
    "audio start refused for a type, with an offset",
    "audio, other",
    "audio, other, peeled",
    "audio, other, with an offset",
    "audio container refused",
    "audio container refused, peeled",
    "audio container refused, with an offset",
    "audio container that names itself",
    "audio container that names itself, peeled",
    "audio container that names itself, with an offset",
    "audio container without records",
    "audio container without records, peeled",
    "audio container without records, with an offset",
    "audio container, every record valid",
    "audio container, every record valid, peeled",
    "audio container, every record valid, with an offset",
    "audio container, some records valid",
    "audio container, some records valid, peeled",
    "audio container, some records valid, with an offset",
    "audio container, no record valid",
    "audio container, no record valid, peeled",
    "audio container, no record valid, with an offset",
    "audio container, refused for a type alone",
    "audio container, refused for a type alone, peeled",
    "audio container, refused for a type alone, with an offset",
    "audio container, refused for a type and otherwise",
    "audio container, refused for a type and otherwise, peeled",
    "audio container, refused for a type and otherwise, with an offset",
    "video, header cut",
    "video, header cut, peeled",
    "video, header cut, with an offset",
    "video, time cut",
    "video, time cut, peeled",
    "video, time cut, with an offset",
    "video command",
    "video command, peeled",
    "video command, with an offset",
    "video start",
    "video start, peeled",
    "video start, with an offset",
    "video start refused",
    "video start refused, peeled",
    "video start refused, with an offset",
    "video start refused for a type",
    "video start refused for a type, peeled",
    "video start refused for a type, with an offset",
    "video, other",
    "video, other, peeled",
    "video, other, with an offset",
    "video container refused",
    "video container refused, peeled",
    "video container refused, with an offset",
    "video container that names itself",
    "video container that names itself, peeled",
    "video container that names itself, with an offset",
    "video container without records",
    "video container without records, peeled",
    "video container without records, with an offset",
    "video container, every record valid",
    "video container, every record valid, peeled",
    "video container, every record valid, with an offset",
    "video container, some records valid",
    "video container, some records valid, peeled",
    "video container, some records valid, with an offset",
    "video container, no record valid",
    "video container, no record valid, peeled",
    "video container, no record valid, with an offset",
    "video container, refused for a type alone",
    "video container, refused for a type alone, peeled",
    "video container, refused for a type alone, with an offset",
    "video container, refused for a type and otherwise",
    "video container, refused for a type and otherwise, peeled",
    "video container, refused for a type and otherwise, with an offset",
];

/// The class of a frame that has this result and report.
pub fn class(lent: &Frame, result: Option<&Cow<'_, [u8]>>, report: &HozgrimReport) -> &'static str {
    let number = lent.frame_type;
    let result = match result {
        None => return "refused: frame type above 3",
        Some(Cow::Borrowed(result)) => return of_result(number, result, report),
        Some(Cow::Owned(result)) => result,
    };
    let (_, offset) = nanoseconds::split(report.composition_time_ns);
    let (class, further) = match (report.error, refused_offset(&lent.payload)) {
        (BAD_OFFSET, class) => return class.expect("a layer is refused"),
        (0, None) if offset > 0 => (of_result(number, result, report), ", with an offset"),
        (0, None) => (of_result(number, result, report), ", peeled"),
        (_, None) => ("refused: output too short", ", peeled"),
        (_, Some(_)) => ("refused: output too short", ", with a refused offset"),
    };
    let behind = CLASSES.iter().skip_while(|known| **known != class);
    let found = behind.skip(1).take(2);
    let mut found = found.filter(|known| known.strip_prefix(class) == Some(further));
    found
        .next()
        .unwrap_or_else(|| panic!("no payload peels to {class}{further}"))
}

/// The class of a chain with an offset that is refused, by the first layer that has one.
fn refused_offset(payload: &[u8]) -> Option<&'static str> {
    let &(at, class) = refused_layers(payload).first()?;
    let further = match (at, chain_of(payload).count() - 1) {
        (0, 0) => 0,
        (0, _) => 1,
        (at, last) if at < last => 2,
        _ => 3,
    };
    let first = CLASSES.iter().position(|known| *known == class);
    Some(CLASSES[first.expect("the class is listed") + further])
}

/// The layers with an offset that is refused, each with its number, from 0 on, and its class.
pub fn refused_layers(payload: &[u8]) -> Vec<(usize, &'static str)> {
    let data = |layer: &ModexLayer| &payload[layer.data_start..layer.data_end];
    let fault = |layer: &ModexLayer| match (layer.modex_type, data(layer)) {
        (0, [_]) => Some("refused: one data byte"),
        (0, [_, _]) => Some("refused: two data bytes"),
        // The bytes are those of 999,999.
        (0, data) if data[..3] > b"\x0F\x42\x3F"[..] => Some("refused: an offset over 999,999"),
        _ => None,
    };
    let layers = chain_of(payload).enumerate();
    let faults = layers.filter_map(|(at, (_, layer))| Some((at, fault(&layer)?)));
    faults.collect()
}

fn of_result(number: u32, result: &[u8], report: &HozgrimReport) -> &'static str {
    match (report.error, number) {
        (0, 0) => audio(result, report),
        (0, 1) => video(result, report),
        (0, 2) => "Script",
        (0, _) => "Metadata",
        _ => "refused: output too short",
    }
}

/// How many records are judged, and how many of them are valid.
#[derive(Clone, Copy)]
enum Records {
    None,
    AllValid,
    SomeValid,
    NoneValid,
    /// Those that are refused, if there is one, are so for a type.
    ForATypeAlone,
    /// Besides, another one is refused.
    ForATypeToo,
}

fn records(known: FrameType, result: &[u8], report: &HozgrimReport) -> Records {
    match (report.records, report.valid_records) {
        (0, _) => Records::None,
        (records, valid) if records == valid => Records::AllValid,
        _ if starts::is_left_out(known, result) => Records::ForATypeAlone,
        _ if holds_misnamed(known, result) => Records::ForATypeToo,
        (_, 0) => Records::NoneValid,
        _ => Records::SomeValid,
    }
}

/// Whether a container of starts has a record that the Rust accepts and request N7 refuses.
fn holds_misnamed(known: FrameType, result: &[u8]) -> bool {
    let mut found = false;
    foreach_track(known, result, |track| {
        let accepted = record_valid(known, &track.fourcc, track.payload);
        found |= accepted && !of_their_lists(&track.fourcc, track.payload);
    });
    found
}

fn audio(result: &[u8], report: &HozgrimReport) -> &'static str {
    let records = records(FrameType::Audio, result, report);
    match (report.header_error, report.is_ex_header) {
        (0, 0) => match (records, result[0] >> 4) {
            (Records::None, 10) => "legacy audio, AAC without start",
            (Records::None, _) => "legacy audio, other",
            (Records::AllValid, _) => "legacy audio, AAC start",
            _ => "legacy audio, AAC start refused",
        },
        (0, _) if report.tracks > 0 => match records {
            Records::None => "audio container without records",
            Records::AllValid => "audio container, every record valid",
            Records::SomeValid => "audio container, some records valid",
            Records::NoneValid => "audio container, no record valid",
            Records::ForATypeAlone => "audio container, refused for a type alone",
            Records::ForATypeToo => "audio container, refused for a type and otherwise",
        },
        (0, _) => match (records, report.packet_type) {
            (Records::None, 5) if is_left_out(FrameType::Audio, result) => {
                "audio container that names itself"
            }
            (Records::None, 5) => "audio container refused",
            (Records::None, 7) => "audio, packet type 7",
            (Records::None, _) => "audio, other",
            (Records::AllValid, _) => "audio start",
            (Records::ForATypeAlone, _) => "audio start refused for a type",
            _ => "audio start refused",
        },
        (-7, _) => "legacy audio, reserved",
        _ if result.is_empty() => "audio, empty",
        _ => "audio, header cut",
    }
}

fn video(result: &[u8], report: &HozgrimReport) -> &'static str {
    let records = records(FrameType::Video, result, report);
    match (report.header_error, report.is_ex_header) {
        (0, 0) => match (records, result[0] & 0x0F) {
            (Records::None, 7) => "legacy video, AVC without start",
            (Records::None, _) => "legacy video, other",
            (Records::AllValid, _) => "legacy video, AVC start",
            (Records::ForATypeAlone, _) => "legacy video, AVC start refused for a type",
            _ => "legacy video, AVC start refused",
        },
        (0, _) if report.tracks > 0 => match records {
            Records::None => "video container without records",
            Records::AllValid => "video container, every record valid",
            Records::SomeValid => "video container, some records valid",
            Records::NoneValid => "video container, no record valid",
            Records::ForATypeAlone => "video container, refused for a type alone",
            Records::ForATypeToo => "video container, refused for a type and otherwise",
        },
        (0, _) => match (records, report.packet_type) {
            _ if report.header_size == 2 => "video command",
            (Records::None, 6) if is_left_out(FrameType::Video, result) => {
                "video container that names itself"
            }
            (Records::None, 6) => "video container refused",
            (Records::None, 7) => "video, packet type 7",
            (Records::None, _) => "video, other",
            (Records::AllValid, _) => "video start",
            (Records::ForATypeAlone, _) => "video start refused for a type",
            _ => "video start refused",
        },
        (_, 0) => "video, empty",
        _ if report.header_size == 5 => "video, time cut",
        _ => "video, header cut",
    }
}
