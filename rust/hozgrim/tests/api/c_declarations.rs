//! The structs and entries of `include/hozgrim.h` are those of `hozgrim-sys`.

use std::collections::BTreeMap;
use std::mem::offset_of;

use hozgrim_sys::{
    HozgrimColumns, HozgrimLate, HozgrimLengths, HozgrimOffer, HozgrimPlaced, HozgrimReport,
    HozgrimSplitTime, HozgrimStored,
};

const HEADER: &str = include_str!("../../../../include/hozgrim.h");

const BINDINGS: &str = include_str!("../../../hozgrim-sys/src/lib.rs");

/// What a name declares: fields, or arguments and then the answer. All of it as Rust writes it.
type Declarations = BTreeMap<String, Vec<String>>;

/// The header in one line, without comments and what the preprocessor reads.
fn header() -> String {
    let mut text = String::new();
    let lines = HEADER.lines().filter(|line| !line.starts_with('#'));
    let lines = lines.collect::<Vec<_>>().join(" ");
    for part in lines.split("*/") {
        text += part.split("/*").next().unwrap_or_default();
    }
    text.split_whitespace().collect::<Vec<_>>().join(" ")
}

/// Of a C type and the name behind it.
fn declared(text: &str) -> String {
    let text = text.trim();
    let name = text.rfind([' ', '*']).expect("a type and a name") + 1;
    let (kind, name) = text.split_at(name);
    let kind = match kind.trim().strip_suffix('*').map(str::trim) {
        None => in_rust(kind.trim()).into(),
        Some(lent) => match lent.strip_prefix("const ") {
            None => format!("*mut {}", in_rust(lent)),
            Some(lent) => format!("*const {}", in_rust(lent)),
        },
    };
    match name.trim_end_matches(']').split_once('[') {
        None => format!("{name}: {kind}"),
        Some((name, count)) => format!("{name}: [{kind}; {count}]"),
    }
}

/// Of the name of a number or of a struct.
fn in_rust(name: &str) -> &str {
    match name {
        "uint8_t" => "u8",
        "uint32_t" => "u32",
        "int32_t" => "i32",
        "int64_t" => "i64",
        "size_t" => "usize",
        _ if name.starts_with("Hozgrim") => name,
        other => panic!("{other:?} is neither"),
    }
}

fn of_header() -> Declarations {
    let text = header();
    let structs = text.split("typedef struct {").skip(1).map(|text| {
        let (fields, rest) = text.split_once('}').expect("an end");
        let name = rest.split(';').next().expect("a name").trim();
        let fields = fields.trim().trim_end_matches(';').split(';');
        (name.into(), fields.map(declared).collect())
    });
    let entries = text.split([';', '}']).filter_map(|text| {
        let (front, arguments) = text.trim().strip_suffix(')')?.split_once('(')?;
        let (answer, name) = front.split_once(' ')?;
        if answer == "return" {
            return None; // A call in a function of the header.
        }
        let arguments = arguments.split(',').map(declared);
        let answer = format!("-> {}", in_rust(answer));
        Some((name.into(), arguments.chain([answer]).collect()))
    });
    structs.chain(entries).collect()
}

fn of_bindings() -> Declarations {
    let words: Vec<&str> = BINDINGS.split_whitespace().collect();
    let text = words.join(" ").replace("pub safe fn ", "pub fn ");
    let list = |text: &str| -> Vec<String> {
        let items = text.split(", ").map(|item| item.trim_matches([',', ' ']));
        let items = items.filter(|item| !item.is_empty());
        items
            .map(|item| item.trim_start_matches("pub ").into())
            .collect()
    };
    let structs = text.split("pub struct Hozgrim").skip(1).map(|text| {
        let (name, rest) = text.split_once('{').expect("fields");
        let fields = rest.split('}').next().expect("an end");
        (format!("Hozgrim{}", name.trim()), list(fields))
    });
    let entries = text.split("pub fn hozgrim_").skip(1).map(|text| {
        let (name, rest) = text.split_once('(').expect("arguments");
        let (arguments, rest) = rest.split_once(')').expect("an end");
        let answer = rest.split(';').next().expect("an answer").trim();
        let all = list(arguments).into_iter().chain([answer.into()]);
        (format!("hozgrim_{name}"), all.collect())
    });
    structs.chain(entries).collect()
}

#[test]
fn the_declarations_are_those_of_the_bindings() {
    let declared = of_header();
    assert_eq!(declared, of_bindings());
    assert_eq!(declared.len(), 14 + 18);
    let written = ["error: i32", "length: usize"];
    assert_eq!(declared["HozgrimWritten"], written);
    let next = ["file: *const u8", "file_len: usize", "at: usize"];
    assert_eq!(declared["hozgrim_flv_next"][..3], next);
    assert_eq!(declared["hozgrim_flv_next"][3], "-> HozgrimFlvFrame");
    let split = ["ns: i64", "-> HozgrimSplitTime"];
    assert_eq!(declared["hozgrim_split_time"], split);
    let placed = ["report: HozgrimReport", "start: usize"];
    assert_eq!(declared["HozgrimPlaced"], placed);
    let in_place = &declared["hozgrim_pass_in_place"];
    assert_eq!(in_place[1..3], ["payload: *mut u8", "payload_len: usize"]);
    assert_eq!(in_place[5], "-> HozgrimPlaced");
    let [store_frame, late] = ["hozgrim_store_frame", "hozgrim_late"].map(|name| &declared[name]);
    assert_eq!(store_frame[0], "lengths: *mut HozgrimLengths");
    assert_eq!(store_frame[14], "-> HozgrimStored");
    assert_eq!(late[0], "lengths: HozgrimLengths");
    assert_eq!(late[8], "-> HozgrimLate");
    let walk = &declared["hozgrim_walk_columns"];
    assert_eq!(walk[5..7], ["fourccs: *mut u32", "fourccs_len: usize"]);
    assert_eq!(walk[11], "-> HozgrimColumns");
    let read = &declared["hozgrim_column_track"];
    assert_eq!(read[6..8], ["starts: *const usize", "starts_len: usize"]);
    assert_eq!(read[13], "-> HozgrimTrack");
    let tick = &declared["hozgrim_uplink_tick"];
    assert_eq!(
        tick[2..],
        ["credits: *mut i32", "credits_len: usize", "-> i32"]
    );
    let offer = &declared["hozgrim_uplink_offer"];
    assert_eq!(offer[6..8], ["waiting: *mut u8", "waiting_len: usize"]);
    assert_eq!(offer[8], "-> HozgrimOffer");
}

/// Where fields stand: in the report the time behind the header's size, and padding at the end.
#[test]
fn layouts_with_a_time() {
    assert_eq!(size_of::<HozgrimReport>(), 80);
    assert_eq!(offset_of!(HozgrimReport, header_size), 48);
    assert_eq!(offset_of!(HozgrimReport, composition_time_ns), 56);
    assert_eq!(offset_of!(HozgrimReport, is_ex_header), 64);
    assert_eq!(offset_of!(HozgrimReport, fourcc), 72);
    assert_eq!(size_of::<HozgrimSplitTime>(), 16);
    assert_eq!(offset_of!(HozgrimSplitTime, offset), 8);
}

/// The padding of the report is there inside another struct too, and before it the error's.
#[test]
fn layouts_with_a_report() {
    assert_eq!(size_of::<HozgrimPlaced>(), 88);
    assert_eq!(offset_of!(HozgrimPlaced, report), 0);
    assert_eq!(offset_of!(HozgrimPlaced, start), 80);
    assert_eq!(size_of::<HozgrimStored>(), 88);
    assert_eq!(offset_of!(HozgrimStored, error), 0);
    assert_eq!(offset_of!(HozgrimStored, report), 8);
}

/// The record is three numbers in a row, as an array of them is.
#[test]
fn layouts_of_a_store() {
    assert_eq!(size_of::<HozgrimLengths>(), 24);
    assert_eq!(offset_of!(HozgrimLengths, video), 0);
    assert_eq!(offset_of!(HozgrimLengths, audio), 8);
    assert_eq!(offset_of!(HozgrimLengths, keyframe), 16);
    assert_eq!(size_of::<HozgrimLate>(), 24);
    assert_eq!(offset_of!(HozgrimLate, count), 0);
    assert_eq!(offset_of!(HozgrimLate, length), 8);
    assert_eq!(offset_of!(HozgrimLate, kind), 16);
}

/// The error's padding stands before the count.
#[test]
fn layouts_of_columns() {
    assert_eq!(size_of::<HozgrimColumns>(), 16);
    assert_eq!(offset_of!(HozgrimColumns, error), 0);
    assert_eq!(offset_of!(HozgrimColumns, count), 8);
}

/// Two numbers without padding.
#[test]
fn layouts_of_an_uplink() {
    assert_eq!(size_of::<HozgrimOffer>(), 8);
    assert_eq!(offset_of!(HozgrimOffer, error), 0);
    assert_eq!(offset_of!(HozgrimOffer, decision), 4);
}

/// Calls that lend something go by functions that take NULL.
#[test]
fn every_entry_with_a_pointer_takes_null_where_a_length_is_0() {
    let lent = HEADER.lines().filter_map(|line| {
        let (name, lent) = line.strip_prefix("#define ")?.split_once(' ')?;
        (lent == format!("{name}_lent")).then_some(name)
    });
    let mut lent: Vec<&str> = lent.collect();
    lent.sort_unstable();
    let declared = of_header().into_iter();
    let lends = declared.filter(|(_, items)| items.iter().any(|item| item.contains(": *")));
    let lends: Vec<String> = lends.map(|(name, _)| name).collect();
    assert_eq!(lends, lent);
    assert_eq!(lends.len(), 17);
}
