//! What the program must print for the operations whose answers it prints.

use common::requirement::{OUTPUT_TOO_SHORT, UNKNOWN_FRAME_TYPE};
use oracle::FRAME_TYPES;
use oracle::ertmp::exvideo::fourcc_parse;
use oracle::ertmp::fourcc::fourcc_to_audio_codec;
use oracle::ertmp::modex::modex_parse_prefix;
use oracle::ertmp::multitrack_media::{
    is_multitrack_container, multitrack_has_keyframe, multitrack_has_metadata,
    multitrack_has_sequence_start,
};
use oracle::media::codec_config::validate_aac_config;
use oracle::media::modex::normalize_modex_payload_with_frame_type;
use oracle::types::Modex;
use sheet_check::starts::kind_and_hint;

use super::{Case, FILLING, Operation};
use crate::containers::{first_fourcc, requested_track};
use crate::leaf::{LeafAudioHeader, LeafMultitrack, LeafTrack, LeafVideoHeader};
use crate::records::{avc_valid, hevc_valid};
use crate::starts::Start;
use crate::{descriptor, exaudio, exvideo};

pub fn line(case: &Case) -> String {
    match case.operation {
        Operation::FrameType => frame_type(case.number),
        Operation::Fourcc => fourcc(&case.payload),
        Operation::Peel => peel(case),
        Operation::ModexPrefix => modex_prefix(&case.payload),
        Operation::Exvideo => video(&case.payload),
        Operation::Exaudio => audio(&case.payload),
        Operation::Record => record(&case.payload),
        Operation::Start => start(case),
        Operation::Descriptor => track_descriptor(&case.payload),
        Operation::Container => container(case),
        Operation::Classify => classify(case),
    }
}

fn frame_type(number: u32) -> String {
    let mut known = FRAME_TYPES.into_iter().map(|known| known as u32);
    match known.find(|known| *known == number) {
        Some(known) => format!("frame type 0 {known}"),
        None => format!("frame type {UNKNOWN_FRAME_TYPE}"),
    }
}

/// Beside a refusal the FourCC is 0.
fn fourcc(data: &[u8]) -> String {
    let (error, fourcc) = match fourcc_parse(data) {
        Ok(fourcc) => (0, fourcc),
        Err(error) => (error as i32, [0; 5]),
    };
    let codec = match fourcc_to_audio_codec(data) {
        Ok(codec) => format!("0 {}", codec as u8),
        Err(error) => format!("{}", error as i32),
    };
    let fourcc = hex(&fourcc[..4]);
    format!("fourcc_parse {error} {fourcc} fourcc_to_audio_codec {codec}")
}

/// With the output afterwards: the result and then the bytes that it has kept, or only those.
fn peel(case: &Case) -> String {
    let result =
        normalize_modex_payload_with_frame_type(&case.payload, case.number, case.frame_type);
    let mut output = vec![FILLING; case.room];
    let answer = match output.get_mut(..result.len()) {
        Some(front) => {
            front.copy_from_slice(&result);
            format!("0 {}", result.len())
        }
        None => format!("{OUTPUT_TOO_SHORT}"),
    };
    let output = hex(&output);
    format!("normalize_modex_payload_with_frame_type {answer} {output}")
}

/// With the Modex afterwards; beside a refusal no byte is consumed.
fn modex_prefix(payload: &[u8]) -> String {
    let mut modex = Modex::default();
    let (error, consumed) = match modex_parse_prefix(&mut modex, payload) {
        Ok(consumed) => (0, consumed),
        Err(error) => (error as i32, 0),
    };
    let (modex_type, offset) = (modex.modex_type as u8, modex.offset);
    let next = modex.next_packet_type;
    format!("modex_parse_prefix {error} {consumed} {modex_type} {offset} {next}")
}

fn video(payload: &[u8]) -> String {
    let (header, _) = exvideo::of_rust(payload);
    let LeafVideoHeader {
        error,
        is_ex_header,
        packet_type,
        frame_type,
        fourcc,
        composition_time,
        header_size,
    } = header;
    let fourcc = hex(&fourcc);
    format!(
        "exvideo_parse {error} {fourcc} {is_ex_header} {packet_type} {frame_type} \
         {composition_time} {header_size}"
    )
}

fn audio(payload: &[u8]) -> String {
    let (header, _) = exaudio::of_rust(payload);
    let LeafAudioHeader {
        error,
        is_ex_header,
        packet_type,
        audio_codec,
        sample_rate,
        sample_size,
        channels,
        aac_packet_type,
        fourcc,
        header_size,
    } = header;
    let fourcc = hex(&fourcc);
    format!(
        "exaudio_parse {error} {fourcc} {is_ex_header} {packet_type} {audio_codec} \
         {sample_rate} {sample_size} {channels} {aac_packet_type} {header_size}"
    )
}

/// A verdict is 1 or 0.
fn record(record: &[u8]) -> String {
    let avc = u8::from(avc_valid(record));
    let hevc = u8::from(hevc_valid(record));
    let aac = u8::from(validate_aac_config(record));
    format!("validate_avc_record {avc} validate_hevc_record {hevc} validate_aac_config {aac}")
}

/// The payload is a FourCC and a record. The rule is private in the Rust, so the verdict is that of
/// a frame around them.
fn start(case: &Case) -> String {
    let (fourcc, record) = case.payload.split_first_chunk().expect("there is a FourCC");
    let start = Start {
        frame_type: case.frame_type,
        fourcc: *fourcc,
        record: record.to_vec(),
    };
    let valid = u8::from(start.is_valid());
    format!("sequence_start_config_valid {valid}")
}

fn track_descriptor(payload: &[u8]) -> String {
    let LeafMultitrack {
        error,
        track_type,
        track_name,
    } = descriptor::of_rust(payload);
    let track_name = hex(&track_name);
    format!("multitrack_parse {error} {track_name} {track_type}")
}

/// The number is that of a track. Beside a refusal its body is empty.
fn container(case: &Case) -> String {
    let (frame_type, payload) = (case.frame_type, &case.payload[..]);
    let container = u8::from(is_multitrack_container(frame_type, payload));
    let first = first_fourcc(frame_type, payload);
    let found = u8::from(first.is_some());
    let first = hex(&first.unwrap_or_default());
    let start_of_sequence = u8::from(multitrack_has_sequence_start(frame_type, payload));
    let metadata = u8::from(multitrack_has_metadata(frame_type, payload));
    let keyframe = u8::from(multitrack_has_keyframe(payload));
    let LeafTrack {
        error,
        fourcc,
        count,
        start,
        length,
        track_id,
        packet_type,
        video_frame_type,
    } = requested_track(frame_type, payload, case.number as usize);
    let fourcc = hex(&fourcc);
    let body = hex(&payload[start..start + length]);
    format!(
        "is_multitrack_container {container} first_track_fourcc {found} {first} \
         multitrack_has_sequence_start {start_of_sequence} multitrack_has_metadata {metadata} \
         multitrack_has_keyframe {keyframe} track {error} {count} {track_id} {packet_type} \
         {fourcc} {video_frame_type} {start} {body}"
    )
}

/// The number is the route flag.
fn classify(case: &Case) -> String {
    let (frame_type, payload) = (case.frame_type, &case.payload[..]);
    let (kind, hint) = kind_and_hint(frame_type, payload, case.number != 0);
    format!("classify_cache_frame {kind} DeliveryHint::classify {hint}")
}

pub fn hex(bytes: &[u8]) -> String {
    bytes.iter().map(|byte| format!("{byte:02x}")).collect()
}
