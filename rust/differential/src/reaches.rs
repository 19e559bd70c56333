//! Calls every function of the Rust files that is in scope. That this program links shows that
//! none of them reaches a stand-in of the oracle.

use std::hint::black_box;

use oracle::ertmp::exaudio::exaudio_parse;
use oracle::ertmp::exvideo::{exvideo_parse, fourcc_parse};
use oracle::ertmp::fourcc::fourcc_to_audio_codec;
use oracle::ertmp::modex::{modex_parse, modex_parse_prefix};
use oracle::ertmp::multitrack::multitrack_parse;
use oracle::ertmp::multitrack_media::*;
use oracle::media::codec_config::*;
use oracle::media::delivery::DeliveryHint;
use oracle::media::init_cache::classify_cache_frame;
use oracle::media::modex::{normalize_modex_payload, normalize_modex_payload_with_frame_type};
use oracle::parse_modex_layer;
use oracle::types::{AudioHeader, FrameType, Modex, Multitrack, VideoHeader};

/// Calls each function once, with values that the compiler cannot foresee.
pub fn call_each() {
    let bytes: &[u8] = black_box(&[0x97, 0x00, 0xAA, 0x01]);
    let frame_type = black_box(FrameType::Audio);
    call_headers(bytes);
    call_modex(bytes, frame_type);
    call_tracks(bytes, frame_type);
    call_records(bytes);
    call_verdicts(bytes, frame_type);
}

fn call_headers(bytes: &[u8]) {
    reach(fourcc_to_audio_codec(bytes));
    reach(fourcc_parse(bytes));
    reach(exvideo_parse(bytes, &mut VideoHeader::default()));
    reach(exaudio_parse(bytes, &mut AudioHeader::default()));
}

fn call_modex(bytes: &[u8], frame_type: FrameType) {
    let mask = black_box(4);
    let peeled = normalize_modex_payload_with_frame_type(bytes, mask, frame_type);
    reach(peeled);
    reach(normalize_modex_payload(bytes, mask));
    reach(parse_modex_layer(bytes, 1));
    reach(modex_parse(&mut Modex::default(), bytes));
    reach(modex_parse_prefix(&mut Modex::default(), bytes));
}

fn call_tracks(bytes: &[u8], frame_type: FrameType) {
    reach(multitrack_parse(&mut Multitrack::default(), bytes));
    reach(is_multitrack_container(frame_type, bytes));
    reach(foreach_track(frame_type, bytes, |track| reach(track)));
    reach(first_track_fourcc(frame_type, bytes));
    reach(multitrack_has_sequence_start(frame_type, bytes));
    reach(multitrack_has_metadata(frame_type, bytes));
    reach(multitrack_has_keyframe(bytes));
}

fn call_records(bytes: &[u8]) {
    let codec = ConfigCodec::from_fourcc(bytes);
    reach(validate_config_record(codec, bytes));
    reach(validate_aac_config(bytes));
    reach(validate_avc_record(bytes));
    reach(validate_hevc_record(bytes));
}

fn call_verdicts(bytes: &[u8], frame_type: FrameType) {
    reach(classify_cache_frame(frame_type, bytes));
    let hint = DeliveryHint::classify(frame_type, bytes, black_box(true));
    reach(DeliveryHint::from_u8(hint.to_u8()));
}

/// Keeps the call that gave this answer.
fn reach<T>(answer: T) {
    black_box(answer);
}
