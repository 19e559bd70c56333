//! The port's test entries: the crate `leaf_exports`, linked as an archive.

/// What `fourcc_parse` answers. `error` is 0 or the number of the Rust's error; then the rest is 0.
#[repr(C)]
pub struct LeafFourcc {
    pub error: i32,
    pub fourcc: [u8; 4],
}

/// What `fourcc_to_audio_codec` answers; `error` as above.
#[repr(C)]
pub struct LeafAudioCodec {
    pub error: i32,
    pub codec: u8,
}

/// What `parse_modex_layer` answers. `error` is 0, or -1 where the Rust says `None`; then the rest
/// is 0.
#[derive(Debug, PartialEq)]
#[repr(C)]
pub struct LeafLayer {
    pub error: i32,
    pub modex_type: u8,
    pub next_packet_type: u8,
    pub data_start: usize,
    pub data_end: usize,
    pub next_pos: usize,
}

/// What peeling answers: 0 and the length of what it wrote, or an error and the length 0.
#[repr(C)]
pub struct LeafPeel {
    pub error: i32,
    pub length: usize,
}

/// What `modex_parse_prefix` and `modex_parse` answer, the latter with 0 as `consumed`. Beside an
/// error there are 0 as `consumed` and the Modex that was given.
#[derive(Debug, PartialEq)]
#[repr(C)]
pub struct LeafModex {
    pub error: i32,
    pub modex_type: u8,
    pub next_packet_type: u8,
    pub consumed: usize,
    pub offset: u64,
}

/// What `exvideo_parse` answers: `error` as above, and the header as far as it was filled.
#[derive(Debug, PartialEq)]
#[repr(C)]
pub struct LeafVideoHeader {
    pub error: i32,
    pub is_ex_header: u8,
    pub packet_type: u8,
    pub frame_type: u8,
    pub fourcc: [u8; 4],
    pub composition_time: u32,
    pub header_size: usize,
}

/// What `exaudio_parse` answers: `error` as above, and the header.
#[derive(Debug, PartialEq)]
#[repr(C)]
pub struct LeafAudioHeader {
    pub error: i32,
    pub is_ex_header: u8,
    pub packet_type: u8,
    pub audio_codec: u8,
    pub sample_rate: u8,
    pub sample_size: u8,
    pub channels: u8,
    pub aac_packet_type: u8,
    pub fourcc: [u8; 4],
    pub header_size: usize,
}

/// What `multitrack_parse` answers: `error` as above, and the descriptor as far as it was filled.
#[derive(Debug, PartialEq)]
#[repr(C)]
pub struct LeafMultitrack {
    pub error: i32,
    pub track_type: u8,
    pub track_name: [u8; 64],
}

/// What `track_count` answers: `error` as above, and the number of tracks.
#[derive(Debug, PartialEq)]
#[repr(C)]
pub struct LeafCount {
    pub error: i32,
    pub count: usize,
}

/// What `track_info` answers: `error` as above. Beside an error there is the count, if the payload
/// is an accepted container, and the rest is 0.
#[derive(Clone, Copy, Debug, Default, PartialEq)]
#[repr(C)]
pub struct LeafTrack {
    pub error: i32,
    pub fourcc: [u8; 4],
    pub count: usize,
    pub start: usize,
    pub length: usize,
    pub track_id: u8,
    pub packet_type: u8,
    pub video_frame_type: u8,
}

/// What `first_track_fourcc` answers. Without a track the FourCC is 0.
#[derive(Debug, PartialEq)]
#[repr(C)]
pub struct LeafFirst {
    pub found: bool,
    pub fourcc: [u8; 4],
}

/// What `classify_cache_frame`, `DeliveryHint::classify` and `DeliveryHint::from_u8` answer:
/// `error` as above, and the number of the kind or hint. `from_u8` has -1 where the Rust says
/// `None`.
#[derive(Debug, PartialEq)]
#[repr(C)]
pub struct LeafNumber {
    pub error: i32,
    pub value: u8,
}

// A lent slice is a pointer, not null even if the slice is empty, and a length. Its bytes are all
// that an entry reads or writes. A lent array is a pointer.
unsafe extern "C" {
    fn leaf_fourcc_parse(data: *const u8, len: usize) -> LeafFourcc;
    fn leaf_fourcc_to_audio_codec(fourcc: *const u8, len: usize) -> LeafAudioCodec;
    fn leaf_parse_modex_layer(payload: *const u8, len: usize, pos: usize) -> LeafLayer;
    fn leaf_normalize_modex_payload(
        payload: *const u8,
        len: usize,
        mask: u32,
        output: *mut u8,
        room: usize,
    ) -> LeafPeel;
    fn leaf_normalize_modex_payload_with_frame_type(
        payload: *const u8,
        len: usize,
        mask: u32,
        number: u32,
        output: *mut u8,
        room: usize,
    ) -> LeafPeel;
    fn leaf_modex_parse_prefix(
        number: u8,
        offset: u64,
        next: u8,
        payload: *const u8,
        len: usize,
    ) -> LeafModex;
    fn leaf_modex_parse(
        number: u8,
        offset: u64,
        next: u8,
        payload: *const u8,
        len: usize,
    ) -> LeafModex;
    fn leaf_exvideo_parse(payload: *const u8, len: usize) -> LeafVideoHeader;
    fn leaf_exaudio_parse(payload: *const u8, len: usize) -> LeafAudioHeader;
    fn leaf_validate_avc_record(record: *const u8, len: usize) -> bool;
    fn leaf_validate_hevc_record(record: *const u8, len: usize) -> bool;
    fn leaf_validate_aac_config(record: *const u8, len: usize) -> bool;
    fn leaf_config_codec_from_fourcc(fourcc: *const u8, len: usize) -> u8;
    fn leaf_validate_config_record(number: u8, record: *const u8, len: usize) -> bool;
    fn leaf_sequence_start_config_valid(
        number: u32,
        fourcc: *const [u8; 4],
        record: *const u8,
        len: usize,
    ) -> bool;
    fn leaf_multitrack_parse(payload: *const u8, len: usize) -> LeafMultitrack;
    fn leaf_track_count(number: u32, payload: *const u8, len: usize) -> LeafCount;
    fn leaf_track_info(number: u32, payload: *const u8, len: usize, track: usize) -> LeafTrack;
    fn leaf_is_multitrack_container(number: u32, payload: *const u8, len: usize) -> bool;
    fn leaf_first_track_fourcc(number: u32, payload: *const u8, len: usize) -> LeafFirst;
    fn leaf_multitrack_has_sequence_start(number: u32, payload: *const u8, len: usize) -> bool;
    fn leaf_multitrack_has_metadata(number: u32, payload: *const u8, len: usize) -> bool;
    fn leaf_multitrack_has_keyframe(payload: *const u8, len: usize) -> bool;
    fn leaf_classify_cache_frame(number: u32, payload: *const u8, len: usize) -> LeafNumber;
    fn leaf_delivery_hint_classify(
        number: u32,
        payload: *const u8,
        len: usize,
        route_has_video: u32,
    ) -> LeafNumber;
    safe fn leaf_delivery_hint_from_u8(code: u8) -> LeafNumber;
    safe fn leaf_a_law(code: u8) -> i16;
    safe fn leaf_mu_law(code: u8) -> i16;
}

pub fn fourcc_parse(data: &[u8]) -> LeafFourcc {
    // SAFETY: pointer and length are those of a slice.
    unsafe { leaf_fourcc_parse(data.as_ptr(), data.len()) }
}

pub fn fourcc_to_audio_codec(fourcc: &[u8]) -> LeafAudioCodec {
    // SAFETY: pointer and length are those of a slice.
    unsafe { leaf_fourcc_to_audio_codec(fourcc.as_ptr(), fourcc.len()) }
}

pub fn parse_modex_layer(payload: &[u8], pos: usize) -> LeafLayer {
    // SAFETY: pointer and length are those of a slice.
    unsafe { leaf_parse_modex_layer(payload.as_ptr(), payload.len(), pos) }
}

pub fn normalize_modex_payload(payload: &[u8], mask: u32, output: &mut [u8]) -> LeafPeel {
    // SAFETY: pointers and lengths are those of slices.
    unsafe {
        leaf_normalize_modex_payload(
            payload.as_ptr(),
            payload.len(),
            mask,
            output.as_mut_ptr(),
            output.len(),
        )
    }
}

pub fn normalize_modex_payload_with_frame_type(
    payload: &[u8],
    mask: u32,
    number: u32,
    output: &mut [u8],
) -> LeafPeel {
    // SAFETY: pointers and lengths are those of slices.
    unsafe {
        leaf_normalize_modex_payload_with_frame_type(
            payload.as_ptr(),
            payload.len(),
            mask,
            number,
            output.as_mut_ptr(),
            output.len(),
        )
    }
}

pub fn modex_parse_prefix(number: u8, offset: u64, next: u8, payload: &[u8]) -> LeafModex {
    // SAFETY: pointer and length are those of a slice.
    unsafe { leaf_modex_parse_prefix(number, offset, next, payload.as_ptr(), payload.len()) }
}

pub fn modex_parse(number: u8, offset: u64, next: u8, payload: &[u8]) -> LeafModex {
    // SAFETY: pointer and length are those of a slice.
    unsafe { leaf_modex_parse(number, offset, next, payload.as_ptr(), payload.len()) }
}

pub fn exvideo_parse(payload: &[u8]) -> LeafVideoHeader {
    // SAFETY: pointer and length are those of a slice.
    unsafe { leaf_exvideo_parse(payload.as_ptr(), payload.len()) }
}

pub fn exaudio_parse(payload: &[u8]) -> LeafAudioHeader {
    // SAFETY: pointer and length are those of a slice.
    unsafe { leaf_exaudio_parse(payload.as_ptr(), payload.len()) }
}

pub fn validate_avc_record(record: &[u8]) -> bool {
    // SAFETY: pointer and length are those of a slice.
    unsafe { leaf_validate_avc_record(record.as_ptr(), record.len()) }
}

pub fn validate_hevc_record(record: &[u8]) -> bool {
    // SAFETY: pointer and length are those of a slice.
    unsafe { leaf_validate_hevc_record(record.as_ptr(), record.len()) }
}

pub fn validate_aac_config(record: &[u8]) -> bool {
    // SAFETY: pointer and length are those of a slice.
    unsafe { leaf_validate_aac_config(record.as_ptr(), record.len()) }
}

pub fn config_codec_from_fourcc(fourcc: &[u8]) -> u8 {
    // SAFETY: pointer and length are those of a slice.
    unsafe { leaf_config_codec_from_fourcc(fourcc.as_ptr(), fourcc.len()) }
}

pub fn validate_config_record(number: u8, record: &[u8]) -> bool {
    // SAFETY: pointer and length are those of a slice.
    unsafe { leaf_validate_config_record(number, record.as_ptr(), record.len()) }
}

pub fn sequence_start_config_valid(number: u32, fourcc: &[u8; 4], record: &[u8]) -> bool {
    // SAFETY: a pointer to an array; pointer and length are those of a slice.
    unsafe { leaf_sequence_start_config_valid(number, fourcc, record.as_ptr(), record.len()) }
}

pub fn multitrack_parse(payload: &[u8]) -> LeafMultitrack {
    // SAFETY: pointer and length are those of a slice.
    unsafe { leaf_multitrack_parse(payload.as_ptr(), payload.len()) }
}

pub fn track_count(number: u32, payload: &[u8]) -> LeafCount {
    // SAFETY: pointer and length are those of a slice.
    unsafe { leaf_track_count(number, payload.as_ptr(), payload.len()) }
}

pub fn track_info(number: u32, payload: &[u8], track: usize) -> LeafTrack {
    // SAFETY: pointer and length are those of a slice.
    unsafe { leaf_track_info(number, payload.as_ptr(), payload.len(), track) }
}

pub fn is_multitrack_container(number: u32, payload: &[u8]) -> bool {
    // SAFETY: pointer and length are those of a slice.
    unsafe { leaf_is_multitrack_container(number, payload.as_ptr(), payload.len()) }
}

pub fn first_track_fourcc(number: u32, payload: &[u8]) -> LeafFirst {
    // SAFETY: pointer and length are those of a slice.
    unsafe { leaf_first_track_fourcc(number, payload.as_ptr(), payload.len()) }
}

pub fn multitrack_has_sequence_start(number: u32, payload: &[u8]) -> bool {
    // SAFETY: pointer and length are those of a slice.
    unsafe { leaf_multitrack_has_sequence_start(number, payload.as_ptr(), payload.len()) }
}

pub fn multitrack_has_metadata(number: u32, payload: &[u8]) -> bool {
    // SAFETY: pointer and length are those of a slice.
    unsafe { leaf_multitrack_has_metadata(number, payload.as_ptr(), payload.len()) }
}

pub fn multitrack_has_keyframe(payload: &[u8]) -> bool {
    // SAFETY: pointer and length are those of a slice.
    unsafe { leaf_multitrack_has_keyframe(payload.as_ptr(), payload.len()) }
}

pub fn classify_cache_frame(number: u32, payload: &[u8]) -> LeafNumber {
    // SAFETY: pointer and length are those of a slice.
    unsafe { leaf_classify_cache_frame(number, payload.as_ptr(), payload.len()) }
}

pub fn delivery_hint_classify(number: u32, payload: &[u8], route_has_video: u32) -> LeafNumber {
    // SAFETY: pointer and length are those of a slice.
    unsafe { leaf_delivery_hint_classify(number, payload.as_ptr(), payload.len(), route_has_video) }
}

pub fn delivery_hint_from_u8(code: u8) -> LeafNumber {
    leaf_delivery_hint_from_u8(code)
}

pub fn a_law(code: u8) -> i16 {
    leaf_a_law(code)
}

pub fn mu_law(code: u8) -> i16 {
    leaf_mu_law(code)
}
