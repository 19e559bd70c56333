//! Raw bindings to the port's exported entries, and each as a safe function, over slices if it takes
//! pointers. `include/hozgrim.h` says what they answer. The package `hozgrim` gives the same in types
//! of its own.

#![no_std]

/// What the whole pass reports.
#[derive(Clone, Copy, Debug, Default, PartialEq)]
#[repr(C)]
pub struct HozgrimReport {
    pub error: i32,
    pub header_error: i32,
    pub kind: u32,
    pub hint: u32,
    pub result_length: usize,
    pub tracks: usize,
    pub records: usize,
    pub valid_records: usize,
    pub header_size: usize,
    pub composition_time_ns: i64,
    pub is_ex_header: u8,
    pub packet_type: u8,
    pub frame_type: u8,
    pub audio_codec: u8,
    pub sample_rate: u8,
    pub sample_size: u8,
    pub channels: u8,
    pub aac_packet_type: u8,
    pub fourcc: [u8; 4],
}

/// What the whole pass without a copy reports, and where the result starts.
#[derive(Clone, Copy, Debug, Default, PartialEq)]
#[repr(C)]
pub struct HozgrimPlaced {
    pub report: HozgrimReport,
    pub start: usize,
}

/// The record of a store: how many bytes of each slot are held. The default one is empty.
#[derive(Clone, Copy, Debug, Default, PartialEq)]
#[repr(C)]
pub struct HozgrimLengths {
    pub video: usize,
    pub audio: usize,
    pub keyframe: usize,
}

/// What the whole pass reports of a frame that is offered to a store, and whether it could be kept.
#[derive(Clone, Copy, Debug, Default, PartialEq)]
#[repr(C)]
pub struct HozgrimStored {
    pub error: i32,
    pub report: HozgrimReport,
}

/// A frame that is held, by its number.
#[derive(Clone, Copy, Debug, Default, PartialEq)]
#[repr(C)]
pub struct HozgrimLate {
    pub count: usize,
    pub length: usize,
    pub kind: u32,
}

/// Cache kind and delivery hint.
#[derive(Clone, Copy, Debug, Default, PartialEq)]
#[repr(C)]
pub struct HozgrimClass {
    pub error: i32,
    pub kind: u32,
    pub hint: u32,
}

/// A track by its number.
#[derive(Clone, Copy, Debug, Default, PartialEq)]
#[repr(C)]
pub struct HozgrimTrack {
    pub error: i32,
    pub fourcc: u32,
    pub count: usize,
    pub start: usize,
    pub length: usize,
    pub track_id: u8,
    pub packet_type: u8,
    pub video_frame_type: u8,
    pub verdict: u8,
}

/// How many tracks were put into columns.
#[derive(Clone, Copy, Debug, Default, PartialEq)]
#[repr(C)]
pub struct HozgrimColumns {
    pub error: i32,
    pub count: usize,
}

/// What becomes of a frame that is offered to a viewer of a shared uplink.
#[derive(Clone, Copy, Debug, Default, PartialEq)]
#[repr(C)]
pub struct HozgrimOffer {
    pub error: i32,
    pub decision: u32,
}

/// How loud a frame is.
#[derive(Clone, Copy, Debug, Default, PartialEq)]
#[repr(C)]
pub struct HozgrimLevel {
    pub error: i32,
    pub level: u32,
}

/// A composition time in two parts.
#[derive(Clone, Copy, Debug, Default, PartialEq)]
#[repr(C)]
pub struct HozgrimSplitTime {
    pub milliseconds: i64,
    pub offset: u32,
}

/// What a writer wrote.
#[derive(Clone, Copy, Debug, Default, PartialEq)]
#[repr(C)]
pub struct HozgrimWritten {
    pub error: i32,
    pub length: usize,
}

/// Where the tags of an FLV file begin.
#[derive(Clone, Copy, Debug, Default, PartialEq)]
#[repr(C)]
pub struct HozgrimFlvStart {
    pub error: i32,
    pub next: usize,
}

/// The next frame of an FLV file.
#[derive(Clone, Copy, Debug, Default, PartialEq)]
#[repr(C)]
pub struct HozgrimFlvFrame {
    pub error: i32,
    pub found: u32,
    pub frame_type: u32,
    pub timestamp: u32,
    pub start: usize,
    pub length: usize,
    pub next: usize,
}

// A lent slice is a pointer, not null even if the slice is empty, and a length.
unsafe extern "C" {
    pub fn hozgrim_pass(
        frame_type: u32,
        payload: *const u8,
        payload_len: usize,
        caps_ex_mask: u32,
        route_has_video: u32,
        output: *mut u8,
        output_len: usize,
    ) -> HozgrimReport;
    pub fn hozgrim_pass_in_place(
        frame_type: u32,
        payload: *mut u8,
        payload_len: usize,
        caps_ex_mask: u32,
        route_has_video: u32,
    ) -> HozgrimPlaced;
    pub fn hozgrim_store_frame(
        lengths: *mut HozgrimLengths,
        frame_type: u32,
        payload: *const u8,
        payload_len: usize,
        caps_ex_mask: u32,
        route_has_video: u32,
        output: *mut u8,
        output_len: usize,
        video: *mut u8,
        video_len: usize,
        audio: *mut u8,
        audio_len: usize,
        keyframe: *mut u8,
        keyframe_len: usize,
    ) -> HozgrimStored;
    pub fn hozgrim_late(
        lengths: HozgrimLengths,
        video: *const u8,
        video_len: usize,
        audio: *const u8,
        audio_len: usize,
        keyframe: *const u8,
        keyframe_len: usize,
        number: usize,
    ) -> HozgrimLate;
    pub fn hozgrim_classify(
        frame_type: u32,
        payload: *const u8,
        len: usize,
        route_has_video: u32,
    ) -> HozgrimClass;
    pub fn hozgrim_track(
        frame_type: u32,
        payload: *const u8,
        len: usize,
        number: usize,
    ) -> HozgrimTrack;
    pub fn hozgrim_walk_columns(
        frame_type: u32,
        payload: *const u8,
        payload_len: usize,
        ids: *mut u8,
        ids_len: usize,
        fourccs: *mut u32,
        fourccs_len: usize,
        starts: *mut usize,
        starts_len: usize,
        lengths: *mut usize,
        lengths_len: usize,
    ) -> HozgrimColumns;
    pub fn hozgrim_column_track(
        frame_type: u32,
        count: usize,
        ids: *const u8,
        ids_len: usize,
        fourccs: *const u32,
        fourccs_len: usize,
        starts: *const usize,
        starts_len: usize,
        lengths: *const usize,
        lengths_len: usize,
        payload: *const u8,
        payload_len: usize,
        number: usize,
    ) -> HozgrimTrack;
    pub fn hozgrim_uplink_tick(
        viewers: usize,
        uplink: u32,
        credits: *mut i32,
        credits_len: usize,
    ) -> i32;
    pub fn hozgrim_uplink_offer(
        viewers: usize,
        viewer: usize,
        hint: u32,
        length: usize,
        credits: *mut i32,
        credits_len: usize,
        waiting: *mut u8,
        waiting_len: usize,
    ) -> HozgrimOffer;
    pub fn hozgrim_level(frame_type: u32, payload: *const u8, len: usize) -> HozgrimLevel;
    pub safe fn hozgrim_split_time(ns: i64) -> HozgrimSplitTime;
    pub fn hozgrim_write_container(
        frame_type: u32,
        video_frame_type: u32,
        form: u32,
        packet_type: u32,
        count: usize,
        ids: *const u8,
        ids_len: usize,
        fourccs: *const u32,
        fourccs_len: usize,
        starts: *const usize,
        starts_len: usize,
        lengths: *const usize,
        lengths_len: usize,
        bodies: *const u8,
        bodies_len: usize,
        output: *mut u8,
        output_len: usize,
    ) -> HozgrimWritten;
    pub fn hozgrim_write_modex(
        frame_type: u32,
        count: usize,
        types: *const u8,
        types_len: usize,
        starts: *const usize,
        starts_len: usize,
        lengths: *const usize,
        lengths_len: usize,
        data: *const u8,
        data_len: usize,
        payload: *const u8,
        payload_len: usize,
        output: *mut u8,
        output_len: usize,
    ) -> HozgrimWritten;
    pub fn hozgrim_flv_start(file: *const u8, file_len: usize) -> HozgrimFlvStart;
    pub fn hozgrim_flv_next(file: *const u8, file_len: usize, at: usize) -> HozgrimFlvFrame;
    pub fn hozgrim_flv_write_start(output: *mut u8, output_len: usize) -> HozgrimWritten;
    pub fn hozgrim_flv_write_frame(
        frame_type: u32,
        timestamp: u32,
        body: *const u8,
        body_len: usize,
        output: *mut u8,
        output_len: usize,
    ) -> HozgrimWritten;
}

/// `hozgrim_pass`.
pub fn pass(
    frame_type: u32,
    payload: &[u8],
    caps_ex_mask: u32,
    route_has_video: u32,
    output: &mut [u8],
) -> HozgrimReport {
    // SAFETY: pointers and lengths are those of slices, and the second one is borrowed alone.
    unsafe {
        hozgrim_pass(
            frame_type,
            payload.as_ptr(),
            payload.len(),
            caps_ex_mask,
            route_has_video,
            output.as_mut_ptr(),
            output.len(),
        )
    }
}

/// `hozgrim_pass_in_place`.
pub fn pass_in_place(
    frame_type: u32,
    payload: &mut [u8],
    caps_ex_mask: u32,
    route_has_video: u32,
) -> HozgrimPlaced {
    // SAFETY: pointer and length are those of a slice, which is borrowed alone.
    unsafe {
        hozgrim_pass_in_place(
            frame_type,
            payload.as_mut_ptr(),
            payload.len(),
            caps_ex_mask,
            route_has_video,
        )
    }
}

/// The arguments of `hozgrim_store_frame` before the output.
#[derive(Clone, Copy, Debug, Default)]
pub struct StoreCall<'a> {
    pub frame_type: u32,
    pub payload: &'a [u8],
    pub caps_ex_mask: u32,
    pub route_has_video: u32,
}

/// `hozgrim_store_frame`. The buffers are those of video header, audio header and keyframe.
#[inline]
pub fn store_frame(
    lengths: &mut HozgrimLengths,
    call: &StoreCall<'_>,
    output: &mut [u8],
    buffers: [&mut [u8]; 3],
) -> HozgrimStored {
    let [video, audio, keyframe] = buffers;
    // SAFETY: pointers and lengths are those of slices, and all but the payload are borrowed alone.
    unsafe {
        hozgrim_store_frame(
            lengths,
            call.frame_type,
            call.payload.as_ptr(),
            call.payload.len(),
            call.caps_ex_mask,
            call.route_has_video,
            output.as_mut_ptr(),
            output.len(),
            video.as_mut_ptr(),
            video.len(),
            audio.as_mut_ptr(),
            audio.len(),
            keyframe.as_mut_ptr(),
            keyframe.len(),
        )
    }
}

/// `hozgrim_late`. The buffers are those of video header, audio header and keyframe.
pub fn late(lengths: HozgrimLengths, buffers: [&[u8]; 3], number: usize) -> HozgrimLate {
    let [video, audio, keyframe] = buffers;
    // SAFETY: pointers and lengths are those of slices.
    unsafe {
        hozgrim_late(
            lengths,
            video.as_ptr(),
            video.len(),
            audio.as_ptr(),
            audio.len(),
            keyframe.as_ptr(),
            keyframe.len(),
            number,
        )
    }
}

/// `hozgrim_classify`.
pub fn classify(frame_type: u32, payload: &[u8], route_has_video: u32) -> HozgrimClass {
    // SAFETY: pointer and length are those of a slice.
    unsafe { hozgrim_classify(frame_type, payload.as_ptr(), payload.len(), route_has_video) }
}

/// `hozgrim_track`.
pub fn track(frame_type: u32, payload: &[u8], number: usize) -> HozgrimTrack {
    // SAFETY: pointer and length are those of a slice.
    unsafe { hozgrim_track(frame_type, payload.as_ptr(), payload.len(), number) }
}

/// The columns that `hozgrim_walk_columns` fills. Each may have its own length.
#[derive(Debug, Default)]
pub struct ColumnsMut<'a> {
    pub ids: &'a mut [u8],
    pub fourccs: &'a mut [u32],
    pub starts: &'a mut [usize],
    pub lengths: &'a mut [usize],
}

/// `hozgrim_walk_columns`.
#[inline]
pub fn walk_columns(frame_type: u32, payload: &[u8], columns: ColumnsMut<'_>) -> HozgrimColumns {
    let ColumnsMut {
        ids,
        fourccs,
        starts,
        lengths,
    } = columns;
    // SAFETY: pointers and lengths are those of slices, and all but the payload are borrowed alone.
    unsafe {
        hozgrim_walk_columns(
            frame_type,
            payload.as_ptr(),
            payload.len(),
            ids.as_mut_ptr(),
            ids.len(),
            fourccs.as_mut_ptr(),
            fourccs.len(),
            starts.as_mut_ptr(),
            starts.len(),
            lengths.as_mut_ptr(),
            lengths.len(),
        )
    }
}

/// The arguments of `hozgrim_column_track` before the number.
#[derive(Clone, Copy, Debug, Default)]
pub struct ColumnsCall<'a> {
    pub frame_type: u32,
    pub count: usize,
    pub ids: &'a [u8],
    pub fourccs: &'a [u32],
    pub starts: &'a [usize],
    pub lengths: &'a [usize],
    pub payload: &'a [u8],
}

/// `hozgrim_column_track`.
#[inline]
pub fn column_track(call: &ColumnsCall<'_>, number: usize) -> HozgrimTrack {
    // SAFETY: pointers and lengths are those of slices.
    unsafe {
        hozgrim_column_track(
            call.frame_type,
            call.count,
            call.ids.as_ptr(),
            call.ids.len(),
            call.fourccs.as_ptr(),
            call.fourccs.len(),
            call.starts.as_ptr(),
            call.starts.len(),
            call.lengths.as_ptr(),
            call.lengths.len(),
            call.payload.as_ptr(),
            call.payload.len(),
            number,
        )
    }
}

/// `hozgrim_uplink_tick`.
#[inline]
pub fn uplink_tick(viewers: usize, uplink: u32, credits: &mut [i32]) -> i32 {
    // SAFETY: pointer and length are those of a slice, which is borrowed alone.
    unsafe { hozgrim_uplink_tick(viewers, uplink, credits.as_mut_ptr(), credits.len()) }
}

/// What is offered to `hozgrim_uplink_offer`, but for the columns.
#[derive(Clone, Copy, Debug, Default, PartialEq)]
pub struct OfferCall {
    pub viewers: usize,
    pub viewer: usize,
    pub hint: u32,
    pub length: usize,
}

/// `hozgrim_uplink_offer`.
#[inline]
pub fn uplink_offer(call: OfferCall, credits: &mut [i32], waiting: &mut [u8]) -> HozgrimOffer {
    // SAFETY: pointers and lengths are those of slices, which are borrowed alone.
    unsafe {
        hozgrim_uplink_offer(
            call.viewers,
            call.viewer,
            call.hint,
            call.length,
            credits.as_mut_ptr(),
            credits.len(),
            waiting.as_mut_ptr(),
            waiting.len(),
        )
    }
}

/// `hozgrim_level`.
pub fn level(frame_type: u32, payload: &[u8]) -> HozgrimLevel {
    // SAFETY: pointer and length are those of a slice.
    unsafe { hozgrim_level(frame_type, payload.as_ptr(), payload.len()) }
}

/// `hozgrim_split_time`.
pub fn split_time(ns: i64) -> HozgrimSplitTime {
    hozgrim_split_time(ns)
}

/// The arguments of `hozgrim_write_container` before the output.
#[derive(Clone, Copy, Debug, Default)]
pub struct ContainerCall<'a> {
    pub frame_type: u32,
    pub video_frame_type: u32,
    pub form: u32,
    pub packet_type: u32,
    pub count: usize,
    pub ids: &'a [u8],
    pub fourccs: &'a [u32],
    pub starts: &'a [usize],
    pub lengths: &'a [usize],
    pub bodies: &'a [u8],
}

/// `hozgrim_write_container`.
pub fn write_container(call: &ContainerCall<'_>, output: &mut [u8]) -> HozgrimWritten {
    // SAFETY: pointers and lengths are those of slices, and the last one is borrowed alone.
    unsafe {
        hozgrim_write_container(
            call.frame_type,
            call.video_frame_type,
            call.form,
            call.packet_type,
            call.count,
            call.ids.as_ptr(),
            call.ids.len(),
            call.fourccs.as_ptr(),
            call.fourccs.len(),
            call.starts.as_ptr(),
            call.starts.len(),
            call.lengths.as_ptr(),
            call.lengths.len(),
            call.bodies.as_ptr(),
            call.bodies.len(),
            output.as_mut_ptr(),
            output.len(),
        )
    }
}

/// The arguments of `hozgrim_write_modex` before the output.
#[derive(Clone, Copy, Debug, Default)]
pub struct ModexCall<'a> {
    pub frame_type: u32,
    pub count: usize,
    pub types: &'a [u8],
    pub starts: &'a [usize],
    pub lengths: &'a [usize],
    pub data: &'a [u8],
    pub payload: &'a [u8],
}

/// `hozgrim_write_modex`.
pub fn write_modex(call: &ModexCall<'_>, output: &mut [u8]) -> HozgrimWritten {
    // SAFETY: pointers and lengths are those of slices, and the last one is borrowed alone.
    unsafe {
        hozgrim_write_modex(
            call.frame_type,
            call.count,
            call.types.as_ptr(),
            call.types.len(),
            call.starts.as_ptr(),
            call.starts.len(),
            call.lengths.as_ptr(),
            call.lengths.len(),
            call.data.as_ptr(),
            call.data.len(),
            call.payload.as_ptr(),
            call.payload.len(),
            output.as_mut_ptr(),
            output.len(),
        )
    }
}

/// `hozgrim_flv_start`.
pub fn flv_start(file: &[u8]) -> HozgrimFlvStart {
    // SAFETY: pointer and length are those of a slice.
    unsafe { hozgrim_flv_start(file.as_ptr(), file.len()) }
}

/// `hozgrim_flv_next`.
pub fn flv_next(file: &[u8], at: usize) -> HozgrimFlvFrame {
    // SAFETY: pointer and length are those of a slice.
    unsafe { hozgrim_flv_next(file.as_ptr(), file.len(), at) }
}

/// `hozgrim_flv_write_start`.
pub fn flv_write_start(output: &mut [u8]) -> HozgrimWritten {
    // SAFETY: pointer and length are those of a slice, which is borrowed alone.
    unsafe { hozgrim_flv_write_start(output.as_mut_ptr(), output.len()) }
}

/// `hozgrim_flv_write_frame`.
pub fn flv_write_frame(
    frame_type: u32,
    timestamp: u32,
    body: &[u8],
    output: &mut [u8],
) -> HozgrimWritten {
    // SAFETY: pointers and lengths are those of slices, and the second one is borrowed alone.
    unsafe {
        hozgrim_flv_write_frame(
            frame_type,
            timestamp,
            body.as_ptr(),
            body.len(),
            output.as_mut_ptr(),
            output.len(),
        )
    }
}
