//! The writers with memory of their own.

use alloc::vec;
use alloc::vec::Vec;

use crate::excluded::excluded;
use crate::{
    ContainerHead, FlvFrame, FrameType, LayerColumns, NewLayer, NewTrack, Refusal, TrackColumns,
};

/// Writes a container of these tracks, in their order.
///
/// Takes [`NewTrack`]s, references to them, and [`Track`](crate::Track)s that were read. What is
/// written is an accepted container: [`tracks`](crate::tracks) gives the same tracks back.
///
/// Each body is copied twice, since the library wants all of them in one string first.
/// [`TrackColumns::write_container`] copies once.
///
/// # Errors
///
/// [`Refusal::OutOfBounds`], [`Refusal::BadLength`] and [`Refusal::BadValue`] as
/// [`TrackColumns::write_container`] has them; the vector is long enough.
///
/// ```
/// use hozgrim::{
///     ContainerHead, Form, FourCc, FrameType, NewTrack, Refusal, VideoFrameType, VideoPacketType,
///     tracks, write_container,
/// };
///
/// let head = ContainerHead::Video {
///     form: Form::ManyTracks,
///     packet_type: VideoPacketType::CODED_FRAMES_X,
///     video_frame_type: VideoFrameType::KEY,
/// };
/// let cameras: [&[u8]; 2] = [b"\xAA", b"\xBB\xCC"];
/// let cameras = (0..).zip(cameras).map(|(id, payload)| NewTrack {
///     id,
///     fourcc: FourCc::AVC1,
///     payload,
/// });
/// let container = write_container(head, cameras)?;
/// assert_eq!(container, b"\x96\x13avc1\x00\x00\x00\x01\xAA\x01\x00\x00\x02\xBB\xCC");
///
/// // What was read can be written again.
/// let read = tracks(FrameType::Video, &container)?;
/// assert_eq!(write_container(head, read.clone())?, container);
///
/// // But not as containers inside a container.
/// let nested = ContainerHead::Video {
///     form: Form::ManyTracks,
///     packet_type: VideoPacketType::MULTITRACK,
///     video_frame_type: VideoFrameType::KEY,
/// };
/// assert_eq!(write_container(nested, read), Err(Refusal::BadValue));
/// # Ok::<(), Refusal>(())
/// ```
pub fn write_container<'a>(
    head: ContainerHead,
    tracks: impl IntoIterator<Item: Into<NewTrack<'a>>>,
) -> Result<Vec<u8>, Refusal> {
    let (mut ids, mut fourccs, mut bodies) = (vec![], vec![], Parts::default());
    for track in tracks {
        let track = track.into();
        ids.push(track.id);
        fourccs.push(track.fourcc.number());
        bodies.push(track.payload);
    }
    let columns = TrackColumns {
        ids: &ids,
        fourccs: &fourccs,
        starts: &bodies.starts,
        lengths: &bodies.lengths,
        bodies: &bodies.bytes,
    };
    filled(
        columns.container_len(head.form()),
        |output| columns.write_container(head, output),
        "container_length, writers/specs/ContainerWriter",
    )
}

/// Writes a payload behind these ModEx layers, the outermost first.
///
/// Takes [`NewLayer`]s and references to them. [`pass`](crate::pass) with
/// [`CAPS_EX_MODEX`](crate::CAPS_EX_MODEX) gives the payload back, unless it refuses an offset.
///
/// The data of each layer are copied twice, since the library wants all of them in one string
/// first, and the payload once.
///
/// # Errors
///
/// [`Refusal::OutOfBounds`], [`Refusal::BadLength`] and [`Refusal::BadValue`] as
/// [`LayerColumns::write_modex`] has them; the vector is long enough.
///
/// ```
/// use hozgrim::{CAPS_EX_MODEX, FrameType, ModexType, NewLayer, Refusal, pass, write_modex};
///
/// let offset = NewLayer {
///     modex_type: ModexType::TIMESTAMP_OFFSET_NANO,
///     data: &[0x00, 0x00, 0x2A],
/// };
/// let payload = b"\x91Opus\xBB";
/// let written = write_modex(FrameType::Audio, [offset], payload)?;
/// assert_eq!(written, b"\x97\x02\x00\x00\x2A\x01Opus\xBB");
///
/// let mut output = vec![0; written.len()];
/// let report = pass(FrameType::Audio, &written, CAPS_EX_MODEX, true, &mut output)?;
/// assert_eq!(report.result(&output), payload);
/// assert_eq!(report.composition_time.offset(), 42);
/// # Ok::<(), Refusal>(())
/// ```
pub fn write_modex<'a>(
    frame_type: FrameType,
    layers: impl IntoIterator<Item: Into<NewLayer<'a>>>,
    payload: &[u8],
) -> Result<Vec<u8>, Refusal> {
    let (mut types, mut data) = (vec![], Parts::default());
    for layer in layers {
        let layer = layer.into();
        types.push(layer.modex_type.number());
        data.push(layer.data);
    }
    let columns = LayerColumns {
        types: &types,
        starts: &data.starts,
        lengths: &data.lengths,
        data: &data.bytes,
    };
    filled(
        columns.modex_len(payload),
        |output| columns.write_modex(frame_type, payload, output),
        "modex_length, writers/specs/ModexWriter",
    )
}

/// Appends a frame to an FLV file, as a tag with its back-pointer.
///
/// A file is [`flv_start`](crate::flv_start) and the frames behind it.
/// [`FlvReader`](crate::FlvReader) gives the same frames back. What `file` holds before is not
/// looked at, so it may be emptied after each frame that went to a disk.
///
/// The payload is copied once, into memory that is filled with zeros first.
/// [`FlvFrame::write_tag`] writes to a lent output.
///
/// # Errors
///
/// Nothing is appended then. [`Refusal::UnknownFrameType`] and [`Refusal::BadLength`] as
/// [`FlvFrame::write_tag`] has them; the vector is long enough.
///
/// ```
/// use hozgrim::{FlvFrame, FlvReader, FrameType, Refusal, flv_start, write_flv_frame};
///
/// let frames = [(0, b"\xAF\x00\x12\x10"), (23, b"\xAF\x01\xAA\xBB")];
/// let frames = frames.map(|(timestamp, payload)| FlvFrame {
///     frame_type: FrameType::Audio,
///     timestamp,
///     payload,
/// });
/// let mut file = flv_start().to_vec();
/// for frame in frames {
///     write_flv_frame(frame, &mut file)?;
/// }
/// assert!(FlvReader::new(&file)?.eq(frames.map(Ok)));
///
/// let metadata = FlvFrame {
///     frame_type: FrameType::Metadata,
///     ..frames[0]
/// };
/// let written = file.clone();
/// assert_eq!(write_flv_frame(metadata, &mut file), Err(Refusal::UnknownFrameType));
/// assert_eq!(file, written);
/// # Ok::<(), Refusal>(())
/// ```
pub fn write_flv_frame(frame: FlvFrame<'_>, file: &mut Vec<u8>) -> Result<(), Refusal> {
    let before = file.len();
    let length = frame.tag_len();
    file.resize(before + length, 0);
    let written = frame
        .write_tag(&mut file[before..])
        .inspect_err(|_| file.truncate(before))?;
    expect_length(written, length, "frame_answer, flv/specs/Calls");
    Ok(())
}

/// Parts one behind the other, with the columns that say where they stand.
#[derive(Default)]
struct Parts {
    starts: Vec<usize>,
    lengths: Vec<usize>,
    bytes: Vec<u8>,
}

impl Parts {
    fn push(&mut self, part: &[u8]) {
        self.starts.push(self.bytes.len());
        self.lengths.push(part.len());
        self.bytes.extend_from_slice(part);
    }
}

/// A vector of this length, which the named definition says is written.
fn filled(
    length: usize,
    write: impl FnOnce(&mut [u8]) -> Result<usize, Refusal>,
    definition: &str,
) -> Result<Vec<u8>, Refusal> {
    let mut output = vec![0; length];
    let written = write(&mut output)?;
    expect_length(written, length, definition);
    Ok(output)
}

/// As much was written as the named definition says.
fn expect_length(written: usize, length: usize, definition: &str) {
    if written != length {
        excluded("length", written, definition);
    }
}

#[cfg(test)]
mod tests {
    use super::*;

    #[test]
    #[should_panic(expected = "length 2 is excluded")]
    fn no_other_length_is_written() {
        let _ = filled(3, |_| Ok(2), "some");
    }
}
