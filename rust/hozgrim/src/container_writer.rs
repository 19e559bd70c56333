use hozgrim_sys::ContainerCall;

use crate::number::{UnknownNumber, numbered};
use crate::{
    AudioPacketType, FourCc, FrameType, PacketType, Refusal, Track, VideoFrameType, VideoPacketType,
};

/// How the tracks of a container stand: `AvMultitrackType` of Enhanced RTMP v2.
#[derive(Clone, Copy, Debug, PartialEq, Eq, Hash)]
#[repr(u8)]
pub enum Form {
    /// One track, whose body is the rest of the container.
    OneTrack = 0,
    /// 1 to 4,096 tracks with one FourCC, which stands once.
    ManyTracks = 1,
    /// 1 to 4,096 tracks, each with a FourCC of its own.
    ManyTracksManyCodecs = 2,
}

numbered!(Form, UnknownNumber: |number| UnknownNumber::of("form", number), {
    OneTrack: "OneTrack",
    ManyTracks: "ManyTracks",
    ManyTracksManyCodecs: "ManyTracksManyCodecs",
});

impl Form {
    /// How many bytes stand before the tracks, and how many before the body of each.
    const fn head_lengths(self) -> (usize, usize) {
        match self {
            Self::OneTrack => (6, 1),
            Self::ManyTracks => (6, 4),
            Self::ManyTracksManyCodecs => (2, 8),
        }
    }
}

/// What a container to be written has before its tracks.
#[derive(Clone, Copy, Debug, PartialEq, Eq, Hash)]
pub enum ContainerHead {
    /// Of an audio container.
    Audio {
        /// How the tracks stand.
        form: Form,
        /// The packet type of every track: up to 15, but not [`AudioPacketType::MULTITRACK`].
        packet_type: AudioPacketType,
    },
    /// Of a video container.
    Video {
        /// How the tracks stand.
        form: Form,
        /// The packet type of every track: up to 15, but not [`VideoPacketType::MULTITRACK`].
        packet_type: VideoPacketType,
        /// The frame type: up to 7, but not [`VideoFrameType::COMMAND`].
        video_frame_type: VideoFrameType,
    },
}

impl ContainerHead {
    /// The frame type of the container.
    #[must_use]
    pub const fn frame_type(self) -> FrameType {
        match self {
            Self::Audio { .. } => FrameType::Audio,
            Self::Video { .. } => FrameType::Video,
        }
    }

    /// How the tracks stand.
    #[must_use]
    pub const fn form(self) -> Form {
        match self {
            Self::Audio { form, .. } | Self::Video { form, .. } => form,
        }
    }

    /// The packet type of every track.
    #[must_use]
    pub const fn packet_type(self) -> PacketType {
        match self {
            Self::Audio { packet_type, .. } => PacketType::Audio(packet_type),
            Self::Video { packet_type, .. } => PacketType::Video(packet_type),
        }
    }

    /// The frame type of a video container; none in audio.
    #[must_use]
    pub const fn video_frame_type(self) -> Option<VideoFrameType> {
        match self {
            Self::Audio { .. } => None,
            Self::Video {
                video_frame_type, ..
            } => Some(video_frame_type),
        }
    }
}

/// A track to be written, for [`write_container`](crate::write_container).
#[derive(Clone, Copy, Debug, PartialEq, Eq, Hash)]
pub struct NewTrack<'a> {
    /// The id. Several tracks may have the same.
    pub id: u8,
    /// The FourCC. Any four bytes are taken.
    pub fourcc: FourCc,
    /// The body. It may be empty.
    pub payload: &'a [u8],
}

impl<'a> From<&NewTrack<'a>> for NewTrack<'a> {
    fn from(track: &NewTrack<'a>) -> Self {
        *track
    }
}

/// Id, FourCC and body of a track that was read.
impl<'a> From<Track<'a>> for NewTrack<'a> {
    fn from(track: Track<'a>) -> Self {
        Self {
            id: track.id,
            fourcc: track.fourcc,
            payload: track.payload,
        }
    }
}

/// Tracks to be written, in columns: entry `i` of each says one thing of track `i`.
///
/// A container that was read has them too: [`LentColumns::track_columns`].
///
/// There are as many tracks as `ids`. The other columns may be longer; what they have behind is not
/// looked at. Bodies may overlap, stand in any order, and leave bytes between them unused.
///
/// ```
/// use hozgrim::{
///     AudioPacketType, ContainerHead, Form, FourCc, FrameType, Refusal, TrackColumns, track,
/// };
///
/// let head = ContainerHead::Audio {
///     form: Form::ManyTracks,
///     packet_type: AudioPacketType::CODED_FRAMES,
/// };
/// let columns = TrackColumns {
///     ids: &[1, 2],
///     fourccs: &[FourCc::OPUS.number(); 2],
///     starts: &[0, 1],
///     lengths: &[1, 2],
///     bodies: b"\xAA\xBB\xCC",
/// };
/// let mut output = [0; 32];
/// let length = columns.write_container(head, &mut output)?;
/// assert_eq!(length, columns.container_len(head.form()));
/// assert_eq!(output[..length], *b"\x95\x11Opus\x01\x00\x00\x01\xAA\x02\x00\x00\x02\xBB\xCC");
///
/// let read = track(FrameType::Audio, &output[..length], 1)?;
/// assert_eq!((read.id, read.payload), (2, &b"\xBB\xCC"[..]));
/// # Ok::<(), Refusal>(())
/// ```
///
/// [`LentColumns::track_columns`]: crate::LentColumns::track_columns
#[derive(Clone, Copy, Debug, Default, PartialEq, Eq, Hash)]
pub struct TrackColumns<'a> {
    /// Ids. Several tracks may have the same.
    pub ids: &'a [u8],
    /// FourCCs as [numbers](FourCc::number).
    pub fourccs: &'a [u32],
    /// Where each body starts in `bodies`.
    pub starts: &'a [usize],
    /// How long each body is.
    pub lengths: &'a [usize],
    /// What the bodies are parts of.
    pub bodies: &'a [u8],
}

impl TrackColumns<'_> {
    /// How long the container is; `usize::MAX` if no memory holds it.
    #[must_use]
    pub fn container_len(&self, form: Form) -> usize {
        let (head, track_head) = form.head_lengths();
        let lengths = self.lengths.iter().take(self.ids.len());
        lengths.fold(head, |sum, length| {
            sum.saturating_add(track_head).saturating_add(*length)
        })
    }

    /// Writes the container to the front of `output`, and says how long it is. `output` keeps its
    /// bytes behind it.
    ///
    /// Each body is copied once, and nothing is allocated.
    ///
    /// # Errors
    ///
    /// `output` then keeps all its bytes. In this order:
    ///
    /// - [`Refusal::OutOfBounds`] if there is no track, more than the form can have, a column that
    ///   is shorter than `ids`, or a body that is not within `bodies`;
    /// - [`Refusal::BadLength`] if a body has over 16,777,215 bytes where a length is written, so
    ///   not in [`Form::OneTrack`];
    /// - [`Refusal::BadValue`] if FourCCs differ in [`Form::ManyTracks`], the packet type is above
    ///   15 or `MULTITRACK`, which would name a container inside the container, or the video frame
    ///   type is 5 or above 7;
    /// - [`Refusal::OutputTooShort`] if `output` is shorter than [`container_len`].
    ///
    /// [`container_len`]: Self::container_len
    pub fn write_container(
        &self,
        head: ContainerHead,
        output: &mut [u8],
    ) -> Result<usize, Refusal> {
        let call = ContainerCall {
            frame_type: head.frame_type().into(),
            video_frame_type: head.video_frame_type().map_or(0, u8::from).into(),
            form: head.form().into(),
            packet_type: head.packet_type().number().into(),
            count: self.ids.len(),
            ids: self.ids,
            fourccs: self.fourccs,
            starts: self.starts,
            lengths: self.lengths,
            bodies: self.bodies,
        };
        let written = hozgrim_sys::write_container(&call, output);
        Refusal::check(written.error, 0)?;
        Ok(written.length)
    }
}
