use core::fmt;

use crate::number::wire_number;

wire_number! {
    /// The packet type of an enhanced video header, or of a track of a video container.
    ///
    /// It is the low nibble of a byte, so 8 to 15, which have no name, may come too.
    ///
    /// ```
    /// use hozgrim::VideoPacketType;
    ///
    /// let holds = |packet_type| match packet_type {
    ///     VideoPacketType::SEQUENCE_START => "a record",
    ///     VideoPacketType::CODED_FRAMES | VideoPacketType::CODED_FRAMES_X => "pictures",
    ///     _ => "something else",
    /// };
    /// assert_eq!(holds(VideoPacketType::new(3)), "pictures");
    /// assert_eq!(VideoPacketType::new(3).to_string(), "CodedFramesX");
    /// assert_eq!(VideoPacketType::new(9).to_string(), "9");
    /// ```
    VideoPacketType {
        /// A configuration record, which a decoder needs first.
        SEQUENCE_START = 0, "SequenceStart";
        /// Coded pictures; in AVC, HEVC and VVC behind a composition time.
        CODED_FRAMES = 1, "CodedFrames";
        /// The sequence ends.
        SEQUENCE_END = 2, "SequenceEnd";
        /// Coded pictures without a composition time, which is 0.
        CODED_FRAMES_X = 3, "CodedFramesX";
        /// Metadata in AMF, such as colour information.
        METADATA = 4, "Metadata";
        /// A configuration record in the form of MPEG-2 TS.
        MPEG2TS_SEQUENCE_START = 5, "MPEG2TSSequenceStart";
        /// A container of tracks. No track has it: a video container that names it for its tracks
        /// is [refused](crate::tracks).
        MULTITRACK = 6, "Multitrack";
        /// ModEx layers. [`pass`](crate::pass) leaves them where the mask does not allow to peel
        /// them off, or where they cannot be read.
        MOD_EX = 7, "ModEx";
    }
}

wire_number! {
    /// The packet type of an enhanced audio header, or of a track of an audio container.
    ///
    /// It is the low nibble of a byte, so 6 and 8 to 15, which have no name, may come too.
    AudioPacketType {
        /// A configuration record, which a decoder needs first.
        SEQUENCE_START = 0, "SequenceStart";
        /// Coded sound.
        CODED_FRAMES = 1, "CodedFrames";
        /// The sequence ends.
        SEQUENCE_END = 2, "SequenceEnd";
        /// Metadata, as librtmp2 reads it; Enhanced RTMP v2 reserves the number.
        METADATA = 3, "Metadata";
        /// The order of the channels.
        MULTICHANNEL_CONFIG = 4, "MultichannelConfig";
        /// A container of tracks. No track has it: an audio container that names it for its tracks
        /// is [refused](crate::tracks).
        MULTITRACK = 5, "Multitrack";
        /// ModEx layers. [`pass`](crate::pass) leaves them where the mask does not allow to peel
        /// them off, or where they cannot be read.
        MOD_EX = 7, "ModEx";
    }
}

wire_number! {
    /// The frame type of a video tag. It is another thing than [`FrameType`](crate::FrameType),
    /// which says what kind of message a payload came in.
    ///
    /// FLV has it in four bits, Enhanced RTMP in three, so a number without a name may come too.
    VideoFrameType {
        /// A keyframe.
        KEY = 1, "KeyFrame";
        /// A frame that needs others.
        INTER = 2, "InterFrame";
        /// A frame that needs others and that no other needs; H.263 only.
        DISPOSABLE_INTER = 3, "DisposableInterFrame";
        /// A keyframe that a server made.
        GENERATED_KEY = 4, "GeneratedKeyFrame";
        /// A command to the player, such as the start of a seek; no picture.
        COMMAND = 5, "Command";
    }
}

wire_number! {
    /// The AAC packet type: byte 1 of AAC in FLV.
    AacPacketType {
        /// A configuration record, which a decoder needs first.
        SEQUENCE_HEADER = 0, "SequenceHeader";
        /// Coded sound.
        RAW = 1, "Raw";
    }
}

/// The packet type of an enhanced frame, whose numbers mean one thing in audio and another in
/// video.
#[derive(Clone, Copy, Debug, PartialEq, Eq, Hash)]
pub enum PacketType {
    /// Of an audio frame.
    Audio(AudioPacketType),
    /// Of a video frame.
    Video(VideoPacketType),
}

impl PacketType {
    /// The number that the wire has.
    #[must_use]
    pub const fn number(self) -> u8 {
        match self {
            Self::Audio(packet_type) => packet_type.number(),
            Self::Video(packet_type) => packet_type.number(),
        }
    }

    /// Whether it is `SEQUENCE_START`: the frame, or each track of the container, holds a
    /// configuration record.
    #[must_use]
    pub const fn is_sequence_start(self) -> bool {
        matches!(
            self,
            Self::Audio(AudioPacketType::SEQUENCE_START)
                | Self::Video(VideoPacketType::SEQUENCE_START)
        )
    }
}

impl From<AudioPacketType> for PacketType {
    fn from(packet_type: AudioPacketType) -> Self {
        Self::Audio(packet_type)
    }
}

impl From<VideoPacketType> for PacketType {
    fn from(packet_type: VideoPacketType) -> Self {
        Self::Video(packet_type)
    }
}

impl fmt::Display for PacketType {
    fn fmt(&self, f: &mut fmt::Formatter<'_>) -> fmt::Result {
        match self {
            Self::Audio(packet_type) => packet_type.fmt(f),
            Self::Video(packet_type) => packet_type.fmt(f),
        }
    }
}
