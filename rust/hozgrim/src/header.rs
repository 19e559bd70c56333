use core::error::Error;
use core::fmt;

use hozgrim_sys::HozgrimReport;

use crate::excluded::excluded;
use crate::{
    AacPacketType, AudioCodec, AudioPacketType, FourCc, FrameType, PacketType, VideoFrameType,
    VideoPacketType,
};

/// The tag header of a frame.
#[derive(Clone, Copy, Debug, PartialEq, Eq, Hash)]
pub enum Header {
    /// Of an audio frame.
    Audio(AudioHeader),
    /// Of a video frame.
    Video(VideoHeader),
}

impl Header {
    /// How many bytes the header has.
    #[must_use]
    pub const fn size(&self) -> usize {
        match self {
            Self::Audio(header) => header.size,
            Self::Video(header) => header.size,
        }
    }

    /// Whether the header is of Enhanced RTMP, and not of FLV.
    #[must_use]
    pub const fn is_enhanced(&self) -> bool {
        match self {
            Self::Audio(header) => header.is_enhanced(),
            Self::Video(header) => header.is_enhanced(),
        }
    }

    /// The packet type of an enhanced header.
    #[must_use]
    pub fn packet_type(&self) -> Option<PacketType> {
        match self {
            Self::Audio(header) => header.packet_type.map(PacketType::Audio),
            Self::Video(header) => header.packet_type.map(PacketType::Video),
        }
    }

    /// The FourCC; see [`AudioHeader::fourcc`] and [`VideoHeader::fourcc`].
    #[must_use]
    pub const fn fourcc(&self) -> Option<FourCc> {
        match self {
            Self::Audio(header) => header.fourcc,
            Self::Video(header) => header.fourcc,
        }
    }
}

/// `AudioTagHeader` of FLV, or `ExAudioTagHeader` of Enhanced RTMP v2.
#[derive(Clone, Copy, Debug, PartialEq, Eq, Hash)]
#[non_exhaustive]
pub struct AudioHeader {
    /// The packet type of an enhanced header.
    pub packet_type: Option<AudioPacketType>,
    /// Bytes 1 to 4 of an enhanced header. They are the FourCC of a single frame; each track of a
    /// container has its own.
    pub fourcc: Option<FourCc>,
    /// The codec; of an enhanced header, the one of `fourcc`.
    pub codec: AudioCodec,
    /// The bits of FLV: 0 to 3 mean 5.5, 11, 22 and 44 kHz. 0 in an enhanced header.
    pub sample_rate: u8,
    /// The bit of FLV: 0 means 8 bits, 1 means 16. 0 in an enhanced header.
    pub sample_size: u8,
    /// The bit of FLV: 0 means one channel, 1 means two. 0 in an enhanced header.
    pub channels: u8,
    /// Byte 1 of AAC in FLV, if it is there.
    pub aac_packet_type: Option<AacPacketType>,
    /// How many bytes the header has.
    pub size: usize,
}

impl AudioHeader {
    /// Whether the header is of Enhanced RTMP, and not of FLV.
    #[must_use]
    pub const fn is_enhanced(&self) -> bool {
        self.packet_type.is_some()
    }

    /// The sample rate in Hz that the bits of FLV name, rounded down; none in an enhanced header.
    ///
    /// Not every codec goes by these bits: AAC has 44 kHz and two channels in them whatever the
    /// stream is; Speex, Nellymoser at 8 or 16 kHz and MP3 of sound format 14 have fixed rates.
    #[must_use]
    pub fn sample_rate_hz(&self) -> Option<u32> {
        self.flv(self.sample_rate, [5_512, 11_025, 22_050, 44_100])
    }

    /// The sample size in bits that the bit of FLV names; none in an enhanced header. It says
    /// something of uncompressed sound only.
    #[must_use]
    pub fn sample_bits(&self) -> Option<u8> {
        self.flv(self.sample_size, [8, 16])
    }

    /// The number of channels that the bit of FLV names; none in an enhanced header. The exceptions
    /// are those of [`sample_rate_hz`](Self::sample_rate_hz).
    #[must_use]
    pub fn channel_count(&self) -> Option<u8> {
        self.flv(self.channels, [1, 2])
    }

    /// What a number of FLV means, by the meanings from 0 on.
    fn flv<T: Copy, const N: usize>(&self, number: u8, meanings: [T; N]) -> Option<T> {
        if self.is_enhanced() {
            return None;
        }
        meanings.get(usize::from(number)).copied()
    }

    fn of(report: &HozgrimReport) -> Self {
        let fourcc = fourcc(report);
        Self {
            packet_type: packet_type(report),
            fourcc,
            codec: AudioCodec::of(report.audio_codec, fourcc),
            sample_rate: report.sample_rate,
            sample_size: report.sample_size,
            channels: report.channels,
            aac_packet_type: aac_packet_type(report),
            size: report.header_size,
        }
    }
}

/// `VideoTagHeader` of FLV, or `ExVideoTagHeader` of Enhanced RTMP v2.
#[derive(Clone, Copy, Debug, PartialEq, Eq, Hash)]
#[non_exhaustive]
pub struct VideoHeader {
    /// The packet type of an enhanced header.
    pub packet_type: Option<VideoPacketType>,
    /// Bytes 1 to 4 of an enhanced header. They are the FourCC of a single frame; each track of a
    /// container has its own. A command has none.
    pub fourcc: Option<FourCc>,
    /// Whether it is a keyframe, a command, or another frame.
    pub video_frame_type: VideoFrameType,
    /// How many bytes the header has.
    pub size: usize,
}

impl VideoHeader {
    /// Whether the header is of Enhanced RTMP, and not of FLV.
    #[must_use]
    pub const fn is_enhanced(&self) -> bool {
        self.packet_type.is_some()
    }

    fn of(report: &HozgrimReport) -> Self {
        Self {
            packet_type: packet_type(report),
            fourcc: fourcc(report),
            video_frame_type: report.frame_type.into(),
            size: report.header_size,
        }
    }
}

fn packet_type<T: From<u8>>(report: &HozgrimReport) -> Option<T> {
    (report.is_ex_header != 0).then(|| report.packet_type.into())
}

/// An enhanced header of 5 bytes or more has read a FourCC, and no other: `enhanced_header`
/// (exvideo/specs/Video; exaudio/specs/Audio).
fn fourcc(report: &HozgrimReport) -> Option<FourCc> {
    (report.is_ex_header != 0 && report.header_size >= 5).then(|| report.fourcc.into())
}

/// A legacy header of 2 bytes has read an AAC packet type, and no other: `legacy_header`
/// (exaudio/specs/Audio).
fn aac_packet_type(report: &HozgrimReport) -> Option<AacPacketType> {
    (report.is_ex_header == 0 && report.header_size == 2).then(|| report.aac_packet_type.into())
}

/// Why a header could not be read.
#[derive(Clone, Copy, Debug, PartialEq, Eq, Hash)]
pub enum HeaderError {
    /// The header is cut short.
    Io {
        /// A video header as far as it was read, the rest none or zeros; none in audio.
        read: Option<VideoHeader>,
    },
    /// The sound format is 12, 13 or 15, which no codec here has.
    Unsupported,
}

impl HeaderError {
    /// The number that `include/hozgrim.h` gives it.
    #[must_use]
    pub const fn number(self) -> i32 {
        match self {
            Self::Io { .. } => -1,
            Self::Unsupported => -7,
        }
    }
}

impl fmt::Display for HeaderError {
    fn fmt(&self, f: &mut fmt::Formatter<'_>) -> fmt::Result {
        f.write_str(match self {
            Self::Io { .. } => "the header is cut short",
            Self::Unsupported => "the sound format is not supported",
        })
    }
}

impl Error for HeaderError {}

/// The header that a report has.
pub fn of(frame_type: FrameType, report: &HozgrimReport) -> Result<Option<Header>, HeaderError> {
    match (frame_type, report.header_error) {
        (FrameType::Script | FrameType::Metadata, _) => Ok(None),
        (FrameType::Audio, 0) => Ok(Some(Header::Audio(AudioHeader::of(report)))),
        (FrameType::Video, 0) => Ok(Some(Header::Video(VideoHeader::of(report)))),
        (FrameType::Audio, -1) => Err(HeaderError::Io { read: None }),
        (FrameType::Video, -1) => Err(HeaderError::Io {
            read: Some(VideoHeader::of(report)),
        }),
        (FrameType::Audio, -7) => Err(HeaderError::Unsupported),
        (_, error) => excluded("header error", error, "tag_header, init_cache/specs/Head"),
    }
}

#[cfg(test)]
mod tests {
    use super::*;

    #[test]
    #[should_panic(expected = "header error -7 is excluded")]
    fn no_video_header_is_unsupported() {
        let report = HozgrimReport {
            header_error: -7,
            ..HozgrimReport::default()
        };
        let _ = of(FrameType::Video, &report);
    }
}
