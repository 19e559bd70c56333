use core::fmt;

use crate::AudioCodec;

/// Four bytes that name a codec in Enhanced RTMP. Any four are taken.
///
/// ```
/// use hozgrim::{AudioCodec, FourCc};
///
/// let fourcc = FourCc::new(*b"ac-3");
/// assert_eq!(fourcc, FourCc::AC_3);
/// assert_eq!(fourcc.audio_codec(), AudioCodec::Ac3);
/// assert_eq!(fourcc.to_string(), "ac-3");
/// ```
#[derive(Clone, Copy, PartialEq, Eq, PartialOrd, Ord, Hash)]
pub struct FourCc([u8; 4]);

impl FourCc {
    /// Opus.
    pub const OPUS: Self = Self(*b"Opus");
    /// AAC.
    pub const MP4A: Self = Self(*b"mp4a");
    /// MP3, as Enhanced RTMP v2 writes it: `.mp3`.
    pub const MP3: Self = Self(*b".mp3");
    /// MP3, as librtmp2 takes it too: `mp3` and a space.
    pub const MP3_SPACE: Self = Self(*b"mp3 ");
    /// AC-3.
    pub const AC_3: Self = Self(*b"ac-3");
    /// E-AC-3.
    pub const EC_3: Self = Self(*b"ec-3");
    /// FLAC.
    pub const FLAC: Self = Self(*b"fLaC");
    /// AVC, which is H.264.
    pub const AVC1: Self = Self(*b"avc1");
    /// HEVC, which is H.265.
    pub const HVC1: Self = Self(*b"hvc1");
    /// VVC, which is H.266.
    pub const VVC1: Self = Self(*b"vvc1");
    /// AV1.
    pub const AV01: Self = Self(*b"av01");
    /// VP8.
    pub const VP08: Self = Self(*b"vp08");
    /// VP9.
    pub const VP09: Self = Self(*b"vp09");

    /// The one of these bytes.
    #[must_use]
    pub const fn new(bytes: [u8; 4]) -> Self {
        Self(bytes)
    }

    /// The bytes, in the order in which they are sent.
    #[must_use]
    pub const fn bytes(self) -> [u8; 4] {
        self.0
    }

    /// The one of a big-endian number, as which `include/hozgrim.h` has that of a track.
    #[must_use]
    #[inline]
    pub const fn from_number(number: u32) -> Self {
        Self(number.to_be_bytes())
    }

    /// The bytes as a big-endian number.
    #[must_use]
    #[inline]
    pub const fn number(self) -> u32 {
        u32::from_be_bytes(self.0)
    }

    /// The audio codec that this FourCC names in an audio header or track;
    /// [`AudioCodec::Unknown`] if it names none.
    #[must_use]
    pub const fn audio_codec(self) -> AudioCodec {
        match self {
            Self::OPUS => AudioCodec::Opus,
            Self::MP4A => AudioCodec::Aac,
            Self::MP3 | Self::MP3_SPACE => AudioCodec::Mp3,
            Self::AC_3 => AudioCodec::Ac3,
            Self::EC_3 => AudioCodec::EAc3,
            Self::FLAC => AudioCodec::Flac,
            _ => AudioCodec::Unknown(self),
        }
    }
}

impl From<[u8; 4]> for FourCc {
    fn from(bytes: [u8; 4]) -> Self {
        Self::new(bytes)
    }
}

impl From<FourCc> for [u8; 4] {
    fn from(fourcc: FourCc) -> Self {
        fourcc.bytes()
    }
}

/// As ASCII; other bytes, quotes and the backslash are escaped.
impl fmt::Display for FourCc {
    fn fmt(&self, f: &mut fmt::Formatter<'_>) -> fmt::Result {
        self.0.escape_ascii().fmt(f)
    }
}

impl fmt::Debug for FourCc {
    fn fmt(&self, f: &mut fmt::Formatter<'_>) -> fmt::Result {
        write!(f, "FourCc(\"{self}\")")
    }
}
