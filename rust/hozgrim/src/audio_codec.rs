use core::fmt;

use crate::FourCc;
use crate::excluded::excluded;

/// The codec of an audio frame or track.
///
/// The library has one number for AAC, AC-3, E-AC-3 and FLAC, and one for PCM and for a FourCC that
/// names no codec, as librtmp2 does. Here they are told apart by the FourCC.
#[derive(Clone, Copy, Debug, PartialEq, Eq, Hash)]
#[non_exhaustive]
pub enum AudioCodec {
    /// PCM in the byte order of the platform.
    Pcm,
    /// ADPCM.
    Adpcm,
    /// MP3.
    Mp3,
    /// PCM, little-endian.
    PcmLe,
    /// Nellymoser at 16 kHz, one channel.
    Nelly16k,
    /// Nellymoser at 8 kHz, one channel.
    Nelly8k,
    /// Nellymoser.
    Nelly,
    /// G.711 A-law.
    G711A,
    /// G.711 mu-law.
    G711U,
    /// AAC.
    Aac,
    /// Speex.
    Speex,
    /// Opus. It has a FourCC only.
    Opus,
    /// AC-3. It has a FourCC only.
    Ac3,
    /// E-AC-3. It has a FourCC only.
    EAc3,
    /// FLAC. It has a FourCC only.
    Flac,
    /// None of these: the FourCC is another.
    Unknown(FourCc),
}

/// Those that FLV has a sound format for.
const LEGACY: [AudioCodec; 11] = [
    AudioCodec::Pcm,
    AudioCodec::Adpcm,
    AudioCodec::Mp3,
    AudioCodec::PcmLe,
    AudioCodec::Nelly16k,
    AudioCodec::Nelly8k,
    AudioCodec::Nelly,
    AudioCodec::G711A,
    AudioCodec::G711U,
    AudioCodec::Aac,
    AudioCodec::Speex,
];

impl AudioCodec {
    /// The number that the library and `include/hozgrim.h` give it. AC-3, E-AC-3 and FLAC have that
    /// of AAC, 10, and an unknown FourCC that of PCM, 0.
    #[must_use]
    pub const fn number(self) -> u8 {
        self.number_and_name().0
    }

    const fn number_and_name(self) -> (u8, &'static str) {
        match self {
            Self::Pcm => (0, "PCM"),
            Self::Adpcm => (1, "ADPCM"),
            Self::Mp3 => (2, "MP3"),
            Self::PcmLe => (3, "PCM little-endian"),
            Self::Nelly16k => (4, "Nellymoser 16 kHz"),
            Self::Nelly8k => (5, "Nellymoser 8 kHz"),
            Self::Nelly => (6, "Nellymoser"),
            Self::G711A => (7, "G.711 A-law"),
            Self::G711U => (8, "G.711 mu-law"),
            Self::Aac => (10, "AAC"),
            Self::Speex => (11, "Speex"),
            Self::Opus => (14, "Opus"),
            Self::Ac3 => (10, "AC-3"),
            Self::EAc3 => (10, "E-AC-3"),
            Self::Flac => (10, "FLAC"),
            Self::Unknown(_) => (0, "unknown"),
        }
    }

    /// The largest [`level`](crate::level) that a frame in this codec can have, which is where a
    /// meter ends; none if such frames all have level 0.
    ///
    /// ```
    /// use hozgrim::{AudioCodec, FrameType, level};
    ///
    /// /// How much of a meter is lit, from 0 to 1; none if there is no meter.
    /// fn lit(codec: AudioCodec, payload: &[u8]) -> Option<f64> {
    ///     let full_scale = codec.full_scale()?;
    ///     Some(f64::from(level(FrameType::Audio, payload)) / f64::from(full_scale))
    /// }
    ///
    /// assert_eq!(lit(AudioCodec::G711A, b"\x72\xD5\xAA"), Some(1.0));
    /// assert_eq!(lit(AudioCodec::G711U, b"\x82\xFF"), Some(0.0));
    /// assert_eq!(lit(AudioCodec::Aac, b"\xAF\x01\x21\x10\x04"), None);
    /// ```
    #[must_use]
    pub const fn full_scale(self) -> Option<u32> {
        match self {
            Self::G711A => Some(4_032),
            Self::G711U => Some(8_031),
            _ => None,
        }
    }

    /// The codec of a header that has this FourCC, or none, and for which the library gives this
    /// number.
    pub(crate) fn of(number: u8, fourcc: Option<FourCc>) -> Self {
        let codec = match fourcc {
            Some(fourcc) => Some(fourcc.audio_codec()),
            None => LEGACY.into_iter().find(|codec| codec.number() == number),
        };
        codec
            .filter(|codec| codec.number() == number)
            .unwrap_or_else(|| excluded("audio codec", number, "audio_header, exaudio/specs/Audio"))
    }
}

impl fmt::Display for AudioCodec {
    fn fmt(&self, f: &mut fmt::Formatter<'_>) -> fmt::Result {
        f.pad(self.number_and_name().1)
    }
}

#[cfg(test)]
mod tests {
    use super::*;

    #[test]
    fn every_number_of_a_sound_format_gives_the_codec() {
        for codec in LEGACY {
            assert_eq!(AudioCodec::of(codec.number(), None), codec);
        }
    }

    #[test]
    fn a_number_and_the_fourcc_beside_it_give_the_codec() {
        for (number, fourcc, codec) in [
            (14, FourCc::OPUS, AudioCodec::Opus),
            (10, FourCc::MP4A, AudioCodec::Aac),
            (10, FourCc::FLAC, AudioCodec::Flac),
            (0, FourCc::AVC1, AudioCodec::Unknown(FourCc::AVC1)),
        ] {
            assert_eq!(AudioCodec::of(number, Some(fourcc)), codec);
        }
    }

    #[test]
    #[should_panic(expected = "audio codec 9 is excluded")]
    fn no_other_number_becomes_a_codec() {
        AudioCodec::of(9, None);
    }

    #[test]
    #[should_panic(expected = "audio codec 14 is excluded")]
    fn no_sound_format_is_opus() {
        AudioCodec::of(14, None);
    }

    #[test]
    #[should_panic(expected = "audio codec 10 is excluded")]
    fn no_number_contradicts_the_fourcc() {
        AudioCodec::of(10, Some(FourCc::OPUS));
    }
}
