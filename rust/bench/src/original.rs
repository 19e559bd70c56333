//! The original's own functions, put together to the work of the whole pass.

use std::borrow::Cow;

use oracle::ertmp::exaudio::exaudio_parse;
use oracle::ertmp::exvideo::exvideo_parse;
use oracle::ertmp::multitrack_media::foreach_track;
use oracle::media::delivery::DeliveryHint;
use oracle::media::init_cache::{CacheFrameKind, classify_cache_frame};
use oracle::media::modex::normalize_modex_payload_with_frame_type;
use oracle::starts::record_valid;
use oracle::types::{
    AudioCodec, AudioHeader, CAPS_EX_MASK_MODEX, ErrorCode, FrameType, Result, VideoHeader,
};

/// The codec of legacy video that has records.
const AVC: u8 = 7;

/// The frame type of a command.
const COMMAND: u8 = 5;

/// What the functions say about a result.
pub struct Said {
    pub result_length: usize,
    pub header: Header,
    pub header_error: Option<ErrorCode>,
    pub tracks: usize,
    pub records: usize,
    pub valid_records: usize,
    pub kind: CacheFrameKind,
    pub hint: DeliveryHint,
}

pub enum Header {
    Audio(AudioHeader),
    Video(VideoHeader),
    None,
}

/// The payload without its layers.
pub fn peeled(known: FrameType, payload: &[u8]) -> Cow<'_, [u8]> {
    normalize_modex_payload_with_frame_type(payload, CAPS_EX_MASK_MODEX, known)
}

impl Said {
    /// Before anything is asked.
    pub fn nothing(known: FrameType) -> Self {
        Self {
            result_length: 0,
            header: Header::default_of(known),
            header_error: None,
            tracks: 0,
            records: 0,
            valid_records: 0,
            kind: CacheFrameKind::LiveOnly,
            hint: DeliveryHint::Droppable,
        }
    }

    /// Asks about a result. The header is filled where it stands, as the original has it.
    pub fn ask(&mut self, known: FrameType, result: &[u8], has_video: bool) {
        self.result_length = result.len();
        self.header_error = self.header.parse(result).err();
        self.kind = classify_cache_frame(known, result);
        self.hint = DeliveryHint::classify(known, result, has_video);
        self.count(known, result);
    }

    /// One visit of the tracks gives their number and the verdicts. The verdict on a single frame
    /// is in its kind.
    fn count(&mut self, known: FrameType, result: &[u8]) {
        let container = foreach_track(known, result, |track| {
            self.tracks += 1;
            if track.packet_type == 0 {
                self.records += 1;
                let valid = record_valid(known, &track.fourcc, track.payload);
                self.valid_records += usize::from(valid);
            }
        });
        let single = !container && self.header_error.is_none();
        if single && starts_sequence(&self.header, result) {
            self.records = 1;
            self.valid_records = usize::from(is_sequence_header(self.kind));
        }
    }
}

impl Header {
    fn default_of(known: FrameType) -> Self {
        match known {
            FrameType::Audio => Self::Audio(AudioHeader::default()),
            FrameType::Video => Self::Video(VideoHeader::default()),
            FrameType::Script | FrameType::Metadata => Self::None,
        }
    }

    fn parse(&mut self, result: &[u8]) -> Result<()> {
        match self {
            Self::Audio(header) => exaudio_parse(result, header),
            Self::Video(header) => exvideo_parse(result, header),
            Self::None => Ok(()),
        }
    }
}

/// Whether a single frame has a record.
fn starts_sequence(header: &Header, result: &[u8]) -> bool {
    match header {
        Header::Audio(header) if header.is_ex_header != 0 => header.packet_type == 0,
        Header::Audio(header) => header.audio_codec == AudioCodec::Aac && result.get(1) == Some(&0),
        Header::Video(header) if header.frame_type == COMMAND => false,
        Header::Video(header) if header.is_ex_header != 0 => header.packet_type == 0,
        Header::Video(_) => result[0] & 0x0F == AVC && result.get(1) == Some(&0),
        Header::None => false,
    }
}

fn is_sequence_header(kind: CacheFrameKind) -> bool {
    matches!(
        kind,
        CacheFrameKind::VideoSequenceHeader | CacheFrameKind::AudioSequenceHeader
    )
}
