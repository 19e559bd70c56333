use crate::Refusal;
use crate::number::numbered;

/// The kind of message that a payload came in.
///
/// [`from_message_type_id`](Self::from_message_type_id) gives that of an RTMP message or FLV tag.
/// The numbers of this type are the library's, which are others. Such a number becomes a frame type
/// by `try_from`:
///
/// ```
/// use hozgrim::{FrameType, Refusal};
///
/// assert_eq!(FrameType::try_from(1u8), Ok(FrameType::Video));
/// assert_eq!(FrameType::try_from(4u32), Err(Refusal::UnknownFrameType));
/// assert_eq!(FrameType::Metadata as u8, 3);
/// ```
///
/// # Script and Metadata
///
/// [`Script`](Self::Script) is any data message, whatever it says. [`Metadata`](Self::Metadata) is
/// for a relay that itself sorts out `onMetaData`, often behind `@setDataFrame`, to keep it. No
/// answer differs between the two: no header, no tracks, [`LiveOnly`] and [`Critical`]. ModEx
/// layers are peeled off as in video, but no message in AMF begins as they do.
///
/// [`LiveOnly`]: crate::CacheKind::LiveOnly
/// [`Critical`]: crate::DeliveryHint::Critical
#[derive(Clone, Copy, Debug, PartialEq, Eq, Hash)]
#[repr(u8)]
pub enum FrameType {
    /// Sound.
    Audio = 0,
    /// Picture.
    Video = 1,
    /// A data message. It has no header and no tracks.
    Script = 2,
    /// A data message that the relay knows to be metadata. It has no header and no tracks.
    Metadata = 3,
}

numbered!(FrameType, Refusal: |_| Refusal::UnknownFrameType, {
    Audio: "audio",
    Video: "video",
    Script: "script",
    Metadata: "metadata",
});

impl FrameType {
    /// The frame type of an RTMP message with this type id; none if the message is no frame.
    ///
    /// | id | message | frame type |
    /// |--:|---|---|
    /// | 8 | audio | [`Audio`](Self::Audio) |
    /// | 9 | video | [`Video`](Self::Video) |
    /// | 18, 15 | data, in AMF0 or AMF3 | [`Script`](Self::Script) |
    /// | 20, 17 | command, in AMF0 or AMF3 | none: the relay answers it |
    /// | 22 | aggregate | none: each message in it has an id of its own |
    /// | any other | of the protocol, or a shared object | none |
    ///
    /// FLV has the same numbers for its tags: 8, 9 and 18. A data message in AMF3 begins with a
    /// byte that names its format. It stays in the payload: the library reads no AMF.
    ///
    /// ```
    /// use hozgrim::FrameType;
    ///
    /// assert_eq!(FrameType::from_message_type_id(9), Some(FrameType::Video));
    /// assert_eq!(FrameType::from_message_type_id(18), Some(FrameType::Script));
    /// assert_eq!(FrameType::from_message_type_id(20), None);
    /// ```
    #[must_use]
    pub const fn from_message_type_id(id: u8) -> Option<Self> {
        match id {
            8 => Some(Self::Audio),
            9 => Some(Self::Video),
            15 | 18 => Some(Self::Script),
            _ => None,
        }
    }
}
