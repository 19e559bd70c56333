//! The frame side of a media relay, for FLV and Enhanced RTMP v2.
//!
//! A frame is a type, a payload, a capability mask, and whether its route has video. [`pass`] peels
//! its ModEx layers off and reports its header, its composition time, its tracks, the verdicts on
//! its configuration records, what a cache does with it, and what may be done with it when a
//! receiver is slow.
//!
//! | call | gives |
//! |---|---|
//! | [`FrameType::from_message_type_id`] | the frame type of an RTMP message or FLV tag |
//! | [`pass`] | the payload without its layers, and a [`Report`] on it |
//! | [`pass_in_place`] | the same without a copy: the result is a part of the payload |
//! | [`Store::offer`] | what [`pass`] gives, and keeps sequence headers and the last keyframe |
//! | [`Store::late`] | what a viewer who joins late is sent: the frames that are kept |
//! | [`Uplink::offer`] | whether a frame is sent to one of the viewers who share a line |
//! | [`Uplink::tick`] | to each of them its share of the line |
//! | [`tracks`], [`track`] | the tracks of a container, or one of them, as parts of the payload |
//! | [`Columns::walk`] | the tracks of a container in columns, to be read by their number |
//! | [`ColumnBuffers::walk`], [`ColumnsMut::walk`] | the same in columns that are kept, or lent |
//! | [`classify`] | cache kind and delivery hint alone |
//! | [`level`] | how loud a frame in G.711 is |
//! | [`write_container`] | a container of tracks |
//! | [`write_modex`] | a payload behind ModEx layers |
//! | [`FlvReader`] | the frames of an FLV file |
//! | [`flv_start`], [`write_flv_frame`] | an FLV file of frames |
//!
//! # Example
//!
//! What a relay does with an RTMP message. Its store is for viewers who join late; without one,
//! [`pass`] takes the same arguments and gives the same report.
//!
#![cfg_attr(feature = "alloc", doc = "```")]
#![cfg_attr(not(feature = "alloc"), doc = "```ignore")]
//! use hozgrim::{CAPS_EX_MODEX, CacheKind, DeliveryHint, FrameType, Passed, Refusal, Store};
//!
//! /// Whether the message goes to a receiver that is behind.
//! fn relay(type_id: u8, payload: &[u8], store: &mut Store) -> Result<bool, Refusal> {
//!     let Some(frame_type) = FrameType::from_message_type_id(type_id) else {
//!         return Ok(true); // No frame: a command, or a message of the protocol.
//!     };
//!
//!     // An output as long as the payload is always long enough.
//!     let mut output = vec![0; payload.len()];
//!     let Passed { report, kept } =
//!         store.offer(frame_type, payload, CAPS_EX_MODEX, true, &mut output)?;
//!     let result = report.result(&output);
//!     println!("{frame_type}: {}, {}", report.kind, report.hint);
//!
//!     if let Err(error) = kept {
//!         eprintln!("not kept: {error}"); // It goes to those who are there all the same.
//!     }
//!     if report.tracks > 0 {
//!         for track in hozgrim::tracks(frame_type, result)? {
//!             println!("track {}: {}, {} bytes", track.id, track.fourcc, track.payload.len());
//!         }
//!     }
//!     Ok(report.hint != DeliveryHint::Droppable)
//! }
//!
//! // A video container behind one ModEx layer: byte 0, the layer (size, data, option), the
//! // container's head, two tracks.
//! let payload = b"\x97\x02\x00\x00\x2A\x06\
//!     \x11avc1\x00\x00\x00\x03\xAA\xBB\xCC\x01\x00\x00\x02\xDD\xEE";
//! let mut store = Store::default();
//! assert!(relay(9, payload, &mut store)?);
//!
//! // Somebody joins late. A keyframe is held, and no sequence header yet.
//! let (kind, frame) = store.late().next().unwrap();
//! assert_eq!(kind, CacheKind::VideoKeyframe);
//! assert_eq!(frame[..6], *b"\x96\x11avc1");
//! # Ok::<(), Refusal>(())
//! ```
//!
//! # What is proved
//!
//! The answers come from a library in which every function is proved against its contract. Every
//! call takes every byte string and every number, returns, and reads and writes only what it was
//! lent. Every answer equals a definition. What [`write_container`], [`write_modex`] and
//! [`write_flv_frame`] write is read back as it was given, unless [`pass`] refuses the offset of a
//! layer. A track that is read from columns is the one that [`track`] finds in the payload. A slot
//! of a [`Store`] holds what the history says: of all frames that were offered, the last one that
//! decides about this slot. What an [`Uplink`] decides for a viewer is the same whatever is offered
//! to others, and the viewer's shares equal its bytes sent plus its credit left plus its credit cut
//! off, as long as nobody joins or leaves and a tick has the same number of bytes. Some bytes of a
//! frame are sealed, such as sound and picture, since a relay has no business to act on them: what
//! they hold changes nothing that [`pass`], [`pass_in_place`] and [`track`] report, and no byte of
//! a payload changes which frames [`FlvReader`] finds. The byte that [`pass_in_place`] may change
//! is not sealed. [`level`] is made to depend on sound, for who shows which microphone is live. In
//! the repository, `docs/REQUIREMENTS.md` says what each answer is and which bytes are sealed, and
//! `docs/ASSURANCE.md` where each of these stands and what must be believed.
//!
//! This package is Rust and is not proved. It turns numbers into types, tells audio codecs that
//! share a number apart by the FourCC, cuts the payload of a track or of an FLV frame out where the
//! answer says that it lies, lends the buffers of a [`Store`] and the credits of an [`Uplink`] to
//! each call as the last one left them, and columns with their payload as the walk left them, moves
//! credits up where a viewer leaves, and gathers what is to be written. The only unsafe code
//! declares and makes the calls into the library, in `hozgrim-sys`. The library gives no number
//! that has no type here, and no place outside what was lent, so no call panics. If another library
//! was linked in its place, a call may panic; it makes up no answer.
//!
//! No contract says how long a call takes.
//!
//! # What a call costs
//!
//! [`pass`] copies the payload once; [`pass_in_place`] copies nothing and writes at most one byte.
//! Both go over the heads of a container's tracks once, and once more if records are judged.
//!
//! [`Store::offer`] is [`pass`], and copies a frame that is kept once more. [`Store::late`] copies
//! nothing. Only [`Store::new`] allocates.
//!
//! [`Uplink::offer`] looks at one viewer and no other. [`Uplink::tick`] goes over all of them
//! twice. An [`Uplink`] has 328 bytes, and allocates nothing.
//!
//! [`track`] goes over the heads of all tracks. A walk into columns goes over them twice, and to
//! read a track from columns, as a step of [`Tracks`] or [`LentTracks`] does, goes over none. The
//! bodies are not copied. [`ColumnsMut`] does not allocate. [`ColumnBuffers`] do if a container has
//! more tracks than they had entries, and then go over its heads twice more; so do [`tracks`] and
//! [`Columns::walk`], which begin with 16 entries. A track has 21 bytes in the columns, so that 4,096
//! of them, the most that are accepted, take 86 KB.
//!
//! [`level`] goes over the payload once, and copies nothing.
//!
//! [`write_container`] and [`write_modex`] allocate, and copy bodies and the data of layers twice.
//! [`TrackColumns`] and [`LayerColumns`] write to a lent output and copy once, for a caller that
//! has them in one string.
//!
//! [`FlvReader`] copies nothing. A step reads the heads and back-pointers of the tags up to the
//! next frame, and no body. [`write_flv_frame`] copies the payload once, into memory that is filled
//! with zeros first; [`FlvFrame::write_tag`] writes to a lent output.
//!
//! No other call allocates, and none waits for another thread or keeps anything for the next one,
//! but in the [`Store`], the [`Uplink`] or the [`ColumnBuffers`] that it is made on.
//!
//! # Features
//!
//! `alloc`, which is on by default, has [`Store`], [`tracks`], [`Columns`], [`ColumnBuffers`],
//! [`write_container`], [`write_modex`] and [`write_flv_frame`].
//!
//! # The programs `report`, `make`, `recording`, `levels`, `relay`, `late`, `columns` and `uplink`
//!
//! In the folder of this package, `cargo run --example report` prints this about the frame above,
//! and `cargo run --example report 0 AF 00 12 10` says what that audio frame holds.
//!
//! ```text
#![doc = include_str!("../examples/report.txt")]
//! ```
//!
//! `cargo run --example make` makes a frame for a test room, an audio container behind one ModEx
//! layer, and prints it as `report` takes it. `--help` says what else it makes.
//!
//! ```text
#![doc = include_str!("../examples/make.txt")]
//! ```
//!
//! `cargo run --example recording FILE` lists the frames of an FLV file, and without one those of a
//! sample that it writes first.
//!
//! ```text
#![doc = include_str!("../examples/recording.txt")]
//! ```
//!
//! `cargo run --example levels FILE` prints the level of each frame of an FLV file, with a bar that
//! has one mark more for each doubling, and without a file those of a sample.
//!
//! ```text
#![doc = include_str!("../examples/levels.txt")]
//! ```
//!
//! `cargo run --example relay` hands the messages of a room on without copying a payload, to a
//! viewer who keeps up and to one who is behind, who misses what may be dropped up to a point to
//! resume from. Behind them stands what a viewer is sent who joins late.
//!
//! ```text
#![doc = include_str!("../examples/relay.txt")]
//! ```
//!
//! `cargo run --example late` offers the messages of a room to a store, among them a keyframe that
//! is too long for its slot, and prints what a viewer is sent who joins in between.
//!
//! ```text
#![doc = include_str!("../examples/late.txt")]
//! ```
//!
//! `cargo run --example columns` walks containers of a hearing's microphones into columns, lists
//! them, and goes to one microphone by its id, without going over the others.
//!
//! ```text
#![doc = include_str!("../examples/columns.txt")]
//! ```
//!
//! `cargo run --example uplink` offers frames to three viewers who share a line, and draws the
//! credit of each, tick by tick: twice, with other frames for one of them, which changes nothing
//! for the others.
//!
//! ```text
#![doc = include_str!("../examples/uplink.txt")]
//! ```

#![no_std]
#![forbid(unsafe_code)]
#![deny(missing_docs)]
#![cfg_attr(not(feature = "alloc"), allow(rustdoc::broken_intra_doc_links))]

#[cfg(feature = "alloc")]
extern crate alloc;

mod audio_codec;
mod class;
#[cfg(feature = "alloc")]
mod column_buffers;
mod columns;
mod composition_time;
mod container;
mod container_writer;
mod excluded;
mod flv;
mod fourcc;
mod frame_type;
mod header;
mod in_place;
mod level;
mod modex_writer;
mod number;
mod packet_type;
mod refusal;
mod report;
#[cfg(feature = "alloc")]
mod store;
mod uplink;
#[cfg(feature = "alloc")]
mod vectors;

pub use audio_codec::AudioCodec;
pub use class::{CacheKind, Class, DeliveryHint};
#[cfg(feature = "alloc")]
pub use column_buffers::{ColumnBuffers, Columns, Tracks, tracks};
pub use columns::{ColumnsMut, LentColumns, LentTracks};
pub use composition_time::CompositionTime;
pub use container::{Track, Verdict, track};
pub use container_writer::{ContainerHead, Form, NewTrack, TrackColumns};
pub use flv::{FlvFrame, FlvReader, flv_start};
pub use fourcc::FourCc;
pub use frame_type::FrameType;
pub use header::{AudioHeader, Header, HeaderError, VideoHeader};
pub use in_place::pass_in_place;
pub use level::level;
pub use modex_writer::{LayerColumns, ModexType, NewLayer};
pub use number::UnknownNumber;
pub use packet_type::{
    AacPacketType, AudioPacketType, PacketType, VideoFrameType, VideoPacketType,
};
pub use refusal::Refusal;
pub use report::Report;
#[cfg(feature = "alloc")]
pub use store::{Passed, SlotSizes, SlotTooShort, Store};
pub use uplink::{Decision, Uplink};
#[cfg(feature = "alloc")]
pub use vectors::{write_container, write_flv_frame, write_modex};

/// The bit of a capability mask that allows ModEx layers to be peeled off.
pub const CAPS_EX_MODEX: u32 = 0x04;

/// Peels the ModEx layers off a payload, writes the result to the front of `output`, and reports
/// on the result. [`pass_in_place`] does so without a copy.
///
/// The payload is its own result if `caps_ex_mask` lacks [`CAPS_EX_MODEX`], or if the payload has
/// no layers, one that cannot be read, or more than 32. `output` keeps its bytes behind the result.
///
/// # Errors
///
/// `output` then keeps all its bytes. In this order:
///
/// - [`Refusal::OutputTooShort`] if `output` is shorter than the result; one as long as the payload
///   is always long enough;
/// - [`Refusal::Protocol`] if layers are to be peeled off, and one of the type
///   [`ModexType::TIMESTAMP_OFFSET_NANO`] has an offset over 999,999, or under three data bytes.
///   Layers that stay are not judged.
///
/// A header that cannot be read refuses nothing: see [`Report::header`].
///
/// ```
/// use hozgrim::{CAPS_EX_MODEX, FrameType, Refusal, pass};
///
/// let payload = b"\x97\x02\x00\x00\x2A\x01";
/// let mut output = [0; 6];
/// let report = pass(FrameType::Audio, payload, CAPS_EX_MODEX, true, &mut output)?;
/// assert_eq!(report.result(&output), b"\x91");
/// assert_eq!(report.composition_time.offset(), 42);
///
/// let refused = pass(FrameType::Audio, payload, 0, true, &mut output[..5]);
/// assert_eq!(refused, Err(Refusal::OutputTooShort));
///
/// // An offset of one data byte.
/// let payload = b"\x97\x00\xAA\x01";
/// let refused = pass(FrameType::Audio, payload, CAPS_EX_MODEX, true, &mut output);
/// assert_eq!(refused, Err(Refusal::Protocol));
/// let report = pass(FrameType::Audio, payload, 0, true, &mut output)?;
/// assert_eq!(report.result(&output), payload);
/// # Ok::<(), Refusal>(())
/// ```
pub fn pass(
    frame_type: FrameType,
    payload: &[u8],
    caps_ex_mask: u32,
    route_has_video: bool,
    output: &mut [u8],
) -> Result<Report, Refusal> {
    let report = hozgrim_sys::pass(
        frame_type.into(),
        payload,
        caps_ex_mask,
        route_has_video.into(),
        output,
    );
    Refusal::check(report.error, 0)?;
    Ok(Report::of(frame_type, &report))
}

/// Cache kind and delivery hint of a payload as it is: no layer is peeled off.
///
/// [`pass`] reports both of its result.
///
/// ```
/// use hozgrim::{CacheKind, Class, DeliveryHint, FrameType, classify};
///
/// let Class { kind, hint } = classify(FrameType::Audio, b"\xAF\x00\x12\x10", true);
/// assert_eq!(kind, CacheKind::AudioSequenceHeader);
/// assert_eq!(hint, DeliveryHint::Critical);
/// ```
#[must_use]
pub fn classify(frame_type: FrameType, payload: &[u8], route_has_video: bool) -> Class {
    // The error is 0 for each frame type that is known: `hozgrim_class`, hozgrim/specs/Entries.
    let class = hozgrim_sys::classify(frame_type.into(), payload, route_has_video.into());
    Class::of(class.kind, class.hint)
}
