//! Columns with memory of their own.

use alloc::vec;
use alloc::vec::Vec;

use crate::columns::track_iterator;
use crate::{ColumnsMut, FrameType, LentColumns, LentTracks, Refusal, Track, TrackColumns};

/// How many entries columns have at first. Few containers have more tracks.
const FEW: usize = 16;

/// Columns to walk one container after the other into, for a relay: they grow to the longest
/// container that came, and from then on nothing is allocated.
///
/// [`Columns`] are for one container.
///
/// ```
/// use hozgrim::{ColumnBuffers, FrameType, Refusal};
///
/// /// What a microphone sends, wherever it stands among the others.
/// fn heard<'p>(
///     payload: &'p [u8],
///     id: u8,
///     buffers: &mut ColumnBuffers,
/// ) -> Result<Option<&'p [u8]>, Refusal> {
///     let columns = buffers.walk(FrameType::Audio, payload)?;
///     let mut ids = columns.track_columns().ids.iter();
///     let Some(number) = ids.position(|found| *found == id) else {
///         return Ok(None);
///     };
///     Ok(Some(columns.track(number)?.payload))
/// }
///
/// let mut buffers = ColumnBuffers::default();
/// let first = b"\x95\x11Opus\x01\x00\x00\x01\xAA\x02\x00\x00\x02\xBB\xCC";
/// assert_eq!(heard(first, 2, &mut buffers)?, Some(&b"\xBB\xCC"[..]));
/// let second = b"\x95\x11Opus\x02\x00\x00\x01\xDD\x03\x00\x00\x00";
/// assert_eq!(heard(second, 2, &mut buffers)?, Some(&b"\xDD"[..]));
/// assert_eq!(heard(second, 1, &mut buffers)?, None);
/// # Ok::<(), Refusal>(())
/// ```
#[derive(Clone, Debug, Default)]
pub struct ColumnBuffers {
    // All have the same length.
    ids: Vec<u8>,
    fourccs: Vec<u32>,
    starts: Vec<usize>,
    lengths: Vec<usize>,
}

impl ColumnBuffers {
    /// Columns for so many tracks: no walk of a container that has no more allocates. 4,096 are
    /// enough for any container, and take 86 KB.
    ///
    /// # Panics
    ///
    /// If there is not so much memory, as any allocation does.
    #[must_use]
    pub fn with_capacity(tracks: usize) -> Self {
        Self {
            ids: vec![0; tracks],
            fourccs: vec![0; tracks],
            starts: vec![0; tracks],
            lengths: vec![0; tracks],
        }
    }

    /// Walks a payload as it is, and lends the columns until the next walk.
    ///
    /// # Errors
    ///
    /// [`Refusal::NotAContainer`] and [`Refusal::OutputTooShort`] as [`ColumnsMut::walk`] has them;
    /// the columns are long enough, so that the last one is about a payload over 16,777,215 bytes.
    pub fn walk<'p>(
        &mut self,
        frame_type: FrameType,
        payload: &'p [u8],
    ) -> Result<LentColumns<'_, 'p>, Refusal> {
        let count = self.fill(frame_type, payload)?;
        Ok(self.lent(frame_type, payload, count))
    }

    /// How many tracks were put into the columns.
    fn fill(&mut self, frame_type: FrameType, payload: &[u8]) -> Result<usize, Refusal> {
        self.grow(FEW);
        let walked = self.fill_as_they_are(frame_type, payload);
        if walked != Err(Refusal::OutputTooShort) {
            return walked;
        }
        // To count goes over all heads once more. A bound by the payload's length would not, but
        // ask for thousands of entries for a few long bodies.
        let none = hozgrim_sys::track(frame_type.into(), payload, usize::MAX);
        self.grow(none.count);
        self.fill_as_they_are(frame_type, payload)
    }

    fn fill_as_they_are(
        &mut self,
        frame_type: FrameType,
        payload: &[u8],
    ) -> Result<usize, Refusal> {
        let columns = ColumnsMut {
            ids: &mut self.ids,
            fourccs: &mut self.fourccs,
            starts: &mut self.starts,
            lengths: &mut self.lengths,
        };
        columns.walk(frame_type, payload).map(LentColumns::len)
    }

    /// To so many entries, if there are fewer.
    fn grow(&mut self, count: usize) {
        if self.ids.len() < count {
            self.ids.resize(count, 0);
            self.fourccs.resize(count, 0);
            self.starts.resize(count, 0);
            self.lengths.resize(count, 0);
        }
    }

    /// To so many entries, if there are more.
    fn cut(&mut self, count: usize) {
        self.ids.truncate(count);
        self.fourccs.truncate(count);
        self.starts.truncate(count);
        self.lengths.truncate(count);
    }

    /// The columns of the last walk, which found so many tracks in this payload.
    #[inline]
    fn lent<'p>(
        &self,
        frame_type: FrameType,
        payload: &'p [u8],
        count: usize,
    ) -> LentColumns<'_, 'p> {
        LentColumns {
            frame_type,
            ids: &self.ids[..count],
            fourccs: &self.fourccs[..count],
            starts: &self.starts[..count],
            lengths: &self.lengths[..count],
            payload,
        }
    }
}

/// The tracks of one container in columns, with the payload that they are parts of. Only a walk
/// makes them, so that they belong to the payload.
///
/// To read a track from them takes as long for the last one as for the first.
///
/// ```
/// use hozgrim::{Columns, FrameType, Refusal, track};
///
/// let payload = b"\x95\x11Opus\x01\x00\x00\x01\xAA\x02\x00\x00\x02\xBB\xCC";
/// let columns = Columns::walk(FrameType::Audio, payload)?;
/// assert_eq!(columns.len(), 2);
/// for number in [0, 1, 2, usize::MAX] {
///     assert_eq!(columns.track(number), track(FrameType::Audio, payload, number));
/// }
/// for track in &columns {
///     println!("track {}: {}, {} bytes", track.id, track.fourcc, track.payload.len());
/// }
/// # Ok::<(), Refusal>(())
/// ```
#[derive(Clone, Debug)]
pub struct Columns<'p> {
    frame_type: FrameType,
    // With as many entries as there are tracks.
    columns: ColumnBuffers,
    payload: &'p [u8],
}

#[expect(
    clippy::len_without_is_empty,
    reason = "an accepted container has a track"
)]
impl<'p> Columns<'p> {
    /// Walks a payload as it is. [`ColumnBuffers::walk`] does so without a new allocation.
    ///
    /// # Errors
    ///
    /// [`Refusal::NotAContainer`] if the payload is anything but an accepted container; else
    /// [`Refusal::OutputTooShort`] if it has over 16,777,215 bytes, which no RTMP message has.
    pub fn walk(frame_type: FrameType, payload: &'p [u8]) -> Result<Self, Refusal> {
        let mut columns = ColumnBuffers::default();
        let count = columns.fill(frame_type, payload)?;
        columns.cut(count);
        Ok(Self {
            frame_type,
            columns,
            payload,
        })
    }

    /// The columns, lent as they are.
    #[must_use]
    #[inline]
    pub fn lent(&self) -> LentColumns<'_, 'p> {
        self.columns.lent(self.frame_type, self.payload, self.len())
    }

    /// How many tracks the container has, 1 to 4,096.
    #[must_use]
    #[inline]
    pub fn len(&self) -> usize {
        self.columns.ids.len()
    }

    /// The track of this number, from 0 on: what [`track`](crate::track) gives for the payload.
    ///
    /// # Errors
    ///
    /// [`Refusal::NoSuchTrack`] if there are fewer tracks.
    #[inline]
    pub fn track(&self, number: usize) -> Result<Track<'p>, Refusal> {
        self.lent().track(number)
    }

    /// All tracks, in their order.
    #[inline]
    pub fn iter(&self) -> LentTracks<'_, 'p> {
        self.lent().iter()
    }

    /// The columns themselves, as [`LentColumns::track_columns`] has them.
    #[must_use]
    pub fn track_columns(&self) -> TrackColumns<'_> {
        self.lent().track_columns()
    }
}

impl<'p> IntoIterator for Columns<'p> {
    type Item = Track<'p>;
    type IntoIter = Tracks<'p>;

    fn into_iter(self) -> Tracks<'p> {
        Tracks::new(self)
    }
}

impl<'c, 'p> IntoIterator for &'c Columns<'p> {
    type Item = Track<'p>;
    type IntoIter = LentTracks<'c, 'p>;

    #[inline]
    fn into_iter(self) -> LentTracks<'c, 'p> {
        self.iter()
    }
}

/// The tracks of a payload as it is, in their order.
///
/// For the tracks that [`pass`](crate::pass) counts, lend the result.
///
/// A container is accepted if its head is legal and its tracks, 1 to 4,096 of them, fill the rest
/// to the last byte. Of any other payload no track is handed out.
///
/// A head that names a container inside the container is not legal: a packet type of
/// [`VideoPacketType::MULTITRACK`](crate::VideoPacketType::MULTITRACK) in video, or of
/// [`AudioPacketType::MULTITRACK`](crate::AudioPacketType::MULTITRACK) in audio.
///
/// The payload is walked once, into [`Columns`], of which each step takes one entry. To walk without
/// a new allocation there are [`ColumnBuffers`] and [`ColumnsMut`].
///
/// # Errors
///
/// [`Refusal::NotAContainer`] if the payload is anything but an accepted container; else
/// [`Refusal::OutputTooShort`] if it has over 16,777,215 bytes, which no RTMP message has:
/// [`track`](crate::track) takes such a container too.
///
/// ```
/// use hozgrim::{FrameType, Refusal, tracks};
///
/// let payload = b"\x95\x11Opus\x01\x00\x00\x01\xAA\x02\x00\x00\x02\xBB\xCC";
/// let mut bodies = tracks(FrameType::Audio, payload)?.map(|track| track.payload);
/// assert_eq!(bodies.len(), 2);
/// assert_eq!(bodies.next(), Some(&b"\xAA"[..]));
/// assert_eq!(bodies.next(), Some(&b"\xBB\xCC"[..]));
/// assert_eq!(bodies.next(), None);
///
/// // Video that names video containers (packet type 6) as its tracks.
/// let nested = tracks(FrameType::Video, b"\x96\x06avc1\x00\xAA");
/// assert_eq!(nested.err(), Some(Refusal::NotAContainer));
/// # Ok::<(), Refusal>(())
/// ```
pub fn tracks(frame_type: FrameType, payload: &[u8]) -> Result<Tracks<'_>, Refusal> {
    Columns::walk(frame_type, payload).map(Columns::into_iter)
}

track_iterator! {
    /// An iterator over the tracks of an accepted container, made by [`tracks`]. It owns their
    /// [`Columns`].
    ///
    /// A step takes one entry of each column, and so do [`nth`](Iterator::nth),
    /// [`last`](Iterator::last) and steps from the back. Only where tracks have records the library
    /// is asked, for the verdict.
    Tracks<'p>: Columns<'p>, Track<'p>
}
