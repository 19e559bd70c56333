use hozgrim_sys::ColumnsCall;

use crate::excluded::excluded;
use crate::{FourCc, FrameType, Refusal, Track, TrackColumns};

/// Columns to walk a container into: entry `i` of each will say one thing of track `i`.
///
/// Each has an entry for every track, or more; 4,096 are enough for any container. They may be
/// arrays, so that nothing is allocated. [`ColumnBuffers`](crate::ColumnBuffers) are columns that
/// grow.
///
/// ```
/// use hozgrim::{ColumnsMut, FrameType, Refusal};
///
/// let payload = b"\x95\x11Opus\x01\x00\x00\x01\xAA\x02\x00\x00\x02\xBB\xCC";
/// let (mut ids, mut fourccs) = ([0; 64], [0; 64]);
/// let (mut starts, mut lengths) = ([0; 64], [0; 64]);
/// let memory = ColumnsMut {
///     ids: &mut ids,
///     fourccs: &mut fourccs,
///     starts: &mut starts,
///     lengths: &mut lengths,
/// };
/// let columns = memory.walk(FrameType::Audio, payload)?;
/// assert_eq!(columns.len(), 2);
/// assert_eq!(columns.track(1)?.payload, b"\xBB\xCC");
/// for track in columns {
///     println!("track {}: {}, {} bytes", track.id, track.fourcc, track.payload.len());
/// }
/// # Ok::<(), Refusal>(())
/// ```
#[derive(Debug, Default)]
pub struct ColumnsMut<'c> {
    /// For ids.
    pub ids: &'c mut [u8],
    /// For FourCCs, as [numbers](crate::FourCc::number).
    pub fourccs: &'c mut [u32],
    /// For where each body starts in the payload.
    pub starts: &'c mut [usize],
    /// For how long each body is.
    pub lengths: &'c mut [usize],
}

impl<'c> ColumnsMut<'c> {
    /// Puts all tracks of a payload as it is into the columns, in their order. Entries behind the
    /// last track are kept.
    ///
    /// The tracks are those that [`track`](crate::track) finds.
    ///
    /// # Errors
    ///
    /// The columns then keep all their entries. In this order:
    ///
    /// - [`Refusal::NotAContainer`] if the payload is anything but an accepted container;
    /// - [`Refusal::OutputTooShort`] if any of the columns has fewer entries than there are tracks,
    ///   or the payload over 16,777,215 bytes, which no RTMP message has.
    ///
    /// ```
    /// use hozgrim::{ColumnsMut, FrameType, Refusal};
    ///
    /// let mut ids = [7; 2];
    /// let memory = ColumnsMut {
    ///     ids: &mut ids,
    ///     ..ColumnsMut::default() // The other three have no entries.
    /// };
    /// let refused = memory.walk(FrameType::Audio, b"\x95\x01Opus\x01");
    /// assert_eq!(refused, Err(Refusal::OutputTooShort));
    /// assert_eq!(ids, [7; 2]);
    /// ```
    #[inline]
    pub fn walk<'p>(
        self,
        frame_type: FrameType,
        payload: &'p [u8],
    ) -> Result<LentColumns<'c, 'p>, Refusal> {
        let lent = hozgrim_sys::ColumnsMut {
            ids: &mut *self.ids,
            fourccs: &mut *self.fourccs,
            starts: &mut *self.starts,
            lengths: &mut *self.lengths,
        };
        let walked = hozgrim_sys::walk_columns(frame_type.into(), payload, lent);
        Refusal::check(walked.error, 0)?;
        // No column is shorter than the count: `room_error`, track_columns/specs/Columns.
        Ok(LentColumns {
            frame_type,
            ids: &self.ids[..walked.count],
            fourccs: &self.fourccs[..walked.count],
            starts: &self.starts[..walked.count],
            lengths: &self.lengths[..walked.count],
            payload,
        })
    }
}

/// Columns as a walk left them, lent together with the payload that was walked. Only a walk makes
/// them, and neither columns nor payload can change while they are lent, so that they belong
/// together.
///
/// To read a track from them takes as long for the last one as for the first. A track is a part of
/// the payload, and outlives the columns.
///
/// ```compile_fail,E0506
/// use hozgrim::{ColumnsMut, FrameType};
///
/// let (mut ids, mut fourccs, mut starts, mut lengths) = ([0; 1], [0; 1], [0; 1], [0; 1]);
/// let memory = ColumnsMut {
///     ids: &mut ids,
///     fourccs: &mut fourccs,
///     starts: &mut starts,
///     lengths: &mut lengths,
/// };
/// let columns = memory.walk(FrameType::Audio, b"\x95\x01Opus\x07")?;
/// starts[0] = 0; // They are lent.
/// columns.track(0)?;
/// # Ok::<(), hozgrim::Refusal>(())
/// ```
#[derive(Clone, Copy, Debug, PartialEq, Eq, Hash)]
pub struct LentColumns<'c, 'p> {
    pub(crate) frame_type: FrameType,
    // Each has as many entries as there are tracks.
    pub(crate) ids: &'c [u8],
    pub(crate) fourccs: &'c [u32],
    pub(crate) starts: &'c [usize],
    pub(crate) lengths: &'c [usize],
    pub(crate) payload: &'p [u8],
}

#[expect(
    clippy::len_without_is_empty,
    reason = "an accepted container has a track"
)]
impl<'c, 'p> LentColumns<'c, 'p> {
    /// How many tracks the container has, 1 to 4,096.
    #[must_use]
    #[inline]
    pub const fn len(self) -> usize {
        self.ids.len()
    }

    /// The track of this number, from 0 on: what [`track`](crate::track) gives for the payload.
    ///
    /// # Errors
    ///
    /// [`Refusal::NoSuchTrack`] if there are fewer tracks.
    #[inline]
    pub fn track(self, number: usize) -> Result<Track<'p>, Refusal> {
        let call = ColumnsCall {
            frame_type: self.frame_type.into(),
            count: self.len(),
            ids: self.ids,
            fourccs: self.fourccs,
            starts: self.starts,
            lengths: self.lengths,
            payload: self.payload,
        };
        let track = hozgrim_sys::column_track(&call, number);
        Refusal::check(track.error, track.count)?;
        Ok(Track::of(self.frame_type, self.payload, &track))
    }

    /// The first track. There is one, and a number below the count is not refused: `columns_equal_lem`,
    /// track_columns/proofs.
    pub(crate) fn first(self) -> Track<'p> {
        self.read(0)
    }

    fn read(self, number: usize) -> Track<'p> {
        self.track(number).unwrap_or_else(|refusal| {
            excluded(
                "error",
                refusal.number(),
                "column_track, track_columns/specs/Columns",
            )
        })
    }

    /// The track of a number below the count, beside the first. Entries are what the tracks say:
    /// `columns_entries_lem`, track_columns/proofs. All tracks share packet type and video frame type,
    /// and have records or not: `column_found`, track_columns/specs/Columns, and `record_verdict`,
    /// frame/specs/Pass. So the library is asked only if there is a record to judge.
    #[inline]
    pub(crate) fn beside(self, first: &Track<'p>, number: usize) -> Track<'p> {
        if first.verdict.is_some() {
            return self.read(number);
        }
        let start = self.starts[number];
        Track {
            id: self.ids[number],
            fourcc: FourCc::from_number(self.fourccs[number]),
            start,
            payload: &self.payload[start..][..self.lengths[number]],
            ..*first
        }
    }

    /// The columns themselves, so that lent and owned ones are asked alike.
    #[inline]
    pub(crate) const fn lent(self) -> Self {
        self
    }

    /// All tracks, in their order.
    #[inline]
    pub fn iter(self) -> LentTracks<'c, 'p> {
        LentTracks::new(self)
    }

    /// The columns themselves, with the payload as bodies, as they can be written again.
    ///
    /// ```
    /// use hozgrim::{
    ///     AudioPacketType, ColumnsMut, ContainerHead, Form, FrameType, Refusal, TrackColumns,
    /// };
    ///
    /// let payload = b"\x95\x11Opus\x01\x00\x00\x01\xAA\x02\x00\x00\x02\xBB\xCC";
    /// let (mut ids, mut fourccs, mut starts, mut lengths) = ([0; 4], [0; 4], [0; 4], [0; 4]);
    /// let memory = ColumnsMut {
    ///     ids: &mut ids,
    ///     fourccs: &mut fourccs,
    ///     starts: &mut starts,
    ///     lengths: &mut lengths,
    /// };
    /// let columns = memory.walk(FrameType::Audio, payload)?.track_columns();
    /// assert_eq!(columns.ids, [1, 2]);
    /// assert_eq!(columns.lengths, [1, 2]);
    ///
    /// // The same bodies under other ids.
    /// let renamed = TrackColumns {
    ///     ids: &[8, 9],
    ///     ..columns
    /// };
    /// let head = ContainerHead::Audio {
    ///     form: Form::ManyTracks,
    ///     packet_type: AudioPacketType::CODED_FRAMES,
    /// };
    /// let mut output = [0; 32];
    /// let length = renamed.write_container(head, &mut output)?;
    /// assert_eq!(output[..length], *b"\x95\x11Opus\x08\x00\x00\x01\xAA\x09\x00\x00\x02\xBB\xCC");
    /// # Ok::<(), Refusal>(())
    /// ```
    #[must_use]
    pub const fn track_columns<'a>(self) -> TrackColumns<'a>
    where
        'c: 'a,
        'p: 'a,
    {
        TrackColumns {
            ids: self.ids,
            fourccs: self.fourccs,
            starts: self.starts,
            lengths: self.lengths,
            bodies: self.payload,
        }
    }
}

impl<'c, 'p> IntoIterator for LentColumns<'c, 'p> {
    type Item = Track<'p>;
    type IntoIter = LentTracks<'c, 'p>;

    #[inline]
    fn into_iter(self) -> LentTracks<'c, 'p> {
        self.iter()
    }
}

/// An iterator over the tracks in columns, lent ones or its own.
macro_rules! track_iterator {
    ($(#[$about:meta])* $name:ident<$($lifetime:lifetime),+>: $columns:ty, $track:ty) => {
        $(#[$about])*
        #[derive(Clone, Debug)]
        #[must_use = "iterators are lazy and do nothing unless consumed"]
        pub struct $name<$($lifetime),+> {
            columns: $columns,
            first: $track,
            numbers: core::ops::Range<usize>,
        }

        impl<$($lifetime),+> $name<$($lifetime),+> {
            #[inline]
            pub(crate) fn new(columns: $columns) -> Self {
                Self {
                    first: columns.lent().first(),
                    numbers: 0..columns.len(),
                    columns,
                }
            }

            #[inline]
            fn track(&self, number: usize) -> $track {
                self.columns.lent().beside(&self.first, number)
            }
        }

        impl<$($lifetime),+> Iterator for $name<$($lifetime),+> {
            type Item = $track;

            #[inline]
            fn next(&mut self) -> Option<$track> {
                let number = self.numbers.next()?;
                Some(self.track(number))
            }

            fn size_hint(&self) -> (usize, Option<usize>) {
                self.numbers.size_hint()
            }

            #[inline]
            fn nth(&mut self, n: usize) -> Option<$track> {
                let number = self.numbers.nth(n)?;
                Some(self.track(number))
            }

            fn count(self) -> usize {
                self.len()
            }

            fn last(mut self) -> Option<$track> {
                self.next_back()
            }
        }

        impl<$($lifetime),+> DoubleEndedIterator for $name<$($lifetime),+> {
            #[inline]
            fn next_back(&mut self) -> Option<$track> {
                let number = self.numbers.next_back()?;
                Some(self.track(number))
            }

            #[inline]
            fn nth_back(&mut self, n: usize) -> Option<$track> {
                let number = self.numbers.nth_back(n)?;
                Some(self.track(number))
            }
        }

        impl<$($lifetime),+> ExactSizeIterator for $name<$($lifetime),+> {}

        impl<$($lifetime),+> core::iter::FusedIterator for $name<$($lifetime),+> {}
    };
}

#[cfg(feature = "alloc")]
pub(crate) use track_iterator;

track_iterator! {
    /// An iterator over the tracks in lent columns, made by [`LentColumns::iter`].
    ///
    /// A step takes one entry of each column, and so do [`nth`](Iterator::nth),
    /// [`last`](Iterator::last) and steps from the back. Only where tracks have records the library
    /// is asked, for the verdict.
    LentTracks<'c, 'p>: LentColumns<'c, 'p>, Track<'p>
}

#[cfg(test)]
mod tests {
    use super::*;

    #[test]
    #[should_panic(expected = "error -23 is excluded")]
    fn no_reading_goes_past_the_count() {
        let columns = LentColumns {
            frame_type: FrameType::Audio,
            ids: &[7],
            fourccs: &[0],
            starts: &[7],
            lengths: &[0],
            payload: b"\x95\x01Opus\x07",
        };
        columns.read(1);
    }
}
