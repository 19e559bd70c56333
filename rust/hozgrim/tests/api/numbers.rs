//! The answers of the package, turned back into those of the entries: so a test sees that nothing
//! is lost or changed on the way.

use std::ptr;

use common::writing::{ContainerArguments, ModexArguments};
use hozgrim::{
    AudioHeader, Class, Columns, ColumnsMut, CompositionTime, ContainerHead, Decision,
    DeliveryHint, FlvFrame, FlvReader, Form, FourCc, FrameType, Header, HeaderError, LayerColumns,
    Passed, Refusal, Report, Store, Track, TrackColumns, Uplink, Verdict, VideoHeader,
};
use hozgrim_sys::{
    HozgrimClass, HozgrimColumns, HozgrimFlvFrame, HozgrimFlvStart, HozgrimLevel, HozgrimOffer,
    HozgrimPlaced, HozgrimReport, HozgrimSplitTime, HozgrimStored, HozgrimTrack, HozgrimWritten,
    OfferCall, StoreCall,
};

pub fn pass(number: u32, payload: &[u8], mask: u32, flag: u32, output: &mut [u8]) -> HozgrimReport {
    let answer = FrameType::try_from(number)
        .and_then(|known| hozgrim::pass(known, payload, mask, flag != 0, output));
    match answer {
        Ok(report) => of_report(&report),
        Err(refusal) => of_refusal(refusal),
    }
}

/// The range must be as long as the result, and end where the payload ends.
pub fn pass_in_place(number: u32, payload: &mut [u8], mask: u32, flag: u32) -> HozgrimPlaced {
    let answer = FrameType::try_from(number)
        .and_then(|known| hozgrim::pass_in_place(known, payload, mask, flag != 0));
    match answer {
        Ok((report, range)) => {
            assert_eq!((range.len(), range.end), (report.result_len, payload.len()));
            HozgrimPlaced {
                report: of_report(&report),
                start: range.start,
            }
        }
        Err(refusal) => HozgrimPlaced {
            report: of_refusal(refusal),
            start: 0,
        },
    }
}

/// A frame that is too long must be named with its kind and length.
pub fn store_frame(store: &mut Store, call: &StoreCall, output: &mut [u8]) -> HozgrimStored {
    let has_video = call.route_has_video != 0;
    let answer = FrameType::try_from(call.frame_type)
        .and_then(|known| store.offer(known, call.payload, call.caps_ex_mask, has_video, output));
    match answer {
        Ok(Passed { report, kept }) => HozgrimStored {
            error: kept.map_or_else(
                |error| {
                    assert_eq!(
                        (error.kind, error.frame_len),
                        (report.kind, report.result_len)
                    );
                    error.number()
                },
                |()| 0,
            ),
            report: of_report(&report),
        },
        Err(refusal) => HozgrimStored {
            error: refusal.number(),
            report: of_refusal(refusal),
        },
    }
}

pub fn classify(number: u32, payload: &[u8], flag: u32) -> HozgrimClass {
    match FrameType::try_from(number) {
        Ok(known) => {
            let Class { kind, hint } = hozgrim::classify(known, payload, flag != 0);
            HozgrimClass {
                error: 0,
                kind: kind.into(),
                hint: hint.into(),
            }
        }
        Err(refusal) => HozgrimClass {
            error: refusal.number(),
            ..HozgrimClass::default()
        },
    }
}

pub fn track(number: u32, payload: &[u8], track: usize) -> HozgrimTrack {
    let tracks = FrameType::try_from(number).and_then(|known| {
        let count = hozgrim::tracks(known, payload)?.len();
        let track = hozgrim::track(known, payload, track)?;
        Ok(of_track(payload, &track, count))
    });
    tracks.unwrap_or_else(no_track)
}

fn no_track(refusal: Refusal) -> HozgrimTrack {
    HozgrimTrack {
        error: refusal.number(),
        count: match refusal {
            Refusal::NoSuchTrack { count } => count,
            _ => 0,
        },
        ..HozgrimTrack::default()
    }
}

pub fn walk_columns(number: u32, payload: &[u8], columns: ColumnsMut) -> HozgrimColumns {
    let walked = FrameType::try_from(number).and_then(|known| columns.walk(known, payload));
    match walked {
        Ok(columns) => HozgrimColumns {
            error: 0,
            count: columns.len(),
        },
        Err(refusal) => HozgrimColumns {
            error: refusal.number(),
            count: 0,
        },
    }
}

/// Of columns that are walked for it, if that is not refused.
pub fn column_track(number: u32, payload: &[u8], track: usize) -> Result<HozgrimTrack, Refusal> {
    let columns = Columns::walk(FrameType::try_from(number)?, payload)?;
    Ok(match columns.track(track) {
        Ok(track) => of_track(payload, &track, columns.len()),
        Err(refusal) => no_track(refusal),
    })
}

/// Of all steps over such columns.
pub fn steps(number: u32, payload: &[u8]) -> Result<Vec<HozgrimTrack>, Refusal> {
    let tracks = hozgrim::tracks(FrameType::try_from(number)?, payload)?;
    let count = tracks.len();
    Ok(tracks
        .map(|track| of_track(payload, &track, count))
        .collect())
}

pub fn uplink_tick(uplink: &mut Uplink, bytes: u32) -> i32 {
    uplink.tick(bytes).map_or_else(Refusal::number, |()| 0)
}

/// None if no delivery hint has the number. The viewers must be those of the uplink.
pub fn uplink_offer(uplink: &mut Uplink, call: OfferCall) -> Option<HozgrimOffer> {
    assert_eq!(uplink.viewers(), call.viewers);
    let hint = DeliveryHint::try_from(call.hint).ok()?;
    let answer = uplink.offer(call.viewer, hint, call.length);
    Some(HozgrimOffer {
        error: answer.map_or_else(Refusal::number, |_| 0),
        decision: decision(answer.ok()),
    })
}

pub fn level(number: u32, payload: &[u8]) -> HozgrimLevel {
    match FrameType::try_from(number) {
        Ok(known) => HozgrimLevel {
            error: 0,
            level: hozgrim::level(known, payload),
        },
        Err(refusal) => HozgrimLevel {
            error: refusal.number(),
            level: 0,
        },
    }
}

pub fn split_time(ns: i64) -> HozgrimSplitTime {
    let time = CompositionTime::new(ns);
    HozgrimSplitTime {
        milliseconds: time.milliseconds(),
        offset: time.offset(),
    }
}

/// None if the types of the package cannot say these arguments.
pub fn write_container(call: &ContainerArguments, output: &mut [u8]) -> Option<HozgrimWritten> {
    let known = match FrameType::try_from(call.frame_type) {
        Ok(known) => known,
        Err(refusal) => return Some(written(Err(refusal))),
    };
    let answer = track_columns(call)?.write_container(head(call, known)?, output);
    Some(written(answer))
}

fn head(call: &ContainerArguments, known: FrameType) -> Option<ContainerHead> {
    let form = Form::try_from(call.form).ok()?;
    let packet_type = u8::try_from(call.packet_type).ok()?;
    match known {
        FrameType::Audio => Some(ContainerHead::Audio {
            form,
            packet_type: packet_type.into(),
        }),
        FrameType::Video => Some(ContainerHead::Video {
            form,
            packet_type: packet_type.into(),
            video_frame_type: u8::try_from(call.video_frame_type).ok()?.into(),
        }),
        FrameType::Script | FrameType::Metadata => None,
    }
}

fn track_columns(call: &ContainerArguments) -> Option<TrackColumns<'_>> {
    Some(TrackColumns {
        ids: call.ids.get(..call.count)?,
        fourccs: &call.fourccs,
        starts: &call.bodies.starts,
        lengths: &call.bodies.lengths,
        bodies: &call.bodies.lent,
    })
}

/// None if there are fewer types than layers.
pub fn write_modex(call: &ModexArguments, output: &mut [u8]) -> Option<HozgrimWritten> {
    let columns = LayerColumns {
        types: call.types.get(..call.count)?,
        starts: &call.data.starts,
        lengths: &call.data.lengths,
        data: &call.data.lent,
    };
    let answer = FrameType::try_from(call.frame_type)
        .and_then(|known| columns.write_modex(known, &call.payload, output));
    Some(written(answer))
}

pub fn flv_start(file: &[u8]) -> HozgrimFlvStart {
    match FlvReader::new(file) {
        Ok(reader) => HozgrimFlvStart {
            error: 0,
            next: reader.place(),
        },
        Err(refusal) => HozgrimFlvStart {
            error: refusal.number(),
            next: 0,
        },
    }
}

/// The part must be the file's own memory, in front of the back-pointer.
pub fn flv_next(file: &[u8], at: usize) -> HozgrimFlvFrame {
    let mut reader = FlvReader::resume(file, at);
    assert_eq!(reader.place(), at);
    let item = reader.next();
    let next = reader.place();
    match item {
        Some(Ok(frame)) => {
            let length = frame.payload.len();
            let start = next - 4 - length;
            assert!(ptr::eq(frame.payload, &file[start..start + length]));
            HozgrimFlvFrame {
                error: 0,
                found: 1,
                frame_type: frame.frame_type.into(),
                timestamp: frame.timestamp,
                start,
                length,
                next,
            }
        }
        Some(Err(refusal)) => {
            assert_eq!(next, at);
            HozgrimFlvFrame {
                error: refusal.number(),
                ..HozgrimFlvFrame::default()
            }
        }
        None => HozgrimFlvFrame {
            next,
            ..HozgrimFlvFrame::default()
        },
    }
}

pub fn flv_write_frame(
    number: u32,
    timestamp: u32,
    payload: &[u8],
    output: &mut [u8],
) -> HozgrimWritten {
    let answer = FrameType::try_from(number).and_then(|frame_type| {
        let frame = FlvFrame {
            frame_type,
            timestamp,
            payload,
        };
        frame.write_tag(output)
    });
    written(answer)
}

fn written(answer: Result<usize, Refusal>) -> HozgrimWritten {
    match answer {
        Ok(length) => HozgrimWritten { error: 0, length },
        Err(refusal) => HozgrimWritten {
            error: refusal.number(),
            length: 0,
        },
    }
}

fn of_report(report: &Report) -> HozgrimReport {
    HozgrimReport {
        kind: report.kind.into(),
        hint: report.hint.into(),
        result_length: report.result_len,
        composition_time_ns: report.composition_time.nanoseconds(),
        tracks: report.tracks,
        records: report.records,
        valid_records: report.valid_records,
        ..match &report.header {
            Ok(None) => HozgrimReport::default(),
            Ok(Some(Header::Audio(header))) => of_audio(header),
            Ok(Some(Header::Video(header))) => of_video(header),
            Err(error) => of_error(error),
        }
    }
}

fn of_refusal(refusal: Refusal) -> HozgrimReport {
    HozgrimReport {
        error: refusal.number(),
        ..HozgrimReport::default()
    }
}

fn of_audio(header: &AudioHeader) -> HozgrimReport {
    HozgrimReport {
        header_size: header.size,
        is_ex_header: header.is_enhanced().into(),
        packet_type: header.packet_type.map_or(0, u8::from),
        audio_codec: header.codec.number(),
        sample_rate: header.sample_rate,
        sample_size: header.sample_size,
        channels: header.channels,
        aac_packet_type: header.aac_packet_type.map_or(0, u8::from),
        fourcc: fourcc(header.fourcc),
        ..HozgrimReport::default()
    }
}

fn of_video(header: &VideoHeader) -> HozgrimReport {
    HozgrimReport {
        header_size: header.size,
        is_ex_header: header.is_enhanced().into(),
        packet_type: header.packet_type.map_or(0, u8::from),
        frame_type: header.video_frame_type.number(),
        fourcc: fourcc(header.fourcc),
        ..HozgrimReport::default()
    }
}

fn of_error(error: &HeaderError) -> HozgrimReport {
    let read = match error {
        HeaderError::Io { read } => read.as_ref(),
        HeaderError::Unsupported => None,
    };
    HozgrimReport {
        header_error: error.number(),
        ..read.map(of_video).unwrap_or_default()
    }
}

/// The part must be the payload's own memory.
fn of_track(payload: &[u8], track: &Track, count: usize) -> HozgrimTrack {
    let length = track.payload.len();
    let part = &payload[track.start..track.start + length];
    assert!(ptr::eq(track.payload, part));
    HozgrimTrack {
        error: 0,
        fourcc: track.fourcc.number(),
        count,
        start: track.start,
        length,
        track_id: track.id,
        packet_type: track.packet_type.number(),
        video_frame_type: track.video_frame_type.map_or(0, u8::from),
        verdict: verdict(track.verdict),
    }
}

fn fourcc(fourcc: Option<FourCc>) -> [u8; 4] {
    fourcc.map_or([0; 4], FourCc::bytes)
}

pub fn verdict(verdict: Option<Verdict>) -> u8 {
    verdict.map_or(0, u8::from)
}

pub fn decision(decision: Option<Decision>) -> u32 {
    match decision {
        None => 0,
        Some(Decision::Sent) => 1,
        Some(Decision::Dropped) => 2,
    }
}
