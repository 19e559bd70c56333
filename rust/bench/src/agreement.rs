//! Before anything is measured, the port and the original must say the same. The original puts no
//! times together: of its header's milliseconds and its reading of each layer that is done here.

use oracle::ertmp::modex::modex_parse_prefix;
use oracle::ertmp::multitrack_media::foreach_track;
use oracle::types::{Modex, ModexType};

use crate::frames::Frame;
use crate::original::{self, Header, Said};
use crate::port::{self, HozgrimReport, HozgrimTrack};
use crate::sides::{ROUTE_HAS_VIDEO, pass, pass_in_place};

/// The report that both give. The port's result must be the original's too, and so in place. No
/// record is refused: that would end early what is measured.
pub fn agreed_report(frame: &Frame) -> HozgrimReport {
    let payload = &frame.payload[..];
    let mut output = vec![0; payload.len()];
    let report = pass(frame, payload, &mut output);
    let result = original::peeled(frame.frame_type, payload);
    let mut said = Said::nothing(frame.frame_type);
    said.ask(frame.frame_type, &result, ROUTE_HAS_VIDEO != 0);
    let peeled_off = payload.len() - result.len();
    let layers = payload.get(1..1 + peeled_off).unwrap_or_default();
    let expected = HozgrimReport {
        composition_time_ns: milliseconds(&said.header) * 1_000_000 + last_offset(layers),
        ..report_of(&said)
    };
    assert_eq!(expected, report, "{}", frame.name);
    assert_eq!(&output[..result.len()], &result[..], "{}", frame.name);
    let mut lent = frame.payload.clone();
    let placed = pass_in_place(frame, &mut lent);
    assert_eq!(expected, placed.report, "{}", frame.name);
    assert_eq!(&lent[placed.start..], &result[..], "{}", frame.name);
    let (records, valid) = (report.records, report.valid_records);
    assert_eq!(records, valid, "{} has a refused record", frame.name);
    report
}

/// The tracks that the original hands out. Each is the port's of that number.
pub fn agreed_tracks(frame: &Frame) -> Vec<HozgrimTrack> {
    let (number, payload) = (frame.frame_type as u32, &frame.payload[..]);
    let mut tracks = vec![];
    let accepted = foreach_track(frame.frame_type, payload, |track| {
        tracks.push(HozgrimTrack {
            error: 0,
            fourcc: u32::from_be_bytes(track.fourcc),
            count: 0,
            start: track.payload.as_ptr() as usize - payload.as_ptr() as usize,
            length: track.payload.len(),
            track_id: track.track_id,
            packet_type: track.packet_type,
            video_frame_type: track.video_frame_type,
            verdict: 0,
        });
    });
    assert!(accepted, "{} is no container", frame.name);
    let count = tracks.len();
    for (at, track) in tracks.iter_mut().enumerate() {
        track.count = count;
        assert_eq!(*track, port::track(number, payload, at), "{}", frame.name);
    }
    tracks
}

fn report_of(said: &Said) -> HozgrimReport {
    HozgrimReport {
        header_error: said.header_error.map_or(0, |error| error as i32),
        kind: said.kind as u32,
        hint: said.hint.to_u8().into(),
        result_length: said.result_length,
        tracks: said.tracks,
        records: said.records,
        valid_records: said.valid_records,
        ..report_of_header(&said.header)
    }
}

/// Of the header alone.
fn milliseconds(header: &Header) -> i64 {
    match header {
        Header::Video(header) => header.composition_time.cast_signed().into(),
        Header::Audio(_) | Header::None => 0,
    }
}

/// The last offset in these layers, as the original reads one after the other.
fn last_offset(mut layers: &[u8]) -> i64 {
    let mut last = 0;
    while !layers.is_empty() {
        let mut layer = Modex::default();
        let length = modex_parse_prefix(&mut layer, layers).expect("it was peeled off");
        if layer.modex_type == ModexType::TimestampOffsetNano {
            last = layer.offset;
        }
        layers = &layers[length..];
    }
    last.try_into().expect("it has 24 bits")
}

fn report_of_header(header: &Header) -> HozgrimReport {
    let four = |fourcc: &[u8; 5]| [fourcc[0], fourcc[1], fourcc[2], fourcc[3]];
    match header {
        Header::Audio(header) => HozgrimReport {
            header_size: header.header_size,
            is_ex_header: header.is_ex_header,
            packet_type: header.packet_type,
            audio_codec: header.audio_codec as u8,
            sample_rate: header.sample_rate,
            sample_size: header.sample_size,
            channels: header.channels,
            aac_packet_type: header.aac_packet_type,
            fourcc: four(&header.fourcc),
            ..HozgrimReport::default()
        },
        Header::Video(header) => HozgrimReport {
            header_size: header.header_size,
            is_ex_header: header.is_ex_header,
            packet_type: header.packet_type,
            frame_type: header.frame_type,
            fourcc: four(&header.fourcc),
            ..HozgrimReport::default()
        },
        Header::None => HozgrimReport::default(),
    }
}

#[cfg(test)]
mod tests {
    use super::*;
    use crate::frames;

    #[test]
    fn every_shape_is_agreed_on() {
        let reports = frames::shapes().into_iter().map(|frame| {
            let HozgrimReport { kind, records, .. } = agreed_report(&frame);
            let name = frame.name;
            let named = name.contains("sequence header") || name.contains("records");
            assert_eq!(named, kind == 1 || kind == 2, "{name}");
            records
        });
        let records: Vec<usize> = reports.filter(|records| *records > 0).collect();
        let most = frames::MOST_TRACKS;
        assert_eq!(records, [1, 1, 1, 8, most, most, most]);
    }
}
