//! Containers of multitrack audio and video, made of their tracks.

/// Byte 0 of an audio container.
pub const AUDIO: u8 = 0x95;

/// Byte 0 of a video container, of frame type 1.
pub const VIDEO: u8 = 0x96;

/// How the tracks of a container stand, by the number in byte 1.
#[derive(Clone, Copy, PartialEq)]
#[repr(u8)]
pub enum Form {
    OneTrack,
    ManyTracks,
    ManyTracksManyCodecs,
}

pub const FORMS: [Form; 3] = [Form::OneTrack, Form::ManyTracks, Form::ManyTracksManyCodecs];

/// An id, a FourCC and a body.
#[derive(Clone)]
pub struct Track {
    pub id: u8,
    pub fourcc: [u8; 4],
    pub body: Vec<u8>,
}

/// Byte 0, the form with a packet type, and the tracks. A FourCC that they share is that of the
/// first one. Of OneTrack, further tracks are a part of the body.
pub fn container(first: u8, form: Form, packet_type: u8, tracks: &[Track]) -> Vec<u8> {
    let mut payload = vec![first, (form as u8) << 4 | packet_type];
    if form != Form::ManyTracksManyCodecs {
        payload.extend(tracks[0].fourcc);
    }
    for track in tracks {
        if form == Form::ManyTracksManyCodecs {
            payload.extend(track.fourcc);
        }
        payload.push(track.id);
        if form != Form::OneTrack {
            payload.extend(&(track.body.len() as u32).to_be_bytes()[1..]);
        }
        payload.extend(&track.body);
    }
    payload
}
