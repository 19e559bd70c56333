//! The classes of candidates, as docs/REQUIREMENTS.md, section 7, tells them apart.

use common::naming::names_itself;

use crate::run::Class;

/// The most tracks of a container.
const MOST_TRACKS: usize = 4_096;

/// The longest body that a length of 24 bits can give.
const LONGEST: usize = (1 << 24) - 1;

/// What the Rust accepts, and request N2 does not, in audio and in video.
pub const LEFT_OUT: [&str; 2] = [
    "refused: audio that names itself, which the Rust accepts",
    "refused: video that names itself, which the Rust accepts",
];

pub const CLASSES: &[&str] = &[
    "OneTrack, empty body",
    "OneTrack",
    "OneTrack, body over 24 bits",
    "ManyTracks, one",
    "ManyTracks, several",
    "ManyTracks, 4,096",
    "ManyTracksManyCodecs, one",
    "ManyTracksManyCodecs, several",
    "ManyTracksManyCodecs, 4,096",
    "refused: unknown frame type",
    "refused: Script or Metadata",
    "refused: empty",
    "refused: legacy audio",
    "refused: legacy audio, low nibble 5",
    "refused: other audio",
    "refused: legacy video",
    "refused: legacy video, low nibble 6",
    "refused: command",
    "refused: command, low nibble 6",
    "refused: other video",
    "refused: byte 0 alone",
    "refused: form above 2",
    "refused: first FourCC cut",
    "refused: first head cut",
    "refused: first body cut",
    "refused: later FourCC cut",
    "refused: later head cut",
    "refused: later body cut",
    "refused: over 4,096 tracks",
    LEFT_OUT[0],
    LEFT_OUT[1],
];

/// The class of the first thing that is wrong. That a container names itself comes last, so that
/// whatever the Rust refuses has the class of its reason.
pub fn class(frame_type: u32, payload: &[u8]) -> Class {
    let accepted = class_of_rust(frame_type, payload)?;
    if names_itself(frame_type, payload) {
        return Err(LEFT_OUT[frame_type as usize]);
    }
    Ok(accepted)
}

fn class_of_rust(frame_type: u32, payload: &[u8]) -> Class {
    let first = payload.first().map(|first| (first >> 4, first & 0x0F));
    match (frame_type, first) {
        (4.., _) => Err("refused: unknown frame type"),
        (2 | 3, _) => Err("refused: Script or Metadata"),
        (_, None) => Err("refused: empty"),
        (0, Some((9, 5))) => tiling(&payload[1..]),
        (0, Some((9, _))) => Err("refused: other audio"),
        (0, Some((_, 5))) => Err("refused: legacy audio, low nibble 5"),
        (0, Some(_)) => Err("refused: legacy audio"),
        (_, Some((0..=7, 6))) => Err("refused: legacy video, low nibble 6"),
        (_, Some((0..=7, _))) => Err("refused: legacy video"),
        (_, Some((13, 6))) => Err("refused: command, low nibble 6"),
        (_, Some((13, _))) => Err("refused: command"),
        (_, Some((_, 6))) => tiling(&payload[1..]),
        (_, Some(_)) => Err("refused: other video"),
    }
}

/// The class of what stands behind byte 0.
fn tiling(rest: &[u8]) -> Class {
    let Some((second, rest)) = rest.split_first() else {
        return Err("refused: byte 0 alone");
    };
    match second >> 4 {
        0 => one_track(rest),
        1 => {
            let tracks = rest.get(4..).ok_or("refused: first FourCC cut")?;
            Ok(match count(tracks, false)? {
                1 => "ManyTracks, one",
                MOST_TRACKS => "ManyTracks, 4,096",
                _ => "ManyTracks, several",
            })
        }
        2 => Ok(match count(rest, true)? {
            1 => "ManyTracksManyCodecs, one",
            MOST_TRACKS => "ManyTracksManyCodecs, 4,096",
            _ => "ManyTracksManyCodecs, several",
        }),
        _ => Err("refused: form above 2"),
    }
}

fn one_track(rest: &[u8]) -> Class {
    let track = rest.get(4..).ok_or("refused: first FourCC cut")?;
    let [_, body @ ..] = track else {
        return Err("refused: first head cut");
    };
    Ok(match body.len() {
        0 => "OneTrack, empty body",
        1..=LONGEST => "OneTrack",
        _ => "OneTrack, body over 24 bits",
    })
}

/// How many tracks fill the bytes exactly.
fn count(mut rest: &[u8], fourccs: bool) -> Result<usize, &'static str> {
    for count in 0..MOST_TRACKS {
        rest = match (behind_track(rest, fourccs), count) {
            (Ok([]), _) => return Ok(count + 1),
            (Ok(behind), _) => behind,
            (Err(Cut::Fourcc), 0) => return Err("refused: first FourCC cut"),
            (Err(Cut::Head), 0) => return Err("refused: first head cut"),
            (Err(Cut::Body), 0) => return Err("refused: first body cut"),
            (Err(Cut::Fourcc), _) => return Err("refused: later FourCC cut"),
            (Err(Cut::Head), _) => return Err("refused: later head cut"),
            (Err(Cut::Body), _) => return Err("refused: later body cut"),
        };
    }
    Err("refused: over 4,096 tracks")
}

/// The part of a track that is not whole.
enum Cut {
    Fourcc,
    Head,
    Body,
}

fn behind_track(rest: &[u8], fourccs: bool) -> Result<&[u8], Cut> {
    let before = if fourccs { 4 } else { 0 };
    let track = rest.get(before..).ok_or(Cut::Fourcc)?;
    let [_, high, middle, low, behind @ ..] = track else {
        return Err(Cut::Head);
    };
    let length = u32::from_be_bytes([0, *high, *middle, *low]) as usize;
    behind.get(length..).ok_or(Cut::Body)
}
