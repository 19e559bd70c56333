//! The classes of files, and of places in them.

use common::flv::{self, START, Tag};
use common::writing::LONGEST_BODY;

use super::Walk;

pub const CLASSES: &[&str] = &[
    "it ends in the header",
    "a wrong signature",
    "a wrong version",
    "a wrong data offset",
    "it ends in the first back-pointer",
    "a wrong first back-pointer",
    "it ends in a tag's head",
    "it ends in a frame's body",
    "it ends in another tag's body",
    "it ends in a frame's back-pointer",
    "it ends in another tag's back-pointer",
    "a frame's wrong back-pointer",
    "another tag's wrong back-pointer",
    "no tag",
    "other tags only",
    "frames only",
    "frames and other tags",
    "frames and tags with the filter bit",
    "a time of more than 24 bits",
    "a body of more than 65,535 bytes",
    "a frame of 16,777,215 bytes",
    "another tag of 16,777,215 bytes",
    "more than 1,000 tags",
    "place of a frame",
    "place of another tag, a frame behind",
    "place of another tag, no frame behind",
    "place of a tag that is refused, -25",
    "place of a tag that is refused, -30",
    "place of another tag, what is behind is refused",
    "place: the end",
    "place past the end",
    "place past the end, from 2^63 on",
    "place in the start: a frame",
    "place in the start: the end",
    "place in the start: -25",
    "place in the start: -30",
    "place inside of a tag: a frame",
    "place inside of a tag: the end",
    "place inside of a tag: -25",
    "place inside of a tag: -30",
];

pub fn of(walk: &Walk) -> &'static str {
    match walk.at {
        None => of_file(&walk.file),
        Some(at) => of_place(&walk.file, at),
    }
}

fn of_file(file: &[u8]) -> &'static str {
    let at = match flv::start(file) {
        Ok(at) => at,
        Err((_, name)) => return name,
    };
    let tags: Result<Vec<Tag>, _> = flv::tags(file, at).collect();
    let tags = match tags {
        Ok(tags) => tags,
        Err((_, name)) => return name,
    };
    let is_frame = |tag: &Tag| tag.head.frame_type().is_some();
    let filtered = |tag: &Tag| [0x28, 0x29, 0x32].contains(&tag.head.type_byte);
    let frames = tags.iter().filter(|tag| is_frame(tag)).count();
    let longest = tags.iter().max_by_key(|tag| tag.head.length);
    match longest {
        None => "no tag",
        Some(tag) if tag.head.length == LONGEST_BODY && is_frame(tag) => {
            "a frame of 16,777,215 bytes"
        }
        Some(tag) if tag.head.length == LONGEST_BODY => "another tag of 16,777,215 bytes",
        Some(tag) if tag.head.length > 65_535 => "a body of more than 65,535 bytes",
        _ if tags.len() > 1_000 => "more than 1,000 tags",
        _ if frames == 0 => "other tags only",
        _ if frames < tags.len() && tags.iter().any(filtered) => {
            "frames and tags with the filter bit"
        }
        _ if frames < tags.len() => "frames and other tags",
        _ if tags.iter().any(|tag| tag.head.timestamp >> 24 != 0) => "a time of more than 24 bits",
        _ => "frames only",
    }
}

/// What the first call from a place finds: a frame, the end, or a refusal.
enum First {
    Frame,
    End,
    Refused(i32),
}

fn of_place(file: &[u8], at: usize) -> &'static str {
    if at == file.len() {
        return "place: the end";
    }
    if at > file.len() {
        return match at >> 63 {
            0 => "place past the end",
            _ => "place past the end, from 2^63 on",
        };
    }
    let first = match flv::frames(file, at).next() {
        None => First::End,
        Some(Ok(_)) => First::Frame,
        Some(Err((number, _))) => First::Refused(number),
    };
    if at < START.len() {
        return match first {
            First::Frame => "place in the start: a frame",
            First::End => "place in the start: the end",
            First::Refused(-25) => "place in the start: -25",
            First::Refused(_) => "place in the start: -30",
        };
    }
    let tags = flv::tags(file, START.len()).flatten().map(|tag| tag.next);
    if at != START.len() && !tags.into_iter().any(|next| next == at) {
        return match first {
            First::Frame => "place inside of a tag: a frame",
            First::End => "place inside of a tag: the end",
            First::Refused(-25) => "place inside of a tag: -25",
            First::Refused(_) => "place inside of a tag: -30",
        };
    }
    match (flv::tags(file, at).next(), first) {
        (Some(Ok(tag)), _) if tag.head.frame_type().is_some() => "place of a frame",
        (Some(Ok(_)), First::Frame) => "place of another tag, a frame behind",
        (Some(Ok(_)), First::End) => "place of another tag, no frame behind",
        (Some(Ok(_)), _) => "place of another tag, what is behind is refused",
        (_, First::Refused(-25)) => "place of a tag that is refused, -25",
        _ => "place of a tag that is refused, -30",
    }
}
