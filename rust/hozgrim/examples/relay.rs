//! Hands the messages of a room on without copying a payload. See `USAGE`. It prints what
//! examples/c/relay.c prints.

pub mod command_line;

use std::collections::HashMap;
use std::ops::Range;
use std::process::ExitCode;

use hozgrim::{CAPS_EX_MODEX, CacheKind, DeliveryHint, FrameType, pass_in_place};

use command_line::{Failure, end, hexadecimal, wordless};

const USAGE: &str = "\
usage: relay
           a line for each RTMP message of a sample room: type, received length, where in it the
           result stands, cache kind, delivery hint, and which viewers are sent the result; then a
           line for each frame that a viewer is sent who joins late
       relay --help
           this text
";

/// Type ids and payloads, as they come off the wire.
const SAMPLE: [(u8, &[u8]); 6] = [
    (18, b"\x02\x00\x0AonMetaData"),
    (
        9,
        b"\x90avc1\x01\x42\x00\x1E\xFF\xE1\x00\x01\x67\x01\x00\x01\x68",
    ),
    // Two microphones, and then a keyframe, each behind a layer with an offset.
    (
        8,
        b"\x97\x02\x00\x00\x2A\x05\x11Opus\x01\x00\x00\x01\xAA\x02\x00\x00\x02\xBB\xCC",
    ),
    (9, b"\x97\x02\x00\x00\x2A\x01avc1\x00\x00\x00\x65"),
    (9, b"\xA1avc1\x00\x00\x28\x41"),
    // A layer with one data byte, which is no offset.
    (8, b"\x97\x00\xAA\x01Opus\xDD"),
];

/// What a viewer who joins late is sent, in this order.
const JOINING: [CacheKind; 3] = [
    CacheKind::VideoSequenceHeader,
    CacheKind::AudioSequenceHeader,
    CacheKind::VideoKeyframe,
];

fn main() -> ExitCode {
    end(USAGE, run)
}

/// What is printed for these words.
pub fn run(words: &[String]) -> Result<String, Failure> {
    wordless(USAGE, words, sample)
}

fn sample() -> String {
    let mut room = Room::default();
    let mut text = String::new();
    for (type_id, payload) in SAMPLE {
        // Stands for the read of a message into a buffer of its own.
        let payload = payload.to_vec();
        text += &format!("{}\n", room.receive(type_id, payload));
    }
    for kept in room.joining() {
        text += &format!("late: {:?} {}\n", kept.kind, hexadecimal(kept.result()));
    }
    text
}

/// A frame that is kept for those who join late: the buffer in which it was received, and where in
/// it the result stands. The store in the example `late` copies instead.
pub struct Kept {
    kind: CacheKind,
    payload: Vec<u8>,
    range: Range<usize>,
}

impl Kept {
    pub fn result(&self) -> &[u8] {
        &self.payload[self.range.clone()]
    }
}

/// The viewers, and what is kept.
pub struct Room {
    viewers: [Viewer; 2],
    kept: HashMap<CacheKind, Kept>,
}

impl Default for Room {
    fn default() -> Self {
        let viewer = |name, is_behind| Viewer { name, is_behind };
        Self {
            viewers: [viewer("fast", false), viewer("slow", true)],
            kept: HashMap::new(),
        }
    }
}

impl Room {
    /// Hands a message on, and says what became of it.
    pub fn receive(&mut self, type_id: u8, mut payload: Vec<u8>) -> String {
        let Some(frame_type) = FrameType::from_message_type_id(type_id) else {
            return format!("message {type_id}: no frame");
        };
        let received = format!("{frame_type}, {} bytes", payload.len());
        let (report, range) = match pass_in_place(frame_type, &mut payload, CAPS_EX_MODEX, true) {
            Ok(passed) => passed,
            Err(refusal) => return format!("{received}: refused, {}", refusal.number()),
        };
        let result = &payload[range.clone()];
        let viewers = self.viewers.iter_mut();
        let sent = viewers.filter_map(|viewer| viewer.send(result, report.hint));
        let line = format!(
            "{received}: {range:?}, {:?}, {:?}, to {}",
            report.kind,
            report.hint,
            sent.collect::<Vec<_>>().join(" and ")
        );
        if report.kind == CacheKind::VideoSequenceHeader {
            // The keyframe that is kept was coded for the header before.
            self.kept.remove(&CacheKind::VideoKeyframe);
        }
        if report.kind != CacheKind::LiveOnly {
            // The buffer moves; what was kept of this kind goes.
            let kind = report.kind;
            let kept = Kept {
                kind,
                payload,
                range,
            };
            self.kept.insert(kind, kept);
        }
        line
    }

    /// What a viewer who joins now is sent.
    pub fn joining(&self) -> impl Iterator<Item = &Kept> {
        JOINING.iter().filter_map(|kind| self.kept.get(kind))
    }
}

struct Viewer {
    name: &'static str,
    is_behind: bool,
}

impl Viewer {
    /// The name, if the viewer is sent the result. One who is behind is not sent what may be
    /// dropped, up to a point to resume from.
    fn send(&mut self, _result: &[u8], hint: DeliveryHint) -> Option<&'static str> {
        if hint == DeliveryHint::ResyncPoint {
            self.is_behind = false;
        }
        if hint == DeliveryHint::Droppable && self.is_behind {
            return None;
        }
        // Here a relay writes the result to the viewer's connection.
        Some(self.name)
    }
}
