//! Keeps what viewers need who join late. See `USAGE`. It prints what examples/c/late.c prints.

pub mod command_line;

use std::process::ExitCode;

use hozgrim::{CAPS_EX_MODEX, CacheKind, FrameType, Passed, SlotSizes, Store};

use command_line::{Failure, end, hexadecimal, wordless};

const USAGE: &str = "\
usage: late
           a line for each RTMP message of a sample room, which are offered to a store with short
           slots: type, received length, how many bytes are relayed, cache kind, and whether the
           frame is kept; and where a viewer joins late, a line for each frame that is sent
       late --help
           this text
";

/// Slots that the frames of the sample fit, all but one.
const SIZES: SlotSizes = SlotSizes {
    video: 24,
    audio: 24,
    keyframe: 12,
};

/// What happens in the room.
enum Event {
    /// Type id and payload, as they come off the wire.
    Message(u8, &'static [u8]),
    /// A viewer joins.
    Join,
}

use Event::{Join, Message};

const KEYFRAME: Event = Message(9, b"\x91avc1\x00\x00\x00\x25");

const SAMPLE: [Event; 17] = [
    Join,
    Message(18, b"\x02\x00\x0AonMetaData"),
    Message(
        9,
        b"\x90avc1\x01\x42\x00\x1E\xFF\xE1\x00\x01\x67\x01\x00\x01\x68",
    ),
    Message(8, b"\xAF\x00\x12\x10"),
    Join,
    // A keyframe behind a layer, a picture that is none, and a layer that is refused.
    Message(9, b"\x97\x02\x00\x00\x2A\x01avc1\x00\x00\x00\x65"),
    Message(9, b"\xA1avc1\x00\x00\x28\x41"),
    Message(8, b"\x97\x00\xAA\x01Opus\xDD"),
    Join,
    // The encoder starts again, with another header, behind a layer too.
    Message(
        9,
        b"\x97\x02\x00\x00\x2A\x00avc1\x01\x4D\x00\x1F\xFF\xE1\x00\x01\x67\x01\x00\x01\x68",
    ),
    Join,
    // The second keyframe is too long, and the first one is out of date.
    KEYFRAME,
    Message(9, b"\x91avc1\x00\x00\x00\x65\x88\x84\x21\xA0"),
    Join,
    KEYFRAME,
    Message(9, b"\xA1avc1\x00\x00\x28\x41"),
    Join,
];

fn main() -> ExitCode {
    end(USAGE, run)
}

/// What is printed for these words.
pub fn run(words: &[String]) -> Result<String, Failure> {
    wordless(USAGE, words, sample)
}

fn sample() -> String {
    let mut room = Room::default();
    let lines = SAMPLE.iter().flat_map(|event| match event {
        Message(type_id, payload) => vec![room.receive(*type_id, payload)],
        Join => room.join(),
    });
    lines.map(|line| line + "\n").collect()
}

/// One route.
pub struct Room {
    store: Store,
}

impl Default for Room {
    fn default() -> Self {
        Self {
            store: Store::new(SIZES),
        }
    }
}

impl Room {
    /// Relays a message to the viewers who are there, and says what became of it.
    pub fn receive(&mut self, type_id: u8, payload: &[u8]) -> String {
        let Some(frame_type) = FrameType::from_message_type_id(type_id) else {
            return format!("message {type_id}: no frame");
        };
        let received = format!("{frame_type}, {} bytes", payload.len());
        let mut output = vec![0; payload.len()];
        let passed = self
            .store
            .offer(frame_type, payload, CAPS_EX_MODEX, true, &mut output);
        let Passed { report, kept } = match passed {
            Ok(passed) => passed,
            Err(refusal) => return format!("{received}: refused, {}", refusal.number()),
        };
        // Here a relay writes the result to the connection of each viewer, kept or not.
        let result = report.result(&output);
        let kept = match kept {
            Err(error) => format!(", longer than its slot, {}", error.number()),
            Ok(()) if report.kind == CacheKind::LiveOnly => String::new(),
            Ok(()) => ", kept".into(),
        };
        let relayed = result.len();
        format!("{received}: {relayed} relayed, {:?}{kept}", report.kind)
    }

    /// What a viewer who joins now is sent, before the messages that follow. The relay gives these
    /// frames a timestamp.
    pub fn join(&self) -> Vec<String> {
        if self.store.is_empty() {
            return vec!["late: nothing".into()];
        }
        let frames = self.store.late();
        let lines = frames.map(|(kind, frame)| format!("late: {kind:?} {}", hexadecimal(frame)));
        lines.collect()
    }
}
