//! Containers that name themselves: their tracks have the packet type that makes the frame a
//! container. Enhanced RTMP v2 forbids it, and so does request N2 (docs/REQUIREMENTS.md, section
//! 23); the Rust accepts them.

use crate::writing::{AUDIO, VIDEO};

/// The packet type of containers: 5 in audio and 6 in video.
pub fn own_packet_type(frame_type: u32) -> Option<u8> {
    match frame_type {
        AUDIO => Some(5),
        VIDEO => Some(6),
        _ => None,
    }
}

/// Whether byte 0 opens a container, and byte 1 gives the container's own number to its tracks.
pub fn names_itself(frame_type: u32, payload: &[u8]) -> bool {
    let [first, second, ..] = payload else {
        return false;
    };
    let opens = match frame_type {
        AUDIO => *first == 0x95,
        VIDEO => first & 0x8F == 0x86 && first & 0x70 != 0x50,
        _ => false,
    };
    opens && own_packet_type(frame_type) == Some(second & 0x0F)
}

#[cfg(test)]
mod tests {
    use super::*;

    /// Bytes 0 of video containers, of each frame type but 5.
    const VIDEOS: [u8; 7] = [0x86, 0x96, 0xA6, 0xB6, 0xC6, 0xE6, 0xF6];

    #[test]
    fn the_examples_of_the_request() {
        assert!(names_itself(1, b"\x86\x06\x00\x00\x00\x00\x00"));
        assert!(names_itself(0, b"\x95\x05Opus\x07"));
        assert!(!names_itself(1, b"\x86\x05\x00\x00\x00\x00\x00"));
        assert!(!names_itself(0, b"\x95\x06Opus\x07"));
    }

    #[test]
    fn bytes_0_and_1_alone_are_looked_at() {
        for rest in [&b""[..], b"\x00", b"Opus\x07\xAA", b"\x95\x05"] {
            assert!(names_itself(0, &[b"\x95\x35", rest].concat()));
            assert!(names_itself(1, &[b"\x96\x06", rest].concat()));
        }
        assert!(!names_itself(0, b"\x95"));
        assert!(!names_itself(1, b"\x96"));
        assert!(!names_itself(0, b""));
    }

    #[test]
    fn near_misses() {
        for (frame_type, payload) in [
            // Another packet type: one off, ModEx, the form, the other kind's container.
            (0, b"\x95\x04"),
            (0, b"\x95\x07"),
            (0, b"\x95\x51"),
            (1, b"\x96\x07"),
            (1, b"\x96\x61"),
            // No container: legacy audio and video, a command, a layer, another type.
            (0, b"\x85\x05"),
            (0, b"\x96\x05"),
            (1, b"\x16\x06"),
            (1, b"\xD6\x06"),
            (1, b"\x97\x06"),
            (1, b"\x95\x05"),
            (0, b"\x96\x06"),
            (2, b"\x95\x05"),
            (3, b"\x96\x06"),
            (256, b"\x95\x05"),
        ] {
            assert!(
                !names_itself(frame_type, payload),
                "{frame_type}: {payload:02X?}"
            );
        }
    }

    #[test]
    fn every_front() {
        for front in 0..=u16::MAX {
            let [first, second] = front.to_be_bytes();
            let named = [0, 1, 2].map(|frame_type| names_itself(frame_type, &[first, second]));
            let audio = first == 0x95 && second % 16 == 5;
            let video = VIDEOS.contains(&first) && second % 16 == 6;
            assert_eq!(named, [audio, video, false], "{front:04X}");
        }
    }
}
