//! The payloads of the table of docs/REQUIREMENTS.md, section 23, N8, under its names. A is audio, the
//! others are video.

/// Video sequence headers of 6 bytes, which differ in a sealed one. The second is not in the table.
pub const H: &[u8] = b"\x90vp09\x00";
pub const H2: &[u8] = b"\x90vp09\x01";

/// H behind a layer, 9 bytes.
pub const W: &[u8] = b"\x97\x00\xAA\x10vp09\x00";

/// An audio sequence header of 4 bytes.
pub const A: &[u8] = b"\xAF\x00\x12\x10";

/// Keyframes of 1 byte and of 2.
pub const K: &[u8] = b"\x12";
pub const K2: &[u8] = b"\x12\xAA";

/// A picture that no slot is for.
pub const L: &[u8] = b"\x22";
