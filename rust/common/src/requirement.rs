//! What docs/REQUIREMENTS.md fixes beside the Rust.

/// The refusals that the Rust does not have, by their numbers (section 18).
pub const UNKNOWN_FRAME_TYPE: i32 = -21;
pub const OUTPUT_TOO_SHORT: i32 = -22;
pub const NO_SUCH_TRACK: i32 = -23;
pub const NOT_A_CONTAINER: i32 = -24;
pub const INPUT_CUT: i32 = -25;
pub const OUT_OF_BOUNDS: i32 = -26;
pub const BAD_LENGTH: i32 = -27;
pub const BAD_VALUE: i32 = -28;
pub const NOT_FLV: i32 = -29;
pub const WRONG_BACK_POINTER: i32 = -30;
pub const SLOT_TOO_SHORT: i32 = -31;
pub const OUT_OF_RANGE: i32 = -32;
pub const DEBT_LIMIT: i32 = -33;

/// What the whole pass refuses an offset with (section 23, N6). The Rust has this number for
/// layers that are read one by one.
pub const BAD_OFFSET: i32 = -3;

/// The valid AVC record of the cases (section 19).
pub const AVC: &[u8] = b"\x01\x42\x00\x1E\xFF\xE1\x00\x01\x67\x01\x00\x01\x68";
