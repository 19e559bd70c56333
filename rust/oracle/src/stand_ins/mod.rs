//! What the Rust files name and the functions in scope never reach: AMF0, the buffer it is read
//! from, colour metadata.
//!
//! Each function here calls one that is defined nowhere. Linkers drop the functions that a program
//! does not reach, in release and debug builds alike, so it links exactly if it reaches none of
//! these.

pub mod amf;
pub mod buffer;
pub mod metadata;

unsafe extern "C" {
    /// Defined nowhere.
    safe fn librtmp2_stand_in_reached() -> !;
}
