//! The frame sheet of docs/REQUIREMENTS.md, section 17, read on the Rust side, and frames to try it
//! on; and that of FLV files. The program beside this holds both sheets against it; the stored
//! cases of frames of the sheet's input come from it too. So do kind and hint in the comparisons.

pub mod frames;
pub mod reading;
pub mod recording;
pub mod starts;
