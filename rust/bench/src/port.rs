//! The port's entries. Nothing else here names the crate that wraps them.

pub use hozgrim_sys::{
    ColumnsCall, ColumnsMut, ContainerCall, HozgrimLengths, HozgrimLevel, HozgrimOffer,
    HozgrimPlaced, HozgrimReport, HozgrimStored, HozgrimTrack, HozgrimWritten, OfferCall,
    StoreCall, column_track, flv_next, flv_start, flv_write_frame, flv_write_start, level, pass,
    pass_in_place, store_frame, track, uplink_offer, uplink_tick, walk_columns, write_container,
};

/// Where the whole pass begins in a line of 64 bytes. The linker decides, and a loop that crosses
/// the end of a line is slower.
pub fn place_in_line() -> usize {
    unsafe extern "C" {
        safe fn hozgrim_pass();
    }
    hozgrim_pass as *const () as usize % 64
}
