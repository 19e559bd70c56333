//! Colour metadata.

use super::librtmp2_stand_in_reached;
use crate::types::HdrInfo;

pub fn hdr_init(_: &mut HdrInfo) {
    librtmp2_stand_in_reached()
}
