//! The buffer that AMF0 is read from.

use super::librtmp2_stand_in_reached;
use crate::types::Result;

pub struct Buffer;

impl Buffer {
    pub fn from_slice(_: &[u8]) -> Self {
        librtmp2_stand_in_reached()
    }

    pub fn read(&mut self, _: &mut [u8]) -> Result<()> {
        librtmp2_stand_in_reached()
    }

    pub fn peek(&self) -> &[u8] {
        librtmp2_stand_in_reached()
    }
}
