//! AMF0 values.

pub mod amf0 {
    use super::super::buffer::Buffer;
    use super::super::librtmp2_stand_in_reached;
    use crate::types::Result;

    pub const MAX_OBJECT_KEYS: usize = 0;

    #[derive(Clone, Copy, PartialEq)]
    pub enum Amf0Type {
        Number,
        String,
        Object,
        Undefined,
        LongString,
    }

    pub fn read_type(_: &mut Buffer) -> Result<Amf0Type> {
        librtmp2_stand_in_reached()
    }

    pub fn read_number(_: &mut Buffer) -> Result<f64> {
        librtmp2_stand_in_reached()
    }

    pub fn read_string(_: &mut Buffer, _: &mut [u8]) -> Result<usize> {
        librtmp2_stand_in_reached()
    }

    pub fn read_long_string(_: &mut Buffer, _: &mut [u8]) -> Result<usize> {
        librtmp2_stand_in_reached()
    }

    pub fn read_object_key(_: &mut Buffer, _: &mut [u8]) -> Result<usize> {
        librtmp2_stand_in_reached()
    }

    pub fn is_object_end(_: &mut Buffer) -> bool {
        librtmp2_stand_in_reached()
    }

    pub fn skip_value_after_type(_: &mut Buffer, _: Amf0Type) -> Result<()> {
        librtmp2_stand_in_reached()
    }
}
