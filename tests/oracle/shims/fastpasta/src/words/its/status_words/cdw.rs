//! Stand-in for the CDW, by 01's layout.
use super::display_byte_slice;
use crate::util::*;
#[repr(packed)]
#[derive(Clone, Copy, PartialEq, Debug)]
pub struct Cdw {
    low: u64,
    b8: u8,
    id: u8,
}
impl Cdw {
    pub const ID: u8 = 0xF8;
}
impl fmt::Display for Cdw {
    fn fmt(&self, f: &mut fmt::Formatter<'_>) -> fmt::Result {
        display_byte_slice(self, f)
    }
}
impl Cdw {
    pub fn calibration_user_fields(&self) -> u64 {
        let l = self.low;
        l & 0xFFFF_FFFF_FFFF
    }
    pub fn calibration_word_index(&self) -> u32 {
        let l = self.low;
        (l >> 48) as u32 | (self.b8 as u32) << 16
    }
}
impl StatusWord for Cdw {
    fn id(&self) -> u8 {
        self.id
    }
    fn is_reserved_0(&self) -> bool {
        true
    }
    fn from_buf(b: &[u8]) -> Result<Self, io::Error> {
        Ok(Self { low: u64::from_le_bytes(b[..8].try_into().unwrap()), b8: b[8], id: b[9] })
    }
}
