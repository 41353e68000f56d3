//! Stand-in for the DDW0, by 01's layout.
use super::display_byte_slice;
use crate::util::*;
#[repr(packed)]
#[derive(Clone, Copy, PartialEq, Debug)]
pub struct Ddw0 {
    low: u64,
    b8: u8,
    id: u8,
}
impl Ddw0 {
    pub const ID: u8 = 0xE4;
}
impl fmt::Display for Ddw0 {
    fn fmt(&self, f: &mut fmt::Formatter<'_>) -> fmt::Result {
        display_byte_slice(self, f)
    }
}
impl Ddw0 {
    pub fn index(&self) -> u8 {
        self.b8 >> 4
    }
}
impl StatusWord for Ddw0 {
    fn id(&self) -> u8 {
        self.id
    }
    fn is_reserved_0(&self) -> bool {
        let l = self.low;
        l >> 56 == 0 && self.b8 & 0b0101 == 0
    }
    fn from_buf(b: &[u8]) -> Result<Self, io::Error> {
        Ok(Self { low: u64::from_le_bytes(b[..8].try_into().unwrap()), b8: b[8], id: b[9] })
    }
}
