//! Stand-in for the IHW, by 01's layout.
use super::display_byte_slice;
use crate::util::*;
#[repr(packed)]
#[derive(Clone, Copy, PartialEq, Debug)]
pub struct Ihw {
    low: u64,
    b8: u8,
    id: u8,
}
impl Ihw {
    pub const ID: u8 = 0xE0;
}
impl fmt::Display for Ihw {
    fn fmt(&self, f: &mut fmt::Formatter<'_>) -> fmt::Result {
        display_byte_slice(self, f)
    }
}
impl Ihw {
    pub fn active_lanes(&self) -> u32 {
        let l = self.low;
        (l & 0x0FFF_FFFF) as u32
    }
}
impl StatusWord for Ihw {
    fn id(&self) -> u8 {
        self.id
    }
    fn is_reserved_0(&self) -> bool {
        let l = self.low;
        l >> 28 == 0 && self.b8 == 0
    }
    fn from_buf(b: &[u8]) -> Result<Self, io::Error> {
        Ok(Self { low: u64::from_le_bytes(b[..8].try_into().unwrap()), b8: b[8], id: b[9] })
    }
}
