//! Stand-in for the parts of the crate alice_protocol_reader that the given text uses, and 01's packet as an RDH.
#[macro_export]
macro_rules! load_bytes {
    ($size:literal, $reader:ident) => {{
        let mut buf = [0u8; $size];
        std::io::Read::read_exact($reader, &mut buf)?;
        buf
    }};
}
pub mod rdh {
    #[derive(Debug, Clone, Copy, Default)]
    pub struct Rdh1 {
        pub bc_reserved0: u32,
        pub orbit: u32,
    }
    impl Rdh1 {
        pub fn bc(&self) -> u16 {
            (self.bc_reserved0 & 0xFFF) as u16
        }
    }
    #[derive(Debug, Clone, Copy, Default)]
    pub struct Rdh2 {
        pub trigger_type: u32,
        pub pages_counter: u16,
        pub stop_bit: u8,
    }
    impl Rdh2 {
        /// 01: "bit 4 of packet trigger type"
        pub fn is_pht_trigger(&self) -> bool {
            (self.trigger_type >> 4) & 1 == 1
        }
    }
    pub trait RDH: Clone {
        fn rdh1(&self) -> &Rdh1;
        fn rdh2(&self) -> &Rdh2;
        fn pages_counter(&self) -> u16;
        fn stop_bit(&self) -> u8;
        fn data_format(&self) -> u8;
        fn fee_id(&self) -> u16;
    }
    /// The packet of document 01 as an RDH.
    #[derive(Debug, Clone, Copy, Default)]
    pub struct PacketRdh {
        pub rdh1: Rdh1,
        pub rdh2: Rdh2,
        pub format: u8,
    }
    impl RDH for PacketRdh {
        fn rdh1(&self) -> &Rdh1 {
            &self.rdh1
        }
        fn rdh2(&self) -> &Rdh2 {
            &self.rdh2
        }
        fn pages_counter(&self) -> u16 {
            self.rdh2.pages_counter
        }
        fn stop_bit(&self) -> u8 {
            self.rdh2.stop_bit
        }
        fn data_format(&self) -> u8 {
            self.format
        }
        fn fee_id(&self) -> u16 {
            0
        }
    }
}
pub mod prelude {
    pub use crate::rdh::{PacketRdh, Rdh1, Rdh2, RDH};
    pub mod macros {
        pub use crate::load_bytes;
    }
    pub trait ByteSlice: Sized {
        fn to_byte_slice(&self) -> &[u8] {
            // Used only to display packed plain structs.
            unsafe { core::slice::from_raw_parts(self as *const Self as *const u8, core::mem::size_of::<Self>()) }
        }
    }
}
