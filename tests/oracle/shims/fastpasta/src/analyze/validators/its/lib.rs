//! Stand-in for the kinds of words, by the names that the given text uses.
#[derive(Debug, Clone, Copy, PartialEq, Eq)]
#[allow(non_camel_case_types)]
pub enum ItsPayloadWord {
    IHW,
    IHW_continuation,
    TDH,
    TDH_continuation,
    TDH_after_packet_done,
    TDT,
    DDW0,
    CDW,
    DataWord,
}
