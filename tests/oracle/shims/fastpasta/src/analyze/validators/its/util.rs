//! Stand-in for the making of an error message: position, text, the word's bytes. The driver reads it back.
use crate::util::*;
use std::fmt::Write;
pub fn report_error(mem_pos: u64, error: &str, word_slice: &[u8], ch: &flume::Sender<StatType>) {
    let mut s = format!("{mem_pos:#X}: {error} [");
    for (i, b) in word_slice.iter().enumerate() {
        if i > 0 {
            s.push(' ');
        }
        write!(s, "{b:02X}").unwrap();
    }
    s.push(']');
    ch.send(StatType::Error(s.into())).expect("Failed to send error to stats channel");
}
