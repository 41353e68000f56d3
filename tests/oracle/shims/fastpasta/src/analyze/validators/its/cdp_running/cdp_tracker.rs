//! Stand-in for the count of words, their positions and "data seen", from 01.
use crate::util::*;
#[derive(Default)]
pub struct CdpTracker {
    words: u32,
    seen: bool,
    pos: u64,
    stride: u64,
}
impl CdpTracker {
    pub fn new<T: RDH>(rdh: &T, pos: u64) -> Self {
        Self { words: 0, seen: false, pos, stride: if rdh.data_format() == 0 { 16 } else { 10 } }
    }
    pub fn incr_word_count(&mut self) {
        self.words += 1;
    }
    pub fn current_word_mem_pos(&self) -> u64 {
        self.pos + 64 + (self.words as u64 - 1) * self.stride
    }
    pub fn start_of_data(&self) -> bool {
        !self.seen
    }
    pub fn set_data_seen(&mut self) {
        self.seen = true;
    }
}
