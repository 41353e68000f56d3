//! Stand-in for the readout frame: only its start and end (01 leaves ALPIDE contents out).
use crate::oracle_log::{Frame, FRAME};
use crate::util::*;
pub struct ItsReadoutFrameValidator<C: 'static> {
    _config: &'static C,
    start: Option<u64>,
    stave: Option<Stave>,
}
impl<C> ItsReadoutFrameValidator<C> {
    pub fn new(config: &'static C) -> Self {
        Self { _config: config, start: None, stave: None }
    }
    pub fn stave(&self) -> Option<Stave> {
        self.stave
    }
    pub fn set_stave(&mut self, s: Stave) {
        self.stave = Some(s);
    }
    pub fn is_in_frame(&self) -> bool {
        self.start.is_some()
    }
    pub fn new_frame(&mut self, pos: u64) {
        self.start = Some(pos);
        FRAME.with(|f| f.set(Frame::Opened));
    }
    pub fn try_close_frame(&mut self, end: u64) -> Result<(), ()> {
        let s = self.start.take().ok_or(())?;
        FRAME.with(|f| f.set(Frame::Closed(s, end)));
        Ok(())
    }
    pub fn process_frame<T: RDH>(&mut self, _: &flume::Sender<StatType>, _: &StatusWordContainer, _: &T) {}
    pub fn store_lane_data(&mut self, _: &[u8]) {}
}
