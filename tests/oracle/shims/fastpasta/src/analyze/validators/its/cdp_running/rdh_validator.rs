//! Stand-in for the checks of the packet at an IHW and at a DDW0, from 01 (1110, 1111, 1120), and of the page at an IHW from 02 (1121, 1122). The given
//! text calls the check at an IHW with the packet alone; the state that the IHW came in is read from the stand-in of `sm!`.
use crate::util::*;
use its_payload_fsm_cont::ITS_Payload_Continuous::FROM;
pub struct ItsRdhValidator<T: RDH> {
    rdh: Option<T>,
}
impl<T: RDH> Default for ItsRdhValidator<T> {
    fn default() -> Self {
        Self { rdh: None }
    }
}
impl<T: RDH> ItsRdhValidator<T> {
    pub fn new(rdh: &T) -> Self {
        Self { rdh: Some(rdh.clone()) }
    }
    pub fn rdh(&self) -> &T {
        self.rdh.as_ref().unwrap()
    }
    pub fn check_at_ddw0(&self) -> Result<(), Vec<String>> {
        let (s, p) = (self.rdh().stop_bit(), self.rdh().pages_counter());
        let mut e = vec![];
        if s != 1 {
            e.push(format!("[E1110] DDW0 observed but RDH stop bit is not 1 @{s},0@"));
        }
        if p == 0 {
            e.push(format!("[E1111] DDW0 observed but RDH page counter is 0 @{p},0@"));
        }
        if e.is_empty() {
            Ok(())
        } else {
            Err(e)
        }
    }
    pub fn check_at_initial_ihw(&self) -> Result<(), Vec<String>> {
        let (s, p) = (self.rdh().stop_bit(), self.rdh().pages_counter());
        let mut e = vec![];
        if s != 0 {
            e.push(format!("[E1120] IHW observed but RDH stop bit is not 0 @{s},0@"));
        }
        let three = FROM.with(|c| c.get()) == "DDW0_or_TDH_or_IHW_";
        if !three && p != 0 {
            e.push(format!("[E1121] first IHW observed but RDH page counter is not 0 @{p},0@"));
        }
        if three && p == 0 {
            e.push(format!("[E1122] later IHW observed but RDH page counter is 0 @{p},0@"));
        }
        if e.is_empty() {
            Ok(())
        } else {
            Err(e)
        }
    }
}
