//! Stand-in for the stored status words, from 01: which TDH is the previous one, which the last earlier internal one. The sanity
//! checks of IHW, TDT and DDW0 are 01's too; that of the TDH is the given text's.
use super::{tdh::TdhValidator, StatusWordValidator};
use crate::util::*;
pub struct StatusWordContainer {
    ihw: Option<Ihw>,
    tdh: Option<Tdh>,
    prv_tdh: Option<Tdh>,
    prv_int_tdh: Option<Tdh>,
    tdt: Option<Tdt>,
    ddw: Option<Ddw0>,
    cdw: Option<Cdw>,
}
fn simple<T: StatusWord>(w: &T, id: u8) -> Result<(), String> {
    if w.id() != id {
        return Err(format!("ID is not {id:#2X}: {:#2X} ", w.id()));
    }
    if !w.is_reserved_0() {
        return Err(format!("reserved bits are not 0: {w} "));
    }
    Ok(())
}
impl StatusWordContainer {
    pub const fn new_const() -> Self {
        Self { ihw: None, tdh: None, prv_tdh: None, prv_int_tdh: None, tdt: None, ddw: None, cdw: None }
    }
    pub fn sanity_check_tdh(&self, w: &Tdh) -> Result<(), String> {
        TdhValidator::sanity_check(w)
    }
    pub fn sanity_check_tdt(&self, w: &Tdt) -> Result<(), String> {
        simple(w, Tdt::ID)
    }
    pub fn sanity_check_ihw(&self, w: &Ihw) -> Result<(), String> {
        simple(w, Ihw::ID)
    }
    pub fn sanity_check_ddw0(&self, w: &Ddw0) -> Result<(), String> {
        if w.id() != Ddw0::ID {
            return simple(w, Ddw0::ID);
        }
        let mut e = simple(w, Ddw0::ID).err().unwrap_or_default();
        if w.index() != 0 {
            e += "index is not 0";
        }
        if e.is_empty() {
            Ok(())
        } else {
            Err(e)
        }
    }
    pub fn replace_tdh(&mut self, w: Tdh) {
        self.prv_tdh = self.tdh;
        if let Some(p) = self.prv_tdh {
            if p.internal_trigger() == 1 {
                self.prv_int_tdh = Some(p);
            }
        }
        self.tdh = Some(w);
    }
    pub fn replace_tdt(&mut self, w: Tdt) {
        self.tdt = Some(w);
    }
    pub fn replace_ihw(&mut self, w: Ihw) {
        self.ihw = Some(w);
    }
    pub fn replace_ddw(&mut self, w: Ddw0) {
        self.ddw = Some(w);
    }
    pub fn replace_cdw(&mut self, w: Cdw) {
        self.cdw = Some(w);
    }
    pub fn tdh(&self) -> Option<&Tdh> {
        self.tdh.as_ref()
    }
    pub fn prv_tdh(&self) -> Option<&Tdh> {
        self.prv_tdh.as_ref()
    }
    pub fn tdh_previous_with_internal_trg(&self) -> Option<&Tdh> {
        self.prv_int_tdh.as_ref()
    }
    pub fn tdt(&self) -> Option<&Tdt> {
        self.tdt.as_ref()
    }
    pub fn ihw(&self) -> Option<&Ihw> {
        self.ihw.as_ref()
    }
    pub fn cdw(&self) -> Option<&Cdw> {
        self.cdw.as_ref()
    }
}
