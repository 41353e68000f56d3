//! Stand-in: the folder's modules.
pub mod cdp_running;
pub mod data_words;
pub mod its_payload_fsm_cont;
pub mod lib;
pub mod status_word;
pub mod util;
