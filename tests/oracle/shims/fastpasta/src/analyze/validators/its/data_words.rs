//! Stand-in for the checks of data words, from 01 ("Data word or CDW kind"), over the lane functions of the given text.
//! The numbers of 01's record follow the text as `@first,second@`.
use crate::util::*;
pub struct DataWordSanityChecker;
impl DataWordSanityChecker {
    pub fn check_any(w: &[u8]) -> Result<(), String> {
        let id = w[9];
        if VALID_IL_ID.contains(&id)
            || VALID_OL_CONNECT0_ID.contains(&id)
            || VALID_OL_CONNECT1_ID.contains(&id)
            || VALID_OL_CONNECT2_ID.contains(&id)
            || VALID_OL_CONNECT3_ID.contains(&id)
        {
            Ok(())
        } else {
            Err(format!("ID is invalid: {id:#02X} "))
        }
    }
}
pub mod ib {
    use crate::util::*;
    pub struct IbDataWordValidator;
    impl IbDataWordValidator {
        pub fn check(w: &[u8], active: u32) -> Result<(), String> {
            let lane = ib_data_word_id_to_lane(w[9]);
            if is_lane_active(lane, active) {
                Ok(())
            } else {
                Err(format!("[E1072] IB lane is not active @{lane},{active}@"))
            }
        }
    }
}
pub mod ob {
    use crate::util::*;
    pub struct ObDataWordValidator;
    impl ObDataWordValidator {
        pub fn check(w: &[u8], active: u32) -> Result<(), Vec<String>> {
            let mut e = vec![];
            let lane = ob_data_word_id_to_lane(w[9]);
            if !is_lane_active(lane, active) {
                e.push(format!("[E1071] OB lane is not active @{lane},{active}@"));
            }
            let input = ob_data_word_id_to_input_number_connector(w[9]);
            if input > 6 {
                e.push(format!("[E1073] OB input number above 6 @{input},0@"));
            }
            if e.is_empty() {
                Ok(())
            } else {
                Err(e)
            }
        }
    }
}
