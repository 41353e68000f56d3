//! Stand-in: the folder's modules, and the trait that the given TDH validator implements.
use crate::util::*;
pub mod tdh;
pub mod util;
pub trait StatusWordValidator<T: StatusWord> {
    fn sanity_check(status_word: &T) -> Result<(), String>;
}
