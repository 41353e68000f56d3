//! Stand-in for the crate log: a warning that goes nowhere.
#[macro_export]
macro_rules! warn { ($($t:tt)*) => {{ let _ = format_args!($($t)*); }} }
