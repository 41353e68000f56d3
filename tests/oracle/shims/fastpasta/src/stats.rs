//! Stand-in for the crate's stats: of the messages only errors.
#[derive(Debug)]
pub enum StatType {
    Error(Box<str>),
}
