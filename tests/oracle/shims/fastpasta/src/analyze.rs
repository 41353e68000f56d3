//! Stand-in: the folder's modules.
pub mod validators;
