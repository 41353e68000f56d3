//! Stand-in: the folder's modules, and a stave without meaning (01 leaves staves out).
pub mod data_words;
pub mod status_words;
#[derive(Debug, Clone, Copy, PartialEq, Eq)]
pub struct Stave(u16);
impl Stave {
    pub fn from_feeid(f: u16) -> Self {
        Stave(f)
    }
}
