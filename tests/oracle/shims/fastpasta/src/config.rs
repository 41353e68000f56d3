//! Stand-in for the crate's config: 01's settings in the shape that the given text asks for.
pub trait ChecksOpt {
    fn check(&self) -> Option<prelude::CheckCommands>;
    fn check_its_trigger_period(&self) -> Option<u16>;
}
pub trait FilterOpt {}
pub trait CustomChecksOpt {}
pub mod prelude {
    #[derive(Debug, Clone, Copy, PartialEq, Eq)]
    #[allow(non_camel_case_types)]
    pub enum System {
        ITS,
        ITS_Stave,
    }
    #[derive(Debug, Clone, Copy)]
    pub struct CheckModeArgs {
        pub target: Option<System>,
    }
    #[derive(Debug, Clone, Copy)]
    pub enum CheckCommands {
        All(CheckModeArgs),
        Sanity(CheckModeArgs),
    }
    impl CheckCommands {
        pub fn target(&self) -> Option<System> {
            match self {
                CheckCommands::All(a) | CheckCommands::Sanity(a) => a.target,
            }
        }
    }
}
/// 01's settings as a config.
#[derive(Debug, Clone, Copy, PartialEq, Eq, Hash)]
pub struct Settings {
    pub running: bool,
    pub frames: bool,
    pub period: Option<u16>,
}
impl ChecksOpt for Settings {
    fn check(&self) -> Option<prelude::CheckCommands> {
        use prelude::*;
        let a = CheckModeArgs { target: Some(if self.frames { System::ITS_Stave } else { System::ITS }) };
        Some(if self.running { CheckCommands::All(a) } else { CheckCommands::Sanity(a) })
    }
    fn check_its_trigger_period(&self) -> Option<u16> {
        self.period
    }
}
impl FilterOpt for Settings {}
impl CustomChecksOpt for Settings {}
