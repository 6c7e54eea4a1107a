//! The process.
use super::prelude::HostRuntime;
pub use ::std::process::ExitCode;

/// The leave to abort, which tests have.
pub trait Abort {}

impl Abort for HostRuntime {}

pub fn id(_rt: &HostRuntime) -> u32 {
    ::std::process::id()
}
