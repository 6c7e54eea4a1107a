//! The system that a program runs on.
use super::alloc::Global;
use super::io;

/// The system: memory, standard streams, files and arguments.
#[derive(Clone, Copy, Debug)]
pub struct HostRuntime;

impl HostRuntime {
    pub fn process(&self) -> &Self {
        self
    }

    pub fn alloc(&self) -> Global {
        Global
    }

    pub fn stdin(&self) -> io::Stdin {
        io::Stdin::new()
    }

    pub fn stdout(&self) -> io::Stdout {
        ::std::io::stdout()
    }

    pub fn stderr(&self) -> io::Stderr {
        ::std::io::stderr()
    }
}
