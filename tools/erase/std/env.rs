//! The arguments of a program.
use super::io;
use super::prelude::{HostRuntime, String};

/// The arguments, the program's name first.
pub type Args = ::std::vec::IntoIter<String>;

/// Returns the arguments.
///
/// # Errors
///
/// `InvalidData` if one is not UTF-8.
pub fn args(_rt: &HostRuntime) -> io::Result<Args> {
    let texts = ::std::env::args_os().map(|word| word.into_string().map_err(|_| io::Error::from(io::ErrorKind::InvalidData)));
    texts.map(|text| text.map(String::from)).collect::<io::Result<::std::vec::Vec<_>>>().map(::std::vec::Vec::into_iter)
}
