//! Paths that are texts.
use super::prelude::HostRuntime;

/// A path that is UTF-8.
#[derive(Clone, Copy, Debug)]
pub struct Path<'a>(&'a ::std::path::Path);

impl<'a> Path<'a> {
    pub fn new(text: &'a str) -> Self {
        Path(::std::path::Path::new(text))
    }

    pub fn exists(&self, _rt: &HostRuntime) -> bool {
        self.0.exists()
    }

    pub fn is_file(&self, _rt: &HostRuntime) -> bool {
        self.0.is_file()
    }
}
