//! How tests run.
use super::prelude::HostRuntime;
use ::std::fmt::Debug;
use ::std::string::String;

/// Why a test failed: the text of any error.
pub struct Fail(String);

impl Fail {
    pub fn new(why: &str) -> Self {
        Fail(why.into())
    }
}

impl<E: Debug> From<E> for Fail {
    fn from(error: E) -> Self {
        Fail(format!("{error:?}"))
    }
}

/// What a test returns.
pub trait Outcome {
    /// # Panics
    ///
    /// If the test failed.
    fn expect(self);
}

impl Outcome for () {
    fn expect(self) {}
}

impl Outcome for Result<(), Fail> {
    fn expect(self) {
        if let Err(why) = self {
            panic!("{}", why.0);
        }
    }
}

/// Runs a test.
pub fn run<T: Outcome>(test: impl FnOnce(HostRuntime) -> T) {
    test(HostRuntime).expect();
}
