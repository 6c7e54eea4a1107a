//! Texts whose allocations can fail.
use super::alloc::{AllocError, Allocator, Global};
use core::fmt::{self, Write};
use core::ops::Deref;
use rust_alloc::string::String as Text;

/// A text that can grow, whose allocations can fail.
#[derive(Clone)]
pub struct String<A = Global> {
    text: Text,
    alloc: A,
}

impl<A: Allocator> String<A> {
    pub fn new(alloc: A) -> Self {
        String { text: Text::new(), alloc }
    }

    pub fn from_str(alloc: A, text: &str) -> Result<Self, AllocError> {
        let mut made = String::new(alloc);
        made.push_str(text)?;
        Ok(made)
    }

    /// Returns a text of arguments that `format_args!` takes.
    pub fn formatted(alloc: A, arguments: fmt::Arguments<'_>) -> Result<Self, AllocError> {
        let mut text = String::new(alloc);
        text.write_fmt(arguments).map_err(|_| AllocError)?;
        Ok(text)
    }

    pub fn push_str(&mut self, more: &str) -> Result<(), AllocError> {
        if self.text.capacity() - self.text.len() < more.len() {
            self.alloc.allocate(more.len(), 1)?;
        }
        self.text.try_reserve(more.len()).map_err(|_| AllocError)?;
        self.text.push_str(more);
        Ok(())
    }

    pub fn push(&mut self, c: char) -> Result<(), AllocError> {
        self.push_str(c.encode_utf8(&mut [0; 4]))
    }
}

impl<A> String<A> {
    pub fn as_str(&self) -> &str {
        &self.text
    }

    pub fn clear(&mut self) {
        self.text.clear();
    }

    pub fn truncate(&mut self, length: usize) {
        self.text.truncate(length);
    }
}

impl From<Text> for String {
    fn from(text: Text) -> Self {
        String { text, alloc: Global }
    }
}

impl<A> Deref for String<A> {
    type Target = str;

    fn deref(&self) -> &str {
        &self.text
    }
}

impl<A> fmt::Display for String<A> {
    fn fmt(&self, f: &mut fmt::Formatter<'_>) -> fmt::Result {
        self.text.fmt(f)
    }
}

impl<A> fmt::Debug for String<A> {
    fn fmt(&self, f: &mut fmt::Formatter<'_>) -> fmt::Result {
        self.text.fmt(f)
    }
}

impl<A: Allocator> Write for String<A> {
    fn write_str(&mut self, text: &str) -> fmt::Result {
        self.push_str(text).map_err(|_| fmt::Error)
    }
}

impl<A> PartialEq for String<A> {
    fn eq(&self, other: &Self) -> bool {
        self.text == other.text
    }
}

impl<A> Eq for String<A> {}
