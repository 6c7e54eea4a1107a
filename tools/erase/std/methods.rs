//! Methods of slices and texts that take an allocator.
use super::alloc::{AllocError, Allocator};
use super::string::String;
use super::vec::Vec;
use core::fmt::Display;

pub trait ToVecWith<T> {
    fn to_vec_with<A: Allocator>(&self, alloc: A) -> Result<Vec<T, A>, AllocError>;
}

impl<T: Clone> ToVecWith<T> for [T] {
    fn to_vec_with<A: Allocator>(&self, alloc: A) -> Result<Vec<T, A>, AllocError> {
        let mut list = Vec::new(alloc);
        list.extend_from_slice(self)?;
        Ok(list)
    }
}

pub trait ToStringWith {
    fn to_string_with<A: Allocator>(&self, alloc: A) -> Result<String<A>, AllocError>;
}

impl<T: Display + ?Sized> ToStringWith for T {
    fn to_string_with<A: Allocator>(&self, alloc: A) -> Result<String<A>, AllocError> {
        String::formatted(alloc, format_args!("{self}"))
    }
}

/// Repeats a slice or a text.
pub trait RepeatWith {
    type Repeated<A>;

    fn repeat_with<A: Allocator>(&self, alloc: A, count: usize) -> Result<Self::Repeated<A>, AllocError>;
}

impl RepeatWith for str {
    type Repeated<A> = String<A>;

    fn repeat_with<A: Allocator>(&self, alloc: A, count: usize) -> Result<String<A>, AllocError> {
        let mut text = String::new(alloc);
        (0..count).try_for_each(|_| text.push_str(self))?;
        Ok(text)
    }
}

impl<T: Clone> RepeatWith for [T] {
    type Repeated<A> = Vec<T, A>;

    fn repeat_with<A: Allocator>(&self, alloc: A, count: usize) -> Result<Vec<T, A>, AllocError> {
        let mut list = Vec::new(alloc);
        (0..count).try_for_each(|_| list.extend_from_slice(self))?;
        Ok(list)
    }
}

/// Joins slices or texts.
pub trait ConcatWith {
    type Joined<A>;

    fn concat_with<A: Allocator>(&self, alloc: A) -> Result<Self::Joined<A>, AllocError>;
}

impl ConcatWith for [&str] {
    type Joined<A> = String<A>;

    fn concat_with<A: Allocator>(&self, alloc: A) -> Result<String<A>, AllocError> {
        let mut text = String::new(alloc);
        self.iter().try_for_each(|part| text.push_str(part))?;
        Ok(text)
    }
}

impl<T: Clone> ConcatWith for [&[T]] {
    type Joined<A> = Vec<T, A>;

    fn concat_with<A: Allocator>(&self, alloc: A) -> Result<Vec<T, A>, AllocError> {
        let mut list = Vec::new(alloc);
        self.iter().try_for_each(|part| list.extend_from_slice(part))?;
        Ok(list)
    }
}
