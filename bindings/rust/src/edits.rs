//! New custom sections, and edits of the custom sections of a stream.
use crate::proved::edits;
use crate::{Error, Fault, Result};

/// A custom section to write: its name and its data.
///
/// The name has at most 100,000 bytes, and the content, which is the name with its size and the data, less than 2^32.
#[derive(Clone, Copy, Debug, PartialEq, Eq, Hash)]
pub struct NewSection<'a> {
    /// The name.
    pub name: &'a str,
    /// The data after the name.
    pub data: &'a [u8],
}

/// An edit of the custom sections of a stream.
#[derive(Clone, Copy, Debug, PartialEq, Eq, Hash)]
#[non_exhaustive]
pub enum Edit<'a> {
    /// Appends a section.
    Append(NewSection<'a>),
    /// Replaces each custom section with the name of this one, in its place.
    Replace(NewSection<'a>),
    /// Removes each custom section with this name.
    Remove(&'a str),
    /// Removes the custom sections with other names. If the name ends with `*`, the sections stay whose names begin with the bytes before the `*`.
    Keep(&'a str),
}

impl<'a> NewSection<'a> {
    /// The section for the proved sources.
    fn proved(self) -> edits::NewSection<'a> {
        edits::NewSection { name: self.name, data: self.data }
    }
}

/// The error of a section that can't be written.
fn too_large() -> Error {
    Error::new(Fault::SectionTooLarge, 0)
}

/// Writes a custom section to the front of `out` if it has room for all of it, and returns the size of the section.
///
/// The size is at most `out.len()` if the section was written. The call never allocates.
///
/// # Errors
///
/// `SectionTooLarge`, at offset 0, if the name or the content is too large.
///
/// (Core specification, Binary format, Modules, Custom Section.)
pub fn encode_to(section: NewSection<'_>, out: &mut [u8]) -> Result<usize> {
    let section = section.proved();
    if !section.fits() {
        return Err(too_large());
    }
    let size = section.size();
    if size <= out.len() {
        section.write_at(out, 0);
    }
    Ok(size)
}

/// Writes a complete stream after an edit to the front of `out` if it has room for all of it, and returns the size of the edited stream.
///
/// The size is at most `out.len()` if the stream was written. The stream begins at offset 0. The call never allocates.
///
/// # Errors
///
/// The error at which parsing the stream stops; `SectionTooLarge`, at offset 0, if the name or the content of the new section is too large.
///
/// # Examples
///
/// ```
/// use pulleynavy::{Edit, edit_to};
///
/// let mut out = [0; 20];
/// let size = edit_to(b"\0asm\x01\0\0\0\0\x02\x01a\x01\x01\0", Edit::Remove("a"), &mut out)?;
/// assert_eq!(&out[..size], b"\0asm\x01\0\0\0\x01\x01\0");
/// # Ok::<(), pulleynavy::Error>(())
/// ```
pub fn edit_to(bytes: &[u8], edit: Edit<'_>, out: &mut [u8]) -> Result<usize> {
    let kept: &[&str] = match &edit {
        Edit::Keep(name) => core::slice::from_ref(name),
        _ => &[],
    };
    let edit = match edit {
        Edit::Append(section) => edits::Edit::Append(section.proved()),
        Edit::Replace(section) => edits::Edit::Replace(section.proved()),
        Edit::Remove(name) => edits::Edit::Remove(name),
        Edit::Keep(_) => edits::Edit::Keep(edits::Keep { names: false, kept, removed: &[] }),
    };
    if !edit.fits() {
        return Err(too_large());
    }
    edits::edit_to(bytes, &[edit], out).map_err(Error::of)
}

#[cfg(feature = "alloc")]
pub use owned::{edit, encode};

#[cfg(feature = "alloc")]
mod owned {
    use super::{Edit, NewSection, edit_to, encode_to};
    use crate::{Parser, Result};
    use alloc::vec;
    use alloc::vec::Vec;

    /// Returns the bytes of a custom section: its id, its length, its name with its size, and its data.
    ///
    /// Numbers have as few bytes as possible.
    ///
    /// # Errors
    ///
    /// `SectionTooLarge`, at offset 0, if the name or the content is too large.
    ///
    /// # Examples
    ///
    /// ```
    /// use pulleynavy::{NewSection, encode};
    ///
    /// assert_eq!(encode(NewSection { name: "a", data: b"xyz" })?, b"\0\x05\x01axyz");
    /// # Ok::<(), pulleynavy::Error>(())
    /// ```
    ///
    /// (Core specification, Binary format, Modules, Custom Section.)
    pub fn encode(section: NewSection<'_>) -> Result<Vec<u8>> {
        let mut out = vec![0; encode_to(section, &mut [])?];
        encode_to(section, &mut out)?;
        Ok(out)
    }

    /// Returns a copy of a complete stream after edits, one after the other.
    ///
    /// The other sections keep their bytes and their order. A later edit also changes the sections that an earlier one added. The stream begins
    /// at offset 0.
    ///
    /// # Errors
    ///
    /// The error at which parsing the stream stops; `SectionTooLarge`, at offset 0, if the name or the content of a new section is too large.
    ///
    /// # Examples
    ///
    /// ```
    /// use pulleynavy::{Edit, NewSection, edit};
    ///
    /// let module = b"\0asm\x01\0\0\0\0\x02\x01a\0\x02\x01b";
    /// let edits = [
    ///     Edit::Remove("b"),
    ///     Edit::Replace(NewSection { name: "a", data: b"z" }),
    ///     Edit::Append(NewSection { name: "c", data: b"" }),
    /// ];
    /// assert_eq!(edit(module, &edits)?, b"\0asm\x01\0\0\0\0\x03\x01az\0\x02\x01c");
    /// # Ok::<(), pulleynavy::Error>(())
    /// ```
    pub fn edit(bytes: &[u8], edits: &[Edit<'_>]) -> Result<Vec<u8>> {
        let Some((first, later)) = edits.split_first() else {
            return unedited(bytes);
        };
        later.iter().try_fold(edited(bytes, *first)?, |bytes, edit| edited(&bytes, *edit))
    }

    fn edited(bytes: &[u8], edit: Edit<'_>) -> Result<Vec<u8>> {
        let mut out = vec![0; edit_to(bytes, edit, &mut [])?];
        edit_to(bytes, edit, &mut out)?;
        Ok(out)
    }

    fn unedited(bytes: &[u8]) -> Result<Vec<u8>> {
        for payload in Parser::new(0).parse_all(bytes) {
            payload?;
        }
        Ok(bytes.to_vec())
    }
}
