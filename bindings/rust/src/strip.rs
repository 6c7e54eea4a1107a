//! Streams without their custom sections.
use crate::proved::edits::{Keep, strip_to_front};
use crate::{Error, Result};

/// Removes the custom sections of a complete stream in place, and returns the remaining bytes.
///
/// With `keep_names` the sections called `name` stay. The stream begins at offset 0. The call never allocates.
///
/// # Errors
///
/// The error at which parsing the stream stops. The bytes are then unchanged.
///
/// # Examples
///
/// ```
/// use pulleynavy::strip;
///
/// let mut bytes = *b"\0asm\x01\0\0\0\0\x02\x01a\x01\x01\0";
/// assert_eq!(strip(&mut bytes, false)?, b"\0asm\x01\0\0\0\x01\x01\0");
/// # Ok::<(), pulleynavy::Error>(())
/// ```
pub fn strip(bytes: &mut [u8], keep_names: bool) -> Result<&mut [u8]> {
    let size = strip_to_front(bytes, Keep::names(keep_names)).map_err(Error::of)?;
    Ok(&mut bytes[..size])
}
