//! Core dumps.
use crate::composites::{Frame, Items, read_items, read_list};
use crate::proved::base::FromReader as _;
use crate::proved::custom;
use crate::{BinaryReader, CoreStart, Error, Fault, FromReader, Ieee32, Ieee64, Result};

/// Reads the byte 0 that begins a part. Another one is a fault at this offset.
fn begin(reader: &mut BinaryReader<'_>, part: CoreStart, offset: u64) -> Result<()> {
    match reader.read_u8()? {
        0 => Ok(()),
        _ => Err(Error::new(Fault::CoreStartByte(part), offset)),
    }
}

/// Reads the byte 0 that begins a part. Another one is a fault.
pub(crate) fn begin_here(reader: &mut BinaryReader<'_>, part: CoreStart) -> Result<()> {
    let offset = reader.original_position();
    begin(reader, part, offset)
}

/// The section `core`: the process of a core dump.
///
/// # Examples
///
/// ```
/// use pulleynavy::{BinaryReader, CoreDumpSection};
///
/// let section = CoreDumpSection::new(BinaryReader::new(b"\0\x03app", 0))?;
/// assert_eq!(section.name, "app");
/// # Ok::<(), pulleynavy::Error>(())
/// ```
#[derive(Clone, Copy, Debug, PartialEq, Eq, Hash)]
pub struct CoreDumpSection<'a> {
    /// The name of the process.
    pub name: &'a str,
}

impl<'a> CoreDumpSection<'a> {
    /// Reads the section from the remaining bytes of a reader.
    ///
    /// # Errors
    ///
    /// `CoreStartByte` at a first byte other than 0, an error of the name, or `CustomTrailing` at the first byte after it.
    pub fn new(mut reader: BinaryReader<'a>) -> Result<Self> {
        let custom::CoreDumpSection { name } = reader.by(|reader| custom::CoreDumpSection::new(reader.clone()))?;
        Ok(CoreDumpSection { name })
    }
}

/// The section `coremodules`: the modules of a core dump.
///
/// # Examples
///
/// ```
/// use pulleynavy::{BinaryReader, CoreDumpModulesSection};
///
/// let section = CoreDumpModulesSection::new(BinaryReader::new(b"\x01\0\x04test", 0))?;
/// assert!(section.modules.into_iter().eq(["test"]));
/// # Ok::<(), pulleynavy::Error>(())
/// ```
#[derive(Clone, Debug)]
pub struct CoreDumpModulesSection<'a> {
    /// The names of the modules.
    pub modules: Items<'a, &'a str>,
}

impl<'a> CoreDumpModulesSection<'a> {
    /// Reads the section from the remaining bytes of a reader.
    ///
    /// # Errors
    ///
    /// `CoreStartByte` at the start of the data if the first byte of any module is not 0, an error of the count or a name, or
    /// `CustomTrailing` at the first byte after the last module.
    pub fn new(mut reader: BinaryReader<'a>) -> Result<Self> {
        let data_offset = reader.original_position();
        let count = reader.read_var_u32()?;
        // Only a list that borrows reads its items again. They have no fault then, so the offset is not used.
        let modules = read_items(&mut reader, count, |reader| module(reader, data_offset), |reader| module(reader, 0))?;
        reader.expect_end(Fault::CustomTrailing)?;
        Ok(CoreDumpModulesSection { modules })
    }
}

/// The name of a module of the section whose data begins at this offset.
fn module<'a>(reader: &mut BinaryReader<'a>, data_offset: u64) -> Result<&'a str> {
    begin(reader, CoreStart::Module, data_offset)?;
    reader.read_unlimited_string()
}

/// The section `corestack`: a thread of a core dump, with its frames.
///
/// # Examples
///
/// ```
/// use pulleynavy::{BinaryReader, CoreDumpStackSection};
///
/// // The thread "main", with one frame: instance 4, function 42, offset 51, one local and an empty stack.
/// let bytes = b"\0\x04main\x01\0\x04\x2a\x33\x01\x7f\x01\0";
/// let section = CoreDumpStackSection::new(BinaryReader::new(bytes, 0))?;
/// assert_eq!(section.name, "main");
/// for frame in section.frames {
///     assert_eq!(frame.funcidx, 42);
/// }
/// # Ok::<(), pulleynavy::Error>(())
/// ```
#[derive(Clone, Debug)]
pub struct CoreDumpStackSection<'a> {
    /// The name of the thread.
    pub name: &'a str,
    /// The frames of the thread.
    pub frames: Items<'a, Frame<'a>>,
}

impl<'a> CoreDumpStackSection<'a> {
    /// Reads the section from the remaining bytes of a reader.
    ///
    /// # Errors
    ///
    /// `CoreStartByte` at a first byte other than 0, an error of the name, the count or a frame, or `CustomTrailing` at the first
    /// byte after the last frame.
    pub fn new(mut reader: BinaryReader<'a>) -> Result<Self> {
        begin_here(&mut reader, CoreStart::StackName)?;
        let name = reader.read_unlimited_string()?;
        let frames = read_list(&mut reader, Frame::from_reader)?;
        reader.expect_end(Fault::CustomTrailing)?;
        Ok(CoreDumpStackSection { name, frames })
    }
}

/// A value of a local or on the stack of a frame in a core dump.
///
/// # Examples
///
/// ```
/// use pulleynavy::{BinaryReader, CoreDumpValue};
///
/// let value = BinaryReader::new(&[0x7f, 5], 0).read::<CoreDumpValue>()?;
/// assert_eq!(value, CoreDumpValue::I32(5));
/// # Ok::<(), pulleynavy::Error>(())
/// ```
#[derive(Clone, Copy, Debug, PartialEq, Eq, Hash)]
pub enum CoreDumpValue {
    /// A missing value.
    Missing,
    /// A 32-bit integer.
    I32(i32),
    /// A 64-bit integer.
    I64(i64),
    /// The bits of a 32-bit float.
    F32(Ieee32),
    /// The bits of a 64-bit float.
    F64(Ieee64),
}

impl<'a> FromReader<'a> for CoreDumpValue {
    fn from_reader(reader: &mut BinaryReader<'a>) -> Result<Self> {
        Ok(match reader.by(custom::CoreDumpValue::from_reader)? {
            custom::CoreDumpValue::Missing => CoreDumpValue::Missing,
            custom::CoreDumpValue::I32(value) => CoreDumpValue::I32(value),
            custom::CoreDumpValue::I64(value) => CoreDumpValue::I64(value),
            custom::CoreDumpValue::F32(value) => CoreDumpValue::F32(Ieee32(value.bits())),
            custom::CoreDumpValue::F64(value) => CoreDumpValue::F64(Ieee64(value.bits())),
        })
    }
}
