//! Imports.
use crate::kinds::exception_tag;
use crate::proved::base::FromReader as _;
use crate::proved::items;
use crate::section::{SectionLimitedIntoIter, SectionLimitedIntoIterWithOffsets};
use crate::{BinaryReader, ExternalKind, FromReader, GlobalType, MemoryType, Result, SectionLimited, TableType, TagType};

/// The kind and type of an import.
///
/// # Examples
///
/// ```
/// use pulleynavy::{BinaryReader, TypeRef};
///
/// let ty = BinaryReader::new(&[0x00, 5], 0).read::<TypeRef>()?;
/// assert_eq!(ty, TypeRef::Func(5));
/// # Ok::<(), pulleynavy::Error>(())
/// ```
#[derive(Clone, Copy, Debug, PartialEq, Eq, Hash)]
pub enum TypeRef {
    /// A function, with the index of its type.
    Func(u32),
    /// A table, with its type.
    Table(TableType),
    /// A memory, with its type.
    Memory(MemoryType),
    /// A global, with its type.
    Global(GlobalType),
    /// A tag, with its type.
    Tag(TagType),
    /// A function of exactly the type with this index.
    FuncExact(u32),
}

/// An import.
///
/// # Examples
///
/// ```
/// use pulleynavy::{BinaryReader, Import, TypeRef};
///
/// let import = BinaryReader::new(b"\x01m\x01f\x00\x05", 0).read::<Import>()?;
/// assert_eq!((import.module, import.name), ("m", "f"));
/// assert_eq!(import.ty, TypeRef::Func(5));
/// # Ok::<(), pulleynavy::Error>(())
/// ```
#[derive(Clone, Copy, Debug, PartialEq, Eq, Hash)]
pub struct Import<'a> {
    /// The name of the module to import from.
    pub module: &'a str,
    /// The name of the import in that module.
    pub name: &'a str,
    /// The kind and type of the import.
    pub ty: TypeRef,
}

/// An import of a group, which names the module for all of its imports.
///
/// # Examples
///
/// ```
/// use pulleynavy::{BinaryReader, ImportItemCompact, TypeRef};
///
/// let import = BinaryReader::new(b"\x01f\x00\x05", 0).read::<ImportItemCompact>()?;
/// assert_eq!((import.name, import.ty), ("f", TypeRef::Func(5)));
/// # Ok::<(), pulleynavy::Error>(())
/// ```
#[derive(Clone, Copy, Debug, PartialEq, Eq, Hash)]
pub struct ImportItemCompact<'a> {
    /// The name of the import in the group's module.
    pub name: &'a str,
    /// The kind and type of the import.
    pub ty: TypeRef,
}

/// An item of an import section: an import, or a group of imports from one module.
///
/// Use `SectionLimited::into_imports` to iterate over the imports of a section one by one.
///
/// # Examples
///
/// ```
/// use pulleynavy::{BinaryReader, Imports};
///
/// // A group of the module "m" with two functions of type 5.
/// let group = BinaryReader::new(b"\x01m\x00\x7e\x00\x05\x02\x01f\x01g", 0).read::<Imports>()?;
/// let names = group.into_iter().map(|import| Ok(import?.1.name)).collect::<Result<Vec<_>, pulleynavy::Error>>()?;
/// assert_eq!(names, ["f", "g"]);
/// # Ok::<(), pulleynavy::Error>(())
/// ```
#[derive(Clone, Debug)]
pub enum Imports<'a> {
    /// A single import, after its offset in bytes from the start of the stream.
    Single(u64, Import<'a>),
    /// A group of imports from the same module.
    Compact1 {
        /// The module that they come from.
        module: &'a str,
        /// Their names and types.
        items: SectionLimited<'a, ImportItemCompact<'a>>,
    },
    /// A group of imports from the same module, of the same type.
    Compact2 {
        /// The module that they come from.
        module: &'a str,
        /// What each of them is.
        ty: TypeRef,
        /// Their names.
        names: SectionLimited<'a, &'a str>,
    },
}

impl TypeRef {
    /// The type that the proved sources have.
    #[inline(always)]
    fn of(ty: items::TypeRef) -> Self {
        match ty {
            items::TypeRef::Func(index) => TypeRef::Func(index),
            items::TypeRef::Table(ty) => TypeRef::Table(TableType::of(ty)),
            items::TypeRef::Memory(ty) => TypeRef::Memory(MemoryType::of(ty)),
            items::TypeRef::Global(ty) => TypeRef::Global(GlobalType::of(ty)),
            items::TypeRef::Tag(ty) => TypeRef::Tag(exception_tag(ty.func_type_idx)),
            items::TypeRef::FuncExact(index) => TypeRef::FuncExact(index),
        }
    }
}

impl<'a> FromReader<'a> for TypeRef {
    fn from_reader(reader: &mut BinaryReader<'a>) -> Result<Self> {
        Ok(match reader.read()? {
            ExternalKind::Func => TypeRef::Func(reader.read()?),
            ExternalKind::Table => TypeRef::Table(reader.read()?),
            ExternalKind::Memory => TypeRef::Memory(reader.read()?),
            ExternalKind::Global => TypeRef::Global(reader.read()?),
            ExternalKind::Tag => TypeRef::Tag(reader.read()?),
            ExternalKind::FuncExact => TypeRef::FuncExact(reader.read()?),
        })
    }
}

/// A single import, which begins no group.
impl<'a> FromReader<'a> for Import<'a> {
    fn from_reader(reader: &mut BinaryReader<'a>) -> Result<Self> {
        Ok(Import { module: reader.read()?, name: reader.read()?, ty: reader.read()? })
    }
}

impl<'a> FromReader<'a> for Imports<'a> {
    fn from_reader(reader: &mut BinaryReader<'a>) -> Result<Self> {
        let bytes = reader.rest;
        Ok(match reader.by(items::Imports::from_reader)? {
            items::Imports::Single(offset, import) => {
                let items::Import { module, name, ty } = import;
                Imports::Single(offset, Import { module, name, ty: TypeRef::of(ty) })
            }
            items::Imports::Compact1 { module, items } => Imports::Compact1 { module, items: SectionLimited::inside(bytes, &items) },
            items::Imports::Compact2 { module, ty, names } => Imports::Compact2 { module, ty: TypeRef::of(ty), names: SectionLimited::inside(bytes, &names) },
        })
    }
}

impl<'a> FromReader<'a> for ImportItemCompact<'a> {
    fn from_reader(reader: &mut BinaryReader<'a>) -> Result<Self> {
        let items::ImportItemCompact { name, ty } = reader.by(items::ImportItemCompact::from_reader)?;
        Ok(ImportItemCompact { name, ty: TypeRef::of(ty) })
    }
}

/// The remaining imports of a group.
#[derive(Clone, Debug)]
enum Left<'a> {
    One(Option<(u64, Import<'a>)>),
    OfModule(&'a str, SectionLimitedIntoIterWithOffsets<'a, ImportItemCompact<'a>>),
    OfType(&'a str, TypeRef, SectionLimitedIntoIterWithOffsets<'a, &'a str>),
}

/// An iterator over the imports of a group, each with its offset in bytes from the start of the stream.
///
/// It yields the error of a malformed import, and `SizeMismatch` for trailing bytes, and then ends.
///
/// # Examples
///
/// ```
/// use pulleynavy::{BinaryReader, Imports};
///
/// let group = BinaryReader::new(b"\x01m\x01f\x00\x05", 100).read::<Imports>()?;
/// let (offset, import) = group.into_iter().next().unwrap()?;
/// assert_eq!((offset, import.name), (100, "f"));
/// # Ok::<(), pulleynavy::Error>(())
/// ```
#[derive(Clone, Debug)]
pub struct ImportsIter<'a>(Left<'a>);

impl<'a> IntoIterator for Imports<'a> {
    type Item = Result<(u64, Import<'a>)>;
    type IntoIter = ImportsIter<'a>;

    fn into_iter(self) -> Self::IntoIter {
        ImportsIter(match self {
            Imports::Single(offset, one) => Left::One(Some((offset, one))),
            Imports::Compact1 { module, items } => Left::OfModule(module, items.into_iter_with_offsets()),
            Imports::Compact2 { module, ty, names } => Left::OfType(module, ty, names.into_iter_with_offsets()),
        })
    }
}

impl<'a> Iterator for ImportsIter<'a> {
    type Item = Result<(u64, Import<'a>)>;

    fn next(&mut self) -> Option<Self::Item> {
        match &mut self.0 {
            Left::One(one) => one.take().map(Ok),
            Left::OfModule(module, items) => {
                let module = *module;
                Some(items.next()?.map(|(offset, item)| (offset, Import { module, name: item.name, ty: item.ty })))
            }
            Left::OfType(module, ty, names) => {
                let (module, ty) = (*module, *ty);
                Some(names.next()?.map(|(offset, name)| (offset, Import { module, name, ty })))
            }
        }
    }
}

/// An iterator over the imports of a section, each with its offset in bytes from the start of the stream. Groups are flattened.
///
/// After an error inside a group the next group follows. After an error of a group itself, the iterator ends.
///
/// # Examples
///
/// ```
/// use pulleynavy::{BinaryReader, ImportSectionReader};
///
/// let section = ImportSectionReader::new(BinaryReader::new(b"\x01\x01m\x01f\x00\x05", 100))?;
/// for import in section.into_imports_with_offsets() {
///     let (offset, import) = import?;
///     assert_eq!((offset, import.name), (101, "f"));
/// }
/// # Ok::<(), pulleynavy::Error>(())
/// ```
#[derive(Clone, Debug)]
pub struct IntoImportsWithOffsets<'a> {
    groups: SectionLimitedIntoIter<'a, Imports<'a>>,
    group: ImportsIter<'a>,
}

impl<'a> Iterator for IntoImportsWithOffsets<'a> {
    type Item = Result<(u64, Import<'a>)>;

    fn next(&mut self) -> Option<Self::Item> {
        loop {
            if let Some(import) = self.group.next() {
                return Some(import);
            }
            match self.groups.next()? {
                // Almost every group is one import.
                Ok(Imports::Single(offset, import)) => return Some(Ok((offset, import))),
                Ok(group) => self.group = group.into_iter(),
                Err(error) => return Some(Err(error)),
            }
        }
    }
}

impl<'a> SectionLimited<'a, Imports<'a>> {
    /// Returns an iterator over the imports. Groups are flattened.
    ///
    /// # Examples
    ///
    /// ```
    /// use pulleynavy::{BinaryReader, ImportSectionReader};
    ///
    /// let section = ImportSectionReader::new(BinaryReader::new(b"\x01\x01m\x01f\x00\x05", 0))?;
    /// for import in section.into_imports() {
    ///     assert_eq!(import?.name, "f");
    /// }
    /// # Ok::<(), pulleynavy::Error>(())
    /// ```
    pub fn into_imports(self) -> impl Iterator<Item = Result<Import<'a>>> {
        self.into_imports_with_offsets().map(|import| import.map(|(_, import)| import))
    }

    /// Returns an iterator over the imports, each with its offset in bytes from the start of the stream. Groups are flattened.
    #[must_use]
    pub fn into_imports_with_offsets(self) -> IntoImportsWithOffsets<'a> {
        IntoImportsWithOffsets { groups: self.into_iter(), group: ImportsIter(Left::One(None)) }
    }
}
