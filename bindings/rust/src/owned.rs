//! Items that own lists.
use crate::cores::begin_here;
use crate::error::Result;
use crate::proved::base::{self, FromReader as _};
use crate::proved::items;
use crate::types::type_index;
use crate::{ArrayType, BinaryReader, ContType, CoreDumpValue, CoreStart, Fault, FieldType, FromReader, PackedIndex, SectionLimited, ValType};
use alloc::boxed::Box;
use alloc::vec::{self, Vec};
use core::iter::FusedIterator;
use core::slice;

/// A list inside an item that borrows from the input anyway.
pub(crate) type Items<'a, T> = Vec<T>;
/// The groups of a type section.
pub(crate) type RecGroups<'a> = SectionLimited<'a, RecGroup>;
/// The type of a function.
pub(crate) type Func<'a> = FuncType;
/// The section `coreinstances`.
pub(crate) type Instances<'a> = CoreDumpInstancesSection;
/// A frame of a core dump.
pub(crate) type Frame<'a> = CoreDumpStackFrame;

/// Reads this many items. The list grows only as they are read: a count alone allocates nothing.
pub(crate) fn read_items<'a, T>(
    reader: &mut BinaryReader<'a>,
    count: u32,
    read: impl Fn(&mut BinaryReader<'a>) -> Result<T>,
    _: fn(&mut BinaryReader<'a>) -> Result<T>,
) -> Result<Vec<T>> {
    let mut items = Vec::new();
    for _ in 0..count {
        items.push(read(reader)?);
    }
    Ok(items)
}

/// Reads a count and this many items.
pub(crate) fn read_list<'a, T>(reader: &mut BinaryReader<'a>, read: fn(&mut BinaryReader<'a>) -> Result<T>) -> Result<Vec<T>> {
    let count = reader.read_var_u32()?;
    read_items(reader, count, read, read)
}

fn read_counted<'a, T: FromReader<'a>>(reader: &mut BinaryReader<'a>) -> Result<Vec<T>> {
    read_list(reader, T::from_reader)
}

/// The type of a function.
///
/// # Examples
///
/// ```
/// use pulleynavy::{BinaryReader, FuncType, ValType};
///
/// let ty = BinaryReader::new(&[1, 0x7f, 1, 0x7e], 0).read::<FuncType>()?;
/// assert_eq!(ty.params(), [ValType::I32]);
/// assert_eq!(ty.results(), [ValType::I64]);
/// # Ok::<(), pulleynavy::Error>(())
/// ```
#[derive(Clone, Debug, PartialEq, Eq, Hash, PartialOrd, Ord)]
pub struct FuncType {
    types: Vec<ValType>,
    params: usize,
}

impl FuncType {
    /// Returns the type of a function with these parameters and results.
    ///
    /// # Examples
    ///
    /// ```
    /// use pulleynavy::{FuncType, ValType};
    ///
    /// let ty = FuncType::new([ValType::I32], [ValType::I64, ValType::F32]);
    /// assert_eq!(ty.results().len(), 2);
    /// ```
    pub fn new(params: impl IntoIterator<Item = ValType>, results: impl IntoIterator<Item = ValType>) -> Self {
        let mut types: Vec<_> = params.into_iter().collect();
        let params = types.len();
        types.extend(results);
        FuncType { types, params }
    }

    /// Returns the types of the parameters.
    #[must_use]
    pub fn params(&self) -> &[ValType] {
        &self.types[..self.params]
    }

    /// Returns the types of the results.
    #[must_use]
    pub fn results(&self) -> &[ValType] {
        &self.types[self.params..]
    }

    /// Reads the parameters, of which there are this many, and then the results.
    fn read(reader: &mut BinaryReader<'_>, params: u32) -> Result<Self> {
        // A type takes a byte at least, so a count alone allocates no more than the input has.
        let room = (params as usize).saturating_add(FEW).min(reader.bytes_remaining());
        let mut types = Vec::with_capacity(room);
        reader.by(|reader| {
            push_types(reader, params, &mut types)?;
            let results = reader.read_var_u32()?;
            push_types(reader, results, &mut types)
        })?;
        Ok(FuncType { types, params: params as usize })
    }
}

/// How many results there is room for without another allocation.
const FEW: usize = 2;

/// Appends this many types.
#[inline(always)]
fn push_types(reader: &mut base::BinaryReader<'_>, count: u32, types: &mut Vec<ValType>) -> base::Result<()> {
    for _ in 0..count {
        types.push(ValType::of(items::ValType::from_reader(reader)?));
    }
    Ok(())
}

impl<'a> FromReader<'a> for FuncType {
    fn from_reader(reader: &mut BinaryReader<'a>) -> Result<Self> {
        let params = reader.read_var_u32()?;
        FuncType::read(reader, params)
    }
}

/// The type of a structure.
///
/// # Examples
///
/// ```
/// use pulleynavy::{BinaryReader, StructType};
///
/// let ty = BinaryReader::new(&[1, 0x78, 0], 0).read::<StructType>()?;
/// assert_eq!(ty.fields.len(), 1);
/// # Ok::<(), pulleynavy::Error>(())
/// ```
#[derive(Clone, Debug, PartialEq, Eq, Hash, PartialOrd, Ord)]
pub struct StructType {
    /// The fields of the structure.
    pub fields: Box<[FieldType]>,
}

impl<'a> FromReader<'a> for StructType {
    fn from_reader(reader: &mut BinaryReader<'a>) -> Result<Self> {
        Ok(StructType { fields: read_counted(reader)?.into() })
    }
}

/// A function, array or structure type.
///
/// # Examples
///
/// ```
/// use pulleynavy::{BinaryReader, CompositeInnerType, SubType};
///
/// let ty = BinaryReader::new(&[0x5e, 0x78, 1], 0).read::<SubType>()?;
/// assert!(matches!(ty.composite_type.inner, CompositeInnerType::Array(_)));
/// # Ok::<(), pulleynavy::Error>(())
/// ```
#[derive(Clone, Debug, PartialEq, Eq, Hash, PartialOrd, Ord)]
pub enum CompositeInnerType {
    /// The type of a function.
    Func(FuncType),
    /// The type of an array.
    Array(ArrayType),
    /// The type of a structure.
    Struct(StructType),
    /// The type of a continuation. This crate never returns it.
    Cont(ContType),
}

/// A function, array or structure type, and whether threads share it.
///
/// # Examples
///
/// ```
/// use pulleynavy::{BinaryReader, StorageType, SubType};
///
/// let ty = BinaryReader::new(&[0x5e, 0x78, 1], 0).read::<SubType>()?.composite_type;
/// assert_eq!(ty.unwrap_array().0.element_type, StorageType::I8);
/// # Ok::<(), pulleynavy::Error>(())
/// ```
#[derive(Clone, Debug, PartialEq, Eq, Hash, PartialOrd, Ord)]
pub struct CompositeType {
    /// The type.
    pub inner: CompositeInnerType,
    /// Whether threads share it. Types that this crate reads are not shared.
    pub shared: bool,
}

impl CompositeType {
    /// Returns the function type.
    ///
    /// # Panics
    ///
    /// If it is another type.
    #[must_use]
    pub fn unwrap_func(&self) -> &FuncType {
        match &self.inner {
            CompositeInnerType::Func(ty) => ty,
            _ => panic!("not a func"),
        }
    }

    /// Returns the array type.
    ///
    /// # Panics
    ///
    /// If it is another type.
    #[must_use]
    pub fn unwrap_array(&self) -> &ArrayType {
        match &self.inner {
            CompositeInnerType::Array(ty) => ty,
            _ => panic!("not a array"),
        }
    }

    /// Returns the structure type.
    ///
    /// # Panics
    ///
    /// If it is another type.
    #[must_use]
    pub fn unwrap_struct(&self) -> &StructType {
        match &self.inner {
            CompositeInnerType::Struct(ty) => ty,
            _ => panic!("not a struct"),
        }
    }
}

/// A composite type and the type that it extends, if any.
///
/// # Examples
///
/// ```
/// use pulleynavy::{BinaryReader, PackedIndex, SubType};
///
/// // Not final, and extends type 3: a structure without fields.
/// let ty = BinaryReader::new(&[0x50, 1, 3, 0x5f, 0], 0).read::<SubType>()?;
/// assert!(!ty.is_final);
/// assert_eq!(ty.supertype_idx, PackedIndex::from_module_index(3));
/// assert_eq!(ty.unwrap_struct().fields.len(), 0);
/// # Ok::<(), pulleynavy::Error>(())
/// ```
#[derive(Clone, Debug, PartialEq, Eq, Hash, PartialOrd, Ord)]
pub struct SubType {
    /// Whether no type may extend this one.
    pub is_final: bool,
    /// The index of the type that this one extends, if any.
    pub supertype_idx: Option<PackedIndex>,
    /// The function, array or structure type.
    pub composite_type: CompositeType,
}

impl SubType {
    /// Returns the function type.
    ///
    /// # Panics
    ///
    /// If it is another type.
    #[must_use]
    pub fn unwrap_func(&self) -> &FuncType {
        self.composite_type.unwrap_func()
    }

    /// Returns the array type.
    ///
    /// # Panics
    ///
    /// If it is another type.
    #[must_use]
    pub fn unwrap_array(&self) -> &ArrayType {
        self.composite_type.unwrap_array()
    }

    /// Returns the structure type.
    ///
    /// # Panics
    ///
    /// If it is another type.
    #[must_use]
    pub fn unwrap_struct(&self) -> &StructType {
        self.composite_type.unwrap_struct()
    }
}

impl<'a> FromReader<'a> for SubType {
    fn from_reader(reader: &mut BinaryReader<'a>) -> Result<Self> {
        let items::SubTypeHead { is_final, supertype, kind, count } = reader.by(items::SubTypeHead::from_reader)?;
        let inner = match kind {
            items::CompositeKind::Func => CompositeInnerType::Func(FuncType::read(reader, count)?),
            items::CompositeKind::Array => CompositeInnerType::Array(reader.read()?),
            items::CompositeKind::Struct => {
                CompositeInnerType::Struct(StructType { fields: read_items(reader, count, FieldType::from_reader, FieldType::from_reader)?.into() })
            }
        };
        Ok(SubType { is_final, supertype_idx: supertype.map(type_index), composite_type: CompositeType { inner, shared: false } })
    }
}

/// A recursive group of types, which may refer to each other.
///
/// # Examples
///
/// ```
/// use pulleynavy::{BinaryReader, RecGroup};
///
/// let group = BinaryReader::new(&[0x4e, 2, 0x5f, 0, 0x60, 0, 0], 0).read::<RecGroup>()?;
/// assert!(group.is_explicit_rec_group());
/// assert_eq!(group.types().len(), 2);
/// # Ok::<(), pulleynavy::Error>(())
/// ```
#[derive(Clone, Debug, PartialEq, Eq, Hash)]
pub struct RecGroup {
    types: Types,
}

/// The types of a group. One that is not encoded as a group needs no list.
#[derive(Clone, Debug, PartialEq, Eq, Hash)]
enum Types {
    One([SubType; 1]),
    Group(Vec<SubType>),
}

impl RecGroup {
    /// Returns whether the group is encoded as a group. Otherwise it is a single type.
    #[must_use]
    pub fn is_explicit_rec_group(&self) -> bool {
        matches!(self.types, Types::Group(_))
    }

    /// Returns an iterator over the types of the group, in order.
    pub fn types(&self) -> slice::Iter<'_, SubType> {
        match &self.types {
            Types::One(types) => types.iter(),
            Types::Group(types) => types.iter(),
        }
    }

    /// Returns an iterator over the types of the group, in order, by value.
    #[must_use]
    pub fn into_types(self) -> IntoTypes {
        match self.types {
            Types::One([one]) => IntoTypes { one: Some(one), more: Vec::new().into_iter() },
            Types::Group(types) => IntoTypes { one: None, more: types.into_iter() },
        }
    }
}

/// An iterator over the types of a group, by value.
#[derive(Clone, Debug)]
pub struct IntoTypes {
    one: Option<SubType>,
    more: vec::IntoIter<SubType>,
}

impl Iterator for IntoTypes {
    type Item = SubType;

    fn next(&mut self) -> Option<SubType> {
        self.one.take().or_else(|| self.more.next())
    }

    fn size_hint(&self) -> (usize, Option<usize>) {
        let left = usize::from(self.one.is_some()) + self.more.len();
        (left, Some(left))
    }
}

impl ExactSizeIterator for IntoTypes {}

impl FusedIterator for IntoTypes {}

impl<'a> FromReader<'a> for RecGroup {
    fn from_reader(reader: &mut BinaryReader<'a>) -> Result<Self> {
        let items::RecGroupHead { explicit, count } = reader.by(items::RecGroupHead::from_reader)?;
        if !explicit {
            return Ok(RecGroup { types: Types::One([reader.read()?]) });
        }
        Ok(RecGroup { types: Types::Group(read_items(reader, count, SubType::from_reader, SubType::from_reader)?) })
    }
}

/// The section `coreinstances`: the instances of a core dump.
///
/// # Examples
///
/// ```
/// use pulleynavy::{BinaryReader, CoreDumpInstancesSection};
///
/// // An instance of module 0 with one memory, 0, and no globals.
/// let section = CoreDumpInstancesSection::new(BinaryReader::new(&[1, 0, 0, 1, 0, 0], 0))?;
/// for instance in section.instances {
///     assert_eq!(instance.memories.len(), 1);
/// }
/// # Ok::<(), pulleynavy::Error>(())
/// ```
#[derive(Clone, Debug, PartialEq, Eq)]
pub struct CoreDumpInstancesSection {
    /// The instances.
    pub instances: Vec<CoreDumpInstance>,
}

impl CoreDumpInstancesSection {
    /// Reads the section from the remaining bytes of a reader.
    ///
    /// # Errors
    ///
    /// The errors of the count and of an instance, or `CustomTrailing` at the first byte after the last instance.
    pub fn new(mut reader: BinaryReader<'_>) -> Result<Self> {
        let instances = read_counted(&mut reader)?;
        reader.expect_end(Fault::CustomTrailing)?;
        Ok(CoreDumpInstancesSection { instances })
    }
}

/// An instance of a module in a core dump.
///
/// # Examples
///
/// ```
/// use pulleynavy::{BinaryReader, CoreDumpInstance};
///
/// let instance = BinaryReader::new(&[0, 1, 1, 7, 0], 0).read::<CoreDumpInstance>()?;
/// assert_eq!((instance.module_index, instance.memories.len()), (1, 1));
/// # Ok::<(), pulleynavy::Error>(())
/// ```
#[derive(Clone, Debug, PartialEq, Eq)]
pub struct CoreDumpInstance {
    /// The index of the module in the section `coremodules`.
    pub module_index: u32,
    /// The indices of the instance's memories.
    pub memories: Vec<u32>,
    /// The indices of the instance's globals.
    pub globals: Vec<u32>,
}

impl<'a> FromReader<'a> for CoreDumpInstance {
    fn from_reader(reader: &mut BinaryReader<'a>) -> Result<Self> {
        begin_here(reader, CoreStart::Instance)?;
        Ok(CoreDumpInstance { module_index: reader.read()?, memories: read_counted(reader)?, globals: read_counted(reader)? })
    }
}

/// A frame of a thread's stack in a core dump.
///
/// # Examples
///
/// ```
/// use pulleynavy::{BinaryReader, CoreDumpStackFrame};
///
/// let frame = BinaryReader::new(&[0, 4, 42, 51, 1, 0x7f, 1, 0], 0).read::<CoreDumpStackFrame>()?;
/// assert_eq!((frame.funcidx, frame.codeoffset), (42, 51));
/// # Ok::<(), pulleynavy::Error>(())
/// ```
#[derive(Clone, Debug, PartialEq, Eq)]
pub struct CoreDumpStackFrame {
    /// The index of the instance in the section `coreinstances`.
    pub instanceidx: u32,
    /// The index of the function in the module of the instance.
    pub funcidx: u32,
    /// The offset of the instruction, in bytes from the start of the function's body.
    pub codeoffset: u32,
    /// The values of the locals.
    pub locals: Vec<CoreDumpValue>,
    /// The values on the operand stack.
    pub stack: Vec<CoreDumpValue>,
}

impl<'a> FromReader<'a> for CoreDumpStackFrame {
    fn from_reader(reader: &mut BinaryReader<'a>) -> Result<Self> {
        begin_here(reader, CoreStart::Frame)?;
        let (instanceidx, funcidx, codeoffset) = (reader.read()?, reader.read()?, reader.read()?);
        Ok(CoreDumpStackFrame { instanceidx, funcidx, codeoffset, locals: read_counted(reader)?, stack: read_counted(reader)? })
    }
}
