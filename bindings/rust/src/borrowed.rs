//! Items whose lists borrow from the input, for builds without the feature `alloc`.
use crate::cores::begin_here;
use crate::error::Result;
use crate::proved::base::FromReader as _;
use crate::proved::items;
use crate::types::type_index;
use crate::{ArrayType, BinaryReader, ContType, CoreDumpValue, CoreStart, Fault, FieldType, FromReader, List, PackedIndex, SectionLimited, ValType};

/// A list inside an item that borrows from the input anyway.
pub(crate) type Items<'a, T> = List<'a, T>;
/// The groups of a type section.
pub(crate) type RecGroups<'a> = SectionLimited<'a, RecGroup<'a>>;
/// The type of a function.
pub(crate) type Func<'a> = FuncType<'a>;
/// The section `coreinstances`.
pub(crate) type Instances<'a> = CoreDumpInstancesSection<'a>;
/// A frame of a core dump.
pub(crate) type Frame<'a> = CoreDumpStackFrame<'a>;

/// Reads this many items. `check` reads each item first, and its errors are returned; `read` reads it again on use.
pub(crate) fn read_items<'a, T>(
    reader: &mut BinaryReader<'a>,
    count: u32,
    check: impl Fn(&mut BinaryReader<'a>) -> Result<T>,
    read: fn(&mut BinaryReader<'a>) -> Result<T>,
) -> Result<List<'a, T>> {
    List::checked(reader, count, check, read)
}

/// Reads a count and this many items.
pub(crate) fn read_list<'a, T>(reader: &mut BinaryReader<'a>, read: fn(&mut BinaryReader<'a>) -> Result<T>) -> Result<List<'a, T>> {
    List::counted(reader, read)
}

/// The type of a function.
///
/// # Examples
///
/// ```
/// use pulleynavy::{BinaryReader, FuncType, ValType};
///
/// let ty = BinaryReader::new(&[1, 0x7f, 1, 0x7e], 0).read::<FuncType>()?;
/// assert!(ty.params().eq([ValType::I32]));
/// assert!(ty.results().eq([ValType::I64]));
/// # Ok::<(), pulleynavy::Error>(())
/// ```
#[derive(Clone, Debug)]
pub struct FuncType<'a> {
    params: List<'a, ValType>,
    results: List<'a, ValType>,
}

impl<'a> FuncType<'a> {
    /// Returns the types of the parameters.
    #[must_use]
    pub fn params(&self) -> List<'a, ValType> {
        self.params.clone()
    }

    /// Returns the types of the results.
    #[must_use]
    pub fn results(&self) -> List<'a, ValType> {
        self.results.clone()
    }

    /// Reads the parameters, of which there are this many, and then the results.
    fn read(reader: &mut BinaryReader<'a>, params: u32) -> Result<Self> {
        Ok(FuncType { params: List::pass(reader, params, ValType::from_reader)?, results: reader.read()? })
    }
}

impl<'a> FromReader<'a> for FuncType<'a> {
    fn from_reader(reader: &mut BinaryReader<'a>) -> Result<Self> {
        let params = reader.read_var_u32()?;
        FuncType::read(reader, params)
    }
}

/// The type of a structure.
///
/// # Examples
///
/// ```
/// use pulleynavy::{BinaryReader, StructType};
///
/// let ty = BinaryReader::new(&[1, 0x78, 0], 0).read::<StructType>()?;
/// assert_eq!(ty.fields.len(), 1);
/// # Ok::<(), pulleynavy::Error>(())
/// ```
#[derive(Clone, Debug)]
pub struct StructType<'a> {
    /// The fields of the structure.
    pub fields: List<'a, FieldType>,
}

impl<'a> FromReader<'a> for StructType<'a> {
    fn from_reader(reader: &mut BinaryReader<'a>) -> Result<Self> {
        Ok(StructType { fields: reader.read()? })
    }
}

/// A function, array or structure type.
///
/// # Examples
///
/// ```
/// use pulleynavy::{BinaryReader, CompositeInnerType, SubType};
///
/// let ty = BinaryReader::new(&[0x5e, 0x78, 1], 0).read::<SubType>()?;
/// assert!(matches!(ty.composite_type.inner, CompositeInnerType::Array(_)));
/// # Ok::<(), pulleynavy::Error>(())
/// ```
#[derive(Clone, Debug)]
pub enum CompositeInnerType<'a> {
    /// The type of a function.
    Func(FuncType<'a>),
    /// The type of an array.
    Array(ArrayType),
    /// The type of a structure.
    Struct(StructType<'a>),
    /// The type of a continuation. This crate never returns it.
    Cont(ContType),
}

/// A function, array or structure type, and whether threads share it.
///
/// # Examples
///
/// ```
/// use pulleynavy::{BinaryReader, StorageType, SubType};
///
/// let ty = BinaryReader::new(&[0x5e, 0x78, 1], 0).read::<SubType>()?.composite_type;
/// assert_eq!(ty.unwrap_array().0.element_type, StorageType::I8);
/// # Ok::<(), pulleynavy::Error>(())
/// ```
#[derive(Clone, Debug)]
pub struct CompositeType<'a> {
    /// The type.
    pub inner: CompositeInnerType<'a>,
    /// Whether threads share it. Types that this crate reads are not shared.
    pub shared: bool,
}

impl<'a> CompositeType<'a> {
    /// Returns the function type.
    ///
    /// # Panics
    ///
    /// If it is another type.
    #[must_use]
    pub fn unwrap_func(&self) -> &FuncType<'a> {
        match &self.inner {
            CompositeInnerType::Func(ty) => ty,
            _ => panic!("not a func"),
        }
    }

    /// Returns the array type.
    ///
    /// # Panics
    ///
    /// If it is another type.
    #[must_use]
    pub fn unwrap_array(&self) -> &ArrayType {
        match &self.inner {
            CompositeInnerType::Array(ty) => ty,
            _ => panic!("not a array"),
        }
    }

    /// Returns the structure type.
    ///
    /// # Panics
    ///
    /// If it is another type.
    #[must_use]
    pub fn unwrap_struct(&self) -> &StructType<'a> {
        match &self.inner {
            CompositeInnerType::Struct(ty) => ty,
            _ => panic!("not a struct"),
        }
    }
}

/// A composite type and the type that it extends, if any.
///
/// # Examples
///
/// ```
/// use pulleynavy::{BinaryReader, PackedIndex, SubType};
///
/// // Not final, and extends type 3: a structure without fields.
/// let ty = BinaryReader::new(&[0x50, 1, 3, 0x5f, 0], 0).read::<SubType>()?;
/// assert!(!ty.is_final);
/// assert_eq!(ty.supertype_idx, PackedIndex::from_module_index(3));
/// assert_eq!(ty.unwrap_struct().fields.len(), 0);
/// # Ok::<(), pulleynavy::Error>(())
/// ```
#[derive(Clone, Debug)]
pub struct SubType<'a> {
    /// Whether no type may extend this one.
    pub is_final: bool,
    /// The index of the type that this one extends, if any.
    pub supertype_idx: Option<PackedIndex>,
    /// The function, array or structure type.
    pub composite_type: CompositeType<'a>,
}

impl<'a> SubType<'a> {
    /// Returns the function type.
    ///
    /// # Panics
    ///
    /// If it is another type.
    #[must_use]
    pub fn unwrap_func(&self) -> &FuncType<'a> {
        self.composite_type.unwrap_func()
    }

    /// Returns the array type.
    ///
    /// # Panics
    ///
    /// If it is another type.
    #[must_use]
    pub fn unwrap_array(&self) -> &ArrayType {
        self.composite_type.unwrap_array()
    }

    /// Returns the structure type.
    ///
    /// # Panics
    ///
    /// If it is another type.
    #[must_use]
    pub fn unwrap_struct(&self) -> &StructType<'a> {
        self.composite_type.unwrap_struct()
    }
}

impl<'a> FromReader<'a> for SubType<'a> {
    fn from_reader(reader: &mut BinaryReader<'a>) -> Result<Self> {
        let items::SubTypeHead { is_final, supertype, kind, count } = reader.by(items::SubTypeHead::from_reader)?;
        let inner = match kind {
            items::CompositeKind::Func => CompositeInnerType::Func(FuncType::read(reader, count)?),
            items::CompositeKind::Array => CompositeInnerType::Array(reader.read()?),
            items::CompositeKind::Struct => {
                CompositeInnerType::Struct(StructType { fields: read_items(reader, count, FieldType::from_reader, FieldType::from_reader)? })
            }
        };
        Ok(SubType { is_final, supertype_idx: supertype.map(type_index), composite_type: CompositeType { inner, shared: false } })
    }
}

/// A recursive group of types, which may refer to each other.
///
/// # Examples
///
/// ```
/// use pulleynavy::{BinaryReader, RecGroup};
///
/// let group = BinaryReader::new(&[0x4e, 2, 0x5f, 0, 0x60, 0, 0], 0).read::<RecGroup>()?;
/// assert!(group.is_explicit_rec_group());
/// assert_eq!(group.types().len(), 2);
/// # Ok::<(), pulleynavy::Error>(())
/// ```
#[derive(Clone, Debug)]
pub struct RecGroup<'a> {
    explicit: bool,
    types: List<'a, SubType<'a>>,
}

impl<'a> RecGroup<'a> {
    /// Returns whether the group is encoded as a group. Otherwise it is a single type.
    #[must_use]
    pub fn is_explicit_rec_group(&self) -> bool {
        self.explicit
    }

    /// Returns an iterator over the types of the group, in order.
    #[must_use]
    pub fn types(&self) -> List<'a, SubType<'a>> {
        self.types.clone()
    }

    /// Returns an iterator over the types of the group, in order, by value.
    #[must_use]
    pub fn into_types(self) -> List<'a, SubType<'a>> {
        self.types
    }
}

impl<'a> FromReader<'a> for RecGroup<'a> {
    fn from_reader(reader: &mut BinaryReader<'a>) -> Result<Self> {
        let items::RecGroupHead { explicit, count } = reader.by(items::RecGroupHead::from_reader)?;
        Ok(RecGroup { explicit, types: read_items(reader, count, SubType::from_reader, SubType::from_reader)? })
    }
}

/// The section `coreinstances`: the instances of a core dump.
///
/// # Examples
///
/// ```
/// use pulleynavy::{BinaryReader, CoreDumpInstancesSection};
///
/// // An instance of module 0 with one memory, 0, and no globals.
/// let section = CoreDumpInstancesSection::new(BinaryReader::new(&[1, 0, 0, 1, 0, 0], 0))?;
/// for instance in section.instances {
///     assert_eq!(instance.memories.len(), 1);
/// }
/// # Ok::<(), pulleynavy::Error>(())
/// ```
#[derive(Clone, Debug)]
pub struct CoreDumpInstancesSection<'a> {
    /// The instances.
    pub instances: List<'a, CoreDumpInstance<'a>>,
}

impl<'a> CoreDumpInstancesSection<'a> {
    /// Reads the section from the remaining bytes of a reader.
    ///
    /// # Errors
    ///
    /// The errors of the count and of an instance, or `CustomTrailing` at the first byte after the last instance.
    pub fn new(mut reader: BinaryReader<'a>) -> Result<Self> {
        let instances = reader.read()?;
        reader.expect_end(Fault::CustomTrailing)?;
        Ok(CoreDumpInstancesSection { instances })
    }
}

/// An instance of a module in a core dump.
///
/// # Examples
///
/// ```
/// use pulleynavy::{BinaryReader, CoreDumpInstance};
///
/// let instance = BinaryReader::new(&[0, 1, 1, 7, 0], 0).read::<CoreDumpInstance>()?;
/// assert_eq!((instance.module_index, instance.memories.len()), (1, 1));
/// # Ok::<(), pulleynavy::Error>(())
/// ```
#[derive(Clone, Debug)]
pub struct CoreDumpInstance<'a> {
    /// The index of the module in the section `coremodules`.
    pub module_index: u32,
    /// The indices of the instance's memories.
    pub memories: List<'a, u32>,
    /// The indices of the instance's globals.
    pub globals: List<'a, u32>,
}

impl<'a> FromReader<'a> for CoreDumpInstance<'a> {
    fn from_reader(reader: &mut BinaryReader<'a>) -> Result<Self> {
        begin_here(reader, CoreStart::Instance)?;
        Ok(CoreDumpInstance { module_index: reader.read()?, memories: reader.read()?, globals: reader.read()? })
    }
}

/// A frame of a thread's stack in a core dump.
///
/// # Examples
///
/// ```
/// use pulleynavy::{BinaryReader, CoreDumpStackFrame};
///
/// let frame = BinaryReader::new(&[0, 4, 42, 51, 1, 0x7f, 1, 0], 0).read::<CoreDumpStackFrame>()?;
/// assert_eq!((frame.funcidx, frame.codeoffset), (42, 51));
/// # Ok::<(), pulleynavy::Error>(())
/// ```
#[derive(Clone, Debug)]
pub struct CoreDumpStackFrame<'a> {
    /// The index of the instance in the section `coreinstances`.
    pub instanceidx: u32,
    /// The index of the function in the module of the instance.
    pub funcidx: u32,
    /// The offset of the instruction, in bytes from the start of the function's body.
    pub codeoffset: u32,
    /// The values of the locals.
    pub locals: List<'a, CoreDumpValue>,
    /// The values on the operand stack.
    pub stack: List<'a, CoreDumpValue>,
}

impl<'a> FromReader<'a> for CoreDumpStackFrame<'a> {
    fn from_reader(reader: &mut BinaryReader<'a>) -> Result<Self> {
        begin_here(reader, CoreStart::Frame)?;
        let (instanceidx, funcidx, codeoffset) = (reader.read()?, reader.read()?, reader.read()?);
        Ok(CoreDumpStackFrame { instanceidx, funcidx, codeoffset, locals: reader.read()?, stack: reader.read()? })
    }
}
