//! Value types, reference types and heap types.
use crate::proved::base::FromReader as _;
use crate::proved::items;
use crate::{BinaryReader, FromReader, Result};
use core::fmt;

/// The type of a value: a number, a vector or a reference.
///
/// # Examples
///
/// ```
/// use pulleynavy::{BinaryReader, ValType};
///
/// let ty = BinaryReader::new(&[0x7e], 0).read::<ValType>()?;
/// assert_eq!(ty, ValType::I64);
/// assert_eq!(ty.to_string(), "i64");
/// # Ok::<(), pulleynavy::Error>(())
/// ```
#[derive(Clone, Copy, Debug, PartialEq, Eq, Hash, PartialOrd, Ord)]
pub enum ValType {
    /// A 32-bit integer.
    I32,
    /// A 64-bit integer.
    I64,
    /// A 32-bit float.
    F32,
    /// A 64-bit float.
    F64,
    /// A 128-bit vector.
    V128,
    /// A reference.
    Ref(RefType),
}

impl ValType {
    /// A nullable reference to a function.
    pub const FUNCREF: ValType = ValType::Ref(RefType::FUNCREF);
    /// A nullable reference to a value of the host.
    pub const EXTERNREF: ValType = ValType::Ref(RefType::EXTERNREF);
    /// A nullable reference to an exception.
    pub const EXNREF: ValType = ValType::Ref(RefType::EXNREF);

    /// Returns whether the type is a reference.
    #[must_use]
    pub fn is_reference_type(&self) -> bool {
        matches!(self, ValType::Ref(_))
    }

    /// Returns whether the type is a vector.
    #[must_use]
    pub fn is_vector_type(&self) -> bool {
        matches!(self, ValType::V128)
    }

    /// Returns whether the type has a default value. All types have one, except references that are not nullable.
    #[must_use]
    pub fn is_defaultable(&self) -> bool {
        self.as_reference_type().is_none_or(|ty| ty.is_nullable())
    }

    /// Returns the reference type, if the type is a reference.
    #[must_use]
    pub fn as_reference_type(&self) -> Option<RefType> {
        match self {
            ValType::Ref(ty) => Some(*ty),
            _ => None,
        }
    }
}

impl From<RefType> for ValType {
    fn from(ty: RefType) -> Self {
        ValType::Ref(ty)
    }
}

impl fmt::Display for ValType {
    fn fmt(&self, f: &mut fmt::Formatter<'_>) -> fmt::Result {
        match self {
            ValType::I32 => f.write_str("i32"),
            ValType::I64 => f.write_str("i64"),
            ValType::F32 => f.write_str("f32"),
            ValType::F64 => f.write_str("f64"),
            ValType::V128 => f.write_str("v128"),
            ValType::Ref(ty) => ty.fmt(f),
        }
    }
}

/// The type of a reference.
///
/// # Examples
///
/// ```
/// use pulleynavy::{BinaryReader, PackedIndex, RefType};
///
/// // A reference to type 5 that is never null.
/// let ty = BinaryReader::new(&[0x64, 5], 0).read::<RefType>()?;
/// assert!(!ty.is_nullable());
/// assert_eq!(ty.type_index(), PackedIndex::from_module_index(5));
/// assert_eq!(RefType::FUNCREF.to_string(), "funcref");
/// # Ok::<(), pulleynavy::Error>(())
/// ```
#[derive(Clone, Copy, Debug, PartialEq, Eq, Hash, PartialOrd, Ord)]
pub struct RefType {
    nullable: bool,
    heap: HeapType,
}

/// The abstract heap types. Of each: the constants of its nullable reference and of the other one, its name, and the short form of the nullable
/// reference.
macro_rules! abstract_types {
    ($($(#[$doc:meta])* $name:ident $constant:ident $nullable:ident $other:ident $text:literal $short:literal,)*) => {
        /// A heap type that is not defined in a module.
        #[derive(Clone, Copy, Debug, PartialEq, Eq, Hash, PartialOrd, Ord)]
        pub enum AbstractHeapType {
            $($(#[$doc])* $name,)*
        }

        impl HeapType {
            $(
                $(#[$doc])*
                pub const $constant: HeapType = HeapType::Abstract { shared: false, ty: AbstractHeapType::$name };
            )*
        }

        impl RefType {
            $(
                #[doc = concat!("The nullable reference `", $short, "`.")]
                pub const $nullable: RefType = RefType { nullable: true, heap: HeapType::$constant };
                #[doc = concat!("The reference `(ref ", $text, ")`.")]
                pub const $other: RefType = RefType { nullable: false, heap: HeapType::$constant };
            )*

            /// The short form of a nullable reference to an abstract type that is not shared.
            fn short(&self) -> Option<&'static str> {
                match (self.nullable, self.heap) {
                    $((true, HeapType::$constant) => Some($short),)*
                    _ => None,
                }
            }
        }

        impl fmt::Display for AbstractHeapType {
            fn fmt(&self, f: &mut fmt::Formatter<'_>) -> fmt::Result {
                f.write_str(match self {
                    $(AbstractHeapType::$name => $text,)*
                })
            }
        }
    };
}

abstract_types! {
    /// Any function.
    Func FUNC FUNCREF FUNC "func" "funcref",
    /// Any value of the host.
    Extern EXTERN EXTERNREF EXTERN "extern" "externref",
    /// Any value of the module.
    Any ANY ANYREF ANY "any" "anyref",
    /// No value: the bottom type below `Any`.
    None NONE NULLREF NONE "none" "nullref",
    /// No value: the bottom type below `Extern`.
    NoExtern NOEXTERN NULLEXTERNREF NOEXTERN "noextern" "nullexternref",
    /// No value: the bottom type below `Func`.
    NoFunc NOFUNC NULLFUNCREF NOFUNC "nofunc" "nullfuncref",
    /// Any value that can be compared.
    Eq EQ EQREF EQ "eq" "eqref",
    /// Any structure.
    Struct STRUCT STRUCTREF STRUCT "struct" "structref",
    /// Any array.
    Array ARRAY ARRAYREF ARRAY "array" "arrayref",
    /// An integer of 31 bits.
    I31 I31 I31REF I31 "i31" "i31ref",
    /// An exception.
    Exn EXN EXNREF EXN "exn" "exnref",
    /// No value: the bottom type below `Exn`.
    NoExn NOEXN NULLEXNREF NOEXN "noexn" "nullexnref",
    /// A continuation. This crate never returns it.
    Cont CONT CONTREF CONT "cont" "contref",
    /// No value: the bottom type below `Cont`. This crate never returns it.
    NoCont NOCONT NULLCONTREF NOCONT "nocont" "nullcontref",
}

impl RefType {
    /// Returns a reference to a heap type. The result is never `None`.
    #[must_use]
    pub fn new(nullable: bool, heap: HeapType) -> Option<Self> {
        Some(RefType { nullable, heap })
    }

    /// Returns a reference to the type with this index.
    #[must_use]
    pub const fn concrete(nullable: bool, index: PackedIndex) -> Self {
        RefType { nullable, heap: HeapType::Concrete(index.unpack()) }
    }

    /// Whether the reference may be null.
    #[must_use]
    pub const fn is_nullable(&self) -> bool {
        self.nullable
    }

    /// Returns the same reference, nullable.
    #[must_use]
    pub const fn nullable(&self) -> Self {
        RefType { nullable: true, heap: self.heap }
    }

    /// Returns the same reference, not nullable.
    #[must_use]
    pub const fn as_non_null(&self) -> Self {
        RefType { nullable: false, heap: self.heap }
    }

    /// Returns the type of what the reference refers to.
    #[must_use]
    pub const fn heap_type(&self) -> HeapType {
        self.heap
    }

    /// Returns the index of the type that the reference refers to, if the module defines the type.
    #[must_use]
    pub fn type_index(&self) -> Option<PackedIndex> {
        match self.heap {
            HeapType::Concrete(index) | HeapType::Exact(index) => index.pack(),
            HeapType::Abstract { .. } => None,
        }
    }

    /// Returns whether the module defines the type that the reference refers to.
    #[must_use]
    pub const fn is_concrete_type_ref(&self) -> bool {
        matches!(self.heap, HeapType::Concrete(_) | HeapType::Exact(_))
    }

    /// Returns whether the reference refers to any function.
    #[must_use]
    pub const fn is_func_ref(&self) -> bool {
        matches!(self.heap, HeapType::FUNC)
    }

    /// Returns whether the reference refers to any value of the host.
    #[must_use]
    pub const fn is_extern_ref(&self) -> bool {
        matches!(self.heap, HeapType::EXTERN)
    }
}

impl fmt::Display for RefType {
    fn fmt(&self, f: &mut fmt::Formatter<'_>) -> fmt::Result {
        match (self.short(), self.nullable) {
            (Some(short), _) => f.write_str(short),
            (None, true) => write!(f, "(ref null {})", self.heap),
            (None, false) => write!(f, "(ref {})", self.heap),
        }
    }
}

/// The type of what a reference refers to.
///
/// # Examples
///
/// ```
/// use pulleynavy::{BinaryReader, HeapType, UnpackedIndex};
///
/// let mut reader = BinaryReader::new(&[0x6f, 5], 0);
/// assert_eq!(reader.read::<HeapType>()?, HeapType::EXTERN);
/// assert_eq!(reader.read::<HeapType>()?, HeapType::Concrete(UnpackedIndex::Module(5)));
/// # Ok::<(), pulleynavy::Error>(())
/// ```
#[derive(Clone, Copy, Debug, PartialEq, Eq, Hash, PartialOrd, Ord)]
pub enum HeapType {
    /// An abstract type, which no module defines.
    Abstract {
        /// Whether threads share it. Types that this crate reads are not shared.
        shared: bool,
        /// The abstract type.
        ty: AbstractHeapType,
    },
    /// The type with this index.
    Concrete(UnpackedIndex),
    /// Exactly the type with this index. This crate never returns it.
    Exact(UnpackedIndex),
}

impl fmt::Display for HeapType {
    fn fmt(&self, f: &mut fmt::Formatter<'_>) -> fmt::Result {
        match self {
            HeapType::Abstract { shared: false, ty } => ty.fmt(f),
            HeapType::Abstract { shared: true, ty } => write!(f, "(shared {ty})"),
            HeapType::Concrete(index) => index.fmt(f),
            HeapType::Exact(index) => write!(f, "(exact {index})"),
        }
    }
}

/// The index of a type, in the module or in a recursion group.
///
/// # Examples
///
/// ```
/// use pulleynavy::{PackedIndex, UnpackedIndex};
///
/// let index = UnpackedIndex::Module(5);
/// assert_eq!(index.as_module_index(), Some(5));
/// assert_eq!(index.pack(), PackedIndex::from_module_index(5));
/// ```
#[derive(Clone, Copy, Debug, PartialEq, Eq, Hash, PartialOrd, Ord)]
pub enum UnpackedIndex {
    /// An index in the type index space of the module.
    Module(u32),
    /// An index in the recursion group. This crate never returns it.
    RecGroup(u32),
}

impl UnpackedIndex {
    /// Returns the packed form of an index in the module, otherwise `None`.
    #[must_use]
    pub const fn pack(&self) -> Option<PackedIndex> {
        match self {
            UnpackedIndex::Module(index) => Some(PackedIndex(*index)),
            UnpackedIndex::RecGroup(_) => None,
        }
    }

    /// Returns the index in the module, if it is one.
    #[must_use]
    pub const fn as_module_index(&self) -> Option<u32> {
        match self {
            UnpackedIndex::Module(index) => Some(*index),
            UnpackedIndex::RecGroup(_) => None,
        }
    }

    /// Returns the index in the recursion group, if it is one.
    #[must_use]
    pub const fn as_rec_group_index(&self) -> Option<u32> {
        match self {
            UnpackedIndex::Module(_) => None,
            UnpackedIndex::RecGroup(index) => Some(*index),
        }
    }
}

impl fmt::Display for UnpackedIndex {
    fn fmt(&self, f: &mut fmt::Formatter<'_>) -> fmt::Result {
        match self {
            UnpackedIndex::Module(index) => write!(f, "(module {index})"),
            UnpackedIndex::RecGroup(index) => write!(f, "(recgroup {index})"),
        }
    }
}

/// The index of a type in the type index space of the module.
///
/// # Examples
///
/// ```
/// use pulleynavy::PackedIndex;
///
/// let index = PackedIndex::from_module_index(5).unwrap();
/// assert_eq!(index.as_module_index(), Some(5));
/// ```
#[derive(Clone, Copy, Debug, PartialEq, Eq, Hash, PartialOrd, Ord)]
pub struct PackedIndex(u32);

impl PackedIndex {
    /// Returns an index in the module. The result is never `None`.
    #[must_use]
    pub const fn from_module_index(index: u32) -> Option<Self> {
        Some(PackedIndex(index))
    }

    /// Returns the unpacked form of the index.
    #[must_use]
    pub const fn unpack(&self) -> UnpackedIndex {
        UnpackedIndex::Module(self.0)
    }

    /// Returns the index in the module. The result is never `None`.
    #[must_use]
    pub const fn as_module_index(&self) -> Option<u32> {
        Some(self.0)
    }
}

impl fmt::Display for PackedIndex {
    fn fmt(&self, f: &mut fmt::Formatter<'_>) -> fmt::Result {
        self.unpack().fmt(f)
    }
}

/// The type of the values that a field stores.
///
/// # Examples
///
/// ```
/// use pulleynavy::{BinaryReader, StorageType, ValType};
///
/// let ty = BinaryReader::new(&[0x78], 0).read::<StorageType>()?;
/// assert_eq!(ty, StorageType::I8);
/// assert_eq!(ty.unpack(), ValType::I32);
/// # Ok::<(), pulleynavy::Error>(())
/// ```
#[derive(Clone, Copy, Debug, PartialEq, Eq, Hash, PartialOrd, Ord)]
pub enum StorageType {
    /// A packed 8-bit integer.
    I8,
    /// A packed 16-bit integer.
    I16,
    /// A value of this type, not packed.
    Val(ValType),
}

impl StorageType {
    /// Returns the type of the value that reading the field yields: `i32` for packed integers.
    #[must_use]
    pub fn unpack(&self) -> ValType {
        match self {
            StorageType::I8 | StorageType::I16 => ValType::I32,
            StorageType::Val(ty) => *ty,
        }
    }
}

impl fmt::Display for StorageType {
    fn fmt(&self, f: &mut fmt::Formatter<'_>) -> fmt::Result {
        match self {
            StorageType::I8 => f.write_str("i8"),
            StorageType::I16 => f.write_str("i16"),
            StorageType::Val(ty) => ty.fmt(f),
        }
    }
}

/// A field of a structure, or the element of an array.
///
/// # Examples
///
/// ```
/// use pulleynavy::{BinaryReader, FieldType, StorageType, ValType};
///
/// let field = BinaryReader::new(&[0x7f, 1], 0).read::<FieldType>()?;
/// assert_eq!(field, FieldType { element_type: StorageType::Val(ValType::I32), mutable: true });
/// # Ok::<(), pulleynavy::Error>(())
/// ```
#[derive(Clone, Copy, Debug, PartialEq, Eq, Hash, PartialOrd, Ord)]
pub struct FieldType {
    /// The type of the stored values.
    pub element_type: StorageType,
    /// Whether the field is mutable.
    pub mutable: bool,
}

/// The type of an array.
///
/// # Examples
///
/// ```
/// use pulleynavy::{ArrayType, BinaryReader, StorageType};
///
/// let ty = BinaryReader::new(&[0x78, 1], 0).read::<ArrayType>()?;
/// assert_eq!(ty.0.element_type, StorageType::I8);
/// # Ok::<(), pulleynavy::Error>(())
/// ```
#[derive(Clone, Copy, Debug, PartialEq, Eq, Hash, PartialOrd, Ord)]
pub struct ArrayType(
    /// The type of its elements.
    pub FieldType,
);

/// The type of a continuation. This crate never returns it.
#[derive(Clone, Copy, Debug, PartialEq, Eq, Hash, PartialOrd, Ord)]
pub struct ContType(
    /// The index of its function type.
    pub PackedIndex,
);

pub(crate) fn type_index(index: u32) -> PackedIndex {
    PackedIndex(index)
}

impl HeapType {
    /// The heap type that the proved sources have.
    #[inline(always)]
    pub(crate) fn of(ty: items::HeapType) -> Self {
        match ty {
            items::HeapType::Func => HeapType::FUNC,
            items::HeapType::Extern => HeapType::EXTERN,
            items::HeapType::Any => HeapType::ANY,
            items::HeapType::Eq => HeapType::EQ,
            items::HeapType::Struct => HeapType::STRUCT,
            items::HeapType::Array => HeapType::ARRAY,
            items::HeapType::I31 => HeapType::I31,
            items::HeapType::Exn => HeapType::EXN,
            items::HeapType::NoExn => HeapType::NOEXN,
            items::HeapType::None => HeapType::NONE,
            items::HeapType::NoExtern => HeapType::NOEXTERN,
            items::HeapType::NoFunc => HeapType::NOFUNC,
            items::HeapType::Concrete(index) => HeapType::Concrete(UnpackedIndex::Module(index)),
        }
    }
}

impl RefType {
    /// The reference type that the proved sources have.
    #[inline(always)]
    pub(crate) fn of(ty: items::RefType) -> Self {
        RefType { nullable: ty.nullable, heap: HeapType::of(ty.heap) }
    }
}

impl ValType {
    /// The type that the proved sources have.
    #[inline(always)]
    pub(crate) fn of(ty: items::ValType) -> Self {
        match ty {
            items::ValType::I32 => ValType::I32,
            items::ValType::I64 => ValType::I64,
            items::ValType::F32 => ValType::F32,
            items::ValType::F64 => ValType::F64,
            items::ValType::V128 => ValType::V128,
            items::ValType::Ref(ty) => ValType::Ref(RefType::of(ty)),
        }
    }
}

impl<'a> FromReader<'a> for ValType {
    #[inline]
    fn from_reader(reader: &mut BinaryReader<'a>) -> Result<Self> {
        reader.by(items::ValType::from_reader).map(ValType::of)
    }
}

impl<'a> FromReader<'a> for RefType {
    fn from_reader(reader: &mut BinaryReader<'a>) -> Result<Self> {
        reader.by(items::RefType::from_reader).map(RefType::of)
    }
}

impl<'a> FromReader<'a> for HeapType {
    fn from_reader(reader: &mut BinaryReader<'a>) -> Result<Self> {
        reader.by(items::HeapType::from_reader).map(HeapType::of)
    }
}

impl StorageType {
    /// The type that the proved sources have.
    fn of(ty: items::StorageType) -> Self {
        match ty {
            items::StorageType::I8 => StorageType::I8,
            items::StorageType::I16 => StorageType::I16,
            items::StorageType::Val(ty) => StorageType::Val(ValType::of(ty)),
        }
    }
}

impl<'a> FromReader<'a> for StorageType {
    fn from_reader(reader: &mut BinaryReader<'a>) -> Result<Self> {
        reader.by(items::StorageType::from_reader).map(StorageType::of)
    }
}

impl<'a> FromReader<'a> for FieldType {
    fn from_reader(reader: &mut BinaryReader<'a>) -> Result<Self> {
        let items::FieldType { storage, mutable } = reader.by(items::FieldType::from_reader)?;
        Ok(FieldType { element_type: StorageType::of(storage), mutable })
    }
}

impl<'a> FromReader<'a> for ArrayType {
    fn from_reader(reader: &mut BinaryReader<'a>) -> Result<Self> {
        reader.read().map(ArrayType)
    }
}
