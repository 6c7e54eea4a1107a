//! Tables, globals, exports and segments.
use crate::proved::base::FromReader as _;
use crate::proved::items;
use crate::section::Window;
use crate::{BinaryReader, FromReader, GlobalType, OperatorsReader, RefType, Result, SectionLimited, TableType};
use core::ops::Range;

/// A constant expression: its instructions, including the final `end`.
///
/// # Examples
///
/// ```
/// use pulleynavy::{BinaryReader, ConstExpr, Operator};
///
/// let expression = BinaryReader::new(&[0x41, 5, 0x0b], 0).read::<ConstExpr>()?;
/// let mut operators = expression.get_operators_reader();
/// assert_eq!(operators.read()?, Operator::I32Const { value: 5 });
/// assert!(operators.is_end_then_eof());
/// # Ok::<(), pulleynavy::Error>(())
/// ```
#[derive(Clone, Copy, Debug)]
pub struct ConstExpr<'a> {
    window: Window<'a>,
}

impl<'a> ConstExpr<'a> {
    /// The expression that the proved sources have.
    #[inline(always)]
    pub(crate) fn of(expression: &items::ConstExpr<'a>) -> Self {
        ConstExpr { window: Window::of(&expression.get_binary_reader()) }
    }

    /// Takes the remaining bytes of a reader as an expression, without reading or checking them.
    #[must_use]
    pub fn new(reader: BinaryReader<'a>) -> Self {
        ConstExpr { window: reader.rest }
    }

    /// Returns a reader over the bytes of the expression.
    #[must_use]
    pub fn get_binary_reader(&self) -> BinaryReader<'a> {
        BinaryReader::of(self.window)
    }

    /// Returns a reader over the instructions.
    #[must_use]
    pub fn get_operators_reader(&self) -> OperatorsReader<'a> {
        OperatorsReader::new(self.get_binary_reader())
    }

    /// Returns the offsets of the expression, in bytes from the start of the stream.
    #[must_use]
    pub fn range(&self) -> Range<u64> {
        self.window.range()
    }

    /// Returns the bytes of the expression.
    #[must_use]
    pub fn as_bytes(&self) -> &'a [u8] {
        self.window.bytes
    }
}

impl<'a> FromReader<'a> for ConstExpr<'a> {
    fn from_reader(reader: &mut BinaryReader<'a>) -> Result<Self> {
        reader.by(items::ConstExpr::from_reader).map(|expression| ConstExpr::of(&expression))
    }
}

/// A table.
///
/// # Examples
///
/// ```
/// use pulleynavy::{BinaryReader, Table, TableInit};
///
/// let table = BinaryReader::new(&[0x70, 0x00, 10], 0).read::<Table>()?;
/// assert_eq!(table.ty.initial, 10);
/// assert!(matches!(table.init, TableInit::RefNull));
/// # Ok::<(), pulleynavy::Error>(())
/// ```
#[derive(Clone, Debug)]
pub struct Table<'a> {
    /// The type of the table.
    pub ty: TableType,
    /// The initial value of the elements.
    pub init: TableInit<'a>,
}

/// The initial value of the elements of a table.
///
/// # Examples
///
/// ```
/// use pulleynavy::{BinaryReader, Table, TableInit};
///
/// // A table of one function reference, which is initialized with function 3.
/// let table = BinaryReader::new(&[0x40, 0, 0x70, 0, 1, 0xd2, 3, 0x0b], 0).read::<Table>()?;
/// match table.init {
///     TableInit::RefNull => unreachable!(),
///     TableInit::Expr(expression) => assert_eq!(expression.as_bytes(), [0xd2, 3, 0x0b]),
/// }
/// # Ok::<(), pulleynavy::Error>(())
/// ```
#[derive(Clone, Debug)]
pub enum TableInit<'a> {
    /// A null reference: the table is encoded without an expression.
    RefNull,
    /// The value of this constant expression.
    Expr(ConstExpr<'a>),
}

impl<'a> FromReader<'a> for Table<'a> {
    fn from_reader(reader: &mut BinaryReader<'a>) -> Result<Self> {
        let items::Table { ty, init } = reader.by(items::Table::from_reader)?;
        let init = match init {
            items::TableInit::RefNull => TableInit::RefNull,
            items::TableInit::Expr(expression) => TableInit::Expr(ConstExpr::of(&expression)),
        };
        Ok(Table { ty: TableType::of(ty), init })
    }
}

/// A global.
///
/// # Examples
///
/// ```
/// use pulleynavy::{BinaryReader, Global, ValType};
///
/// // A mutable `i32` with the initial value 5.
/// let global = BinaryReader::new(&[0x7f, 0x01, 0x41, 5, 0x0b], 0).read::<Global>()?;
/// assert_eq!(global.ty.content_type, ValType::I32);
/// assert_eq!(global.init_expr.as_bytes(), [0x41, 5, 0x0b]);
/// # Ok::<(), pulleynavy::Error>(())
/// ```
#[derive(Clone, Debug)]
pub struct Global<'a> {
    /// The type of the global.
    pub ty: GlobalType,
    /// The expression of the initial value.
    pub init_expr: ConstExpr<'a>,
}

impl<'a> FromReader<'a> for Global<'a> {
    fn from_reader(reader: &mut BinaryReader<'a>) -> Result<Self> {
        let items::Global { ty, init_expr } = reader.by(items::Global::from_reader)?;
        Ok(Global { ty: GlobalType::of(ty), init_expr: ConstExpr::of(&init_expr) })
    }
}

/// The kind of an import or export.
///
/// # Examples
///
/// ```
/// use pulleynavy::{BinaryReader, ExternalKind};
///
/// assert_eq!(BinaryReader::new(&[2], 0).read::<ExternalKind>()?, ExternalKind::Memory);
/// # Ok::<(), pulleynavy::Error>(())
/// ```
#[derive(Clone, Copy, Debug, PartialEq, Eq, Hash)]
pub enum ExternalKind {
    /// A function.
    Func,
    /// A table.
    Table,
    /// A memory.
    Memory,
    /// A global.
    Global,
    /// A tag.
    Tag,
    /// A function of exactly the given type.
    FuncExact,
}

impl<'a> FromReader<'a> for ExternalKind {
    fn from_reader(reader: &mut BinaryReader<'a>) -> Result<Self> {
        reader.by(items::ExternalKind::from_reader).map(ExternalKind::of)
    }
}

impl ExternalKind {
    /// The kind that the proved sources have.
    #[inline(always)]
    fn of(kind: items::ExternalKind) -> Self {
        match kind {
            items::ExternalKind::Func => ExternalKind::Func,
            items::ExternalKind::Table => ExternalKind::Table,
            items::ExternalKind::Memory => ExternalKind::Memory,
            items::ExternalKind::Global => ExternalKind::Global,
            items::ExternalKind::Tag => ExternalKind::Tag,
            items::ExternalKind::FuncExact => ExternalKind::FuncExact,
        }
    }
}

/// An export.
///
/// # Examples
///
/// ```
/// use pulleynavy::{BinaryReader, Export, ExternalKind};
///
/// let export = BinaryReader::new(b"\x03add\x00\x05", 0).read::<Export>()?;
/// assert_eq!((export.name, export.kind, export.index), ("add", ExternalKind::Func, 5));
/// # Ok::<(), pulleynavy::Error>(())
/// ```
#[derive(Clone, Copy, Debug, PartialEq, Eq, Hash)]
pub struct Export<'a> {
    /// The name of the export.
    pub name: &'a str,
    /// The kind of what is exported.
    pub kind: ExternalKind,
    /// The index of what is exported, in the index space of the kind.
    pub index: u32,
}

impl<'a> FromReader<'a> for Export<'a> {
    fn from_reader(reader: &mut BinaryReader<'a>) -> Result<Self> {
        let items::Export { name, kind, index } = reader.by(items::Export::from_reader)?;
        Ok(Export { name, kind: ExternalKind::of(kind), index })
    }
}

/// An element segment.
///
/// # Examples
///
/// ```
/// use pulleynavy::{BinaryReader, Element, ElementItems};
///
/// // Active, in table 0 at index 0, with the functions 5 and 6.
/// let segment = BinaryReader::new(&[0, 0x41, 0, 0x0b, 2, 5, 6], 0).read::<Element>()?;
/// if let ElementItems::Functions(functions) = segment.items {
///     assert_eq!(functions.into_iter().collect::<Result<Vec<_>, _>>()?, [5, 6]);
/// }
/// # Ok::<(), pulleynavy::Error>(())
/// ```
#[derive(Clone, Debug)]
pub struct Element<'a> {
    /// The kind of the segment: passive, active or declared.
    pub kind: ElementKind<'a>,
    /// The elements: function indices or expressions.
    pub items: ElementItems<'a>,
    /// The offsets of the whole segment, in bytes from the start of the stream.
    pub range: Range<u64>,
}

/// The kind of an element segment.
///
/// # Examples
///
/// ```
/// use pulleynavy::{BinaryReader, Element, ElementKind};
///
/// let segment = BinaryReader::new(&[0, 0x41, 0, 0x0b, 1, 5], 0).read::<Element>()?;
/// assert!(matches!(segment.kind, ElementKind::Active { table_index: None, .. }));
/// # Ok::<(), pulleynavy::Error>(())
/// ```
#[derive(Clone, Debug)]
pub enum ElementKind<'a> {
    /// A passive segment, which instructions such as `table.init` copy to a table.
    Passive,
    /// An active segment, which is copied to a table when the module is instantiated.
    Active {
        /// The index of the table, if encoded; otherwise the segment is for table 0.
        table_index: Option<u32>,
        /// The expression of the table index to copy the first element to.
        offset_expr: ConstExpr<'a>,
    },
    /// A declarative segment, which only makes functions available to `ref.func`.
    Declared,
}

/// The elements of a segment. They were checked when the segment was read, so iterating over them yields no error.
///
/// # Examples
///
/// ```
/// use pulleynavy::{BinaryReader, Element, ElementItems, RefType};
///
/// // Passive, of `funcref`, with one expression: `ref.func 5`.
/// let segment = BinaryReader::new(&[5, 0x70, 1, 0xd2, 5, 0x0b], 0).read::<Element>()?;
/// match segment.items {
///     ElementItems::Expressions(ty, expressions) => assert_eq!((ty, expressions.count()), (RefType::FUNCREF, 1)),
///     ElementItems::Functions(_) => unreachable!(),
/// }
/// # Ok::<(), pulleynavy::Error>(())
/// ```
#[derive(Clone, Debug)]
pub enum ElementItems<'a> {
    /// Function indices.
    Functions(SectionLimited<'a, u32>),
    /// The type of the elements, and a constant expression for each of them.
    Expressions(RefType, SectionLimited<'a, ConstExpr<'a>>),
}

impl<'a> FromReader<'a> for Element<'a> {
    fn from_reader(reader: &mut BinaryReader<'a>) -> Result<Self> {
        let bytes = reader.rest;
        let items::Element { kind, items, range } = reader.by(items::Element::from_reader)?;
        let kind = match kind {
            items::ElementKind::Passive => ElementKind::Passive,
            items::ElementKind::Active { table_index, offset_expr } => ElementKind::Active { table_index, offset_expr: ConstExpr::of(&offset_expr) },
            items::ElementKind::Declared => ElementKind::Declared,
        };
        let items = match items {
            items::ElementItems::Functions(functions) => ElementItems::Functions(SectionLimited::inside(bytes, &functions)),
            items::ElementItems::Expressions(ty, expressions) => ElementItems::Expressions(RefType::of(ty), SectionLimited::inside(bytes, &expressions)),
        };
        Ok(Element { kind, items, range })
    }
}

/// A data segment.
///
/// # Examples
///
/// ```
/// use pulleynavy::{BinaryReader, Data, DataKind};
///
/// // Active, in memory 0 at address 8.
/// let segment = BinaryReader::new(b"\x00\x41\x08\x0b\x02hi", 0).read::<Data>()?;
/// assert_eq!(segment.data, b"hi");
/// assert!(matches!(segment.kind, DataKind::Active { memory_index: 0, .. }));
/// # Ok::<(), pulleynavy::Error>(())
/// ```
#[derive(Clone, Debug)]
pub struct Data<'a> {
    /// The kind of the segment: passive or active.
    pub kind: DataKind<'a>,
    /// The bytes to copy to memory.
    pub data: &'a [u8],
    /// The offsets of the whole segment, in bytes from the start of the stream.
    pub range: Range<u64>,
}

/// The kind of a data segment.
///
/// # Examples
///
/// ```
/// use pulleynavy::{BinaryReader, Data, DataKind};
///
/// let segment = BinaryReader::new(b"\x01\x02hi", 0).read::<Data>()?;
/// assert!(matches!(segment.kind, DataKind::Passive));
/// # Ok::<(), pulleynavy::Error>(())
/// ```
#[derive(Clone, Debug)]
pub enum DataKind<'a> {
    /// A passive segment, which instructions such as `memory.init` copy to a memory.
    Passive,
    /// An active segment, which is copied to a memory when the module is instantiated.
    Active {
        /// The index of the memory.
        memory_index: u32,
        /// The expression of the address to copy the first byte to.
        offset_expr: ConstExpr<'a>,
    },
}

impl<'a> FromReader<'a> for Data<'a> {
    fn from_reader(reader: &mut BinaryReader<'a>) -> Result<Self> {
        let items::Data { kind, bytes, range } = reader.by(items::Data::from_reader)?;
        let kind = match kind {
            items::DataKind::Passive => DataKind::Passive,
            items::DataKind::Active { memory_index, offset_expr } => DataKind::Active { memory_index, offset_expr: ConstExpr::of(&offset_expr) },
        };
        Ok(Data { kind, data: bytes, range })
    }
}
