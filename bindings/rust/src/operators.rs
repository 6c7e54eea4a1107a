//! The instructions of constant expressions.
use crate::proved::items;
use crate::{BinaryReader, HeapType, Ieee32, Ieee64, Result};
use core::convert::Infallible;
use core::iter::FusedIterator;
use core::marker::PhantomData;

/// The bits of a 128-bit vector.
///
/// # Examples
///
/// ```
/// use pulleynavy::{BinaryReader, Operator, OperatorsReader};
///
/// let bytes = b"\xfd\x0c\x05\0\0\0\0\0\0\0\0\0\0\0\0\0\0\0";
/// match OperatorsReader::new(BinaryReader::new(bytes, 0)).read()? {
///     Operator::V128Const { value } => assert_eq!(value.i128(), 5),
///     _ => unreachable!(),
/// }
/// # Ok::<(), pulleynavy::Error>(())
/// ```
#[derive(Clone, Copy, Debug, PartialEq, Eq, Hash, PartialOrd, Ord)]
pub struct V128([u8; 16]);

impl V128 {
    /// Returns the bytes, in the order in which they are encoded.
    #[must_use]
    pub fn bytes(&self) -> &[u8; 16] {
        &self.0
    }

    /// Returns the bits as a number, of which the first byte is the lowest.
    #[must_use]
    pub fn i128(&self) -> i128 {
        i128::from_le_bytes(self.0)
    }
}

impl From<V128> for i128 {
    fn from(vector: V128) -> i128 {
        vector.i128()
    }
}

impl From<V128> for u128 {
    fn from(vector: V128) -> u128 {
        u128::from_le_bytes(vector.0)
    }
}

/// An instruction of a constant expression, with its operands. The variants and fields have the names of `wasmparser`.
///
/// # Examples
///
/// ```
/// use pulleynavy::{BinaryReader, Operator, OperatorsReader};
///
/// let mut reader = OperatorsReader::new(BinaryReader::new(&[0xd2, 3], 0));
/// assert_eq!(reader.read()?, Operator::RefFunc { function_index: 3 });
/// # Ok::<(), pulleynavy::Error>(())
/// ```
#[derive(Clone, Debug, PartialEq, Eq)]
#[non_exhaustive]
#[allow(missing_docs)]
#[rustfmt::skip]
pub enum Operator<'a> {
    /// `end`: marks the end of the expression.
    End,
    /// `global.get`: pushes the value of a global.
    GlobalGet { global_index: u32 },
    /// `i32.const`: pushes a 32-bit integer.
    I32Const { value: i32 },
    /// `i64.const`: pushes a 64-bit integer.
    I64Const { value: i64 },
    /// `f32.const`: pushes a 32-bit float.
    F32Const { value: Ieee32 },
    /// `f64.const`: pushes a 64-bit float.
    F64Const { value: Ieee64 },
    /// `v128.const`: pushes a 128-bit vector.
    V128Const { value: V128 },
    /// `i32.add`: adds two 32-bit integers.
    I32Add,
    /// `i32.sub`: subtracts two 32-bit integers.
    I32Sub,
    /// `i32.mul`: multiplies two 32-bit integers.
    I32Mul,
    /// `i64.add`: adds two 64-bit integers.
    I64Add,
    /// `i64.sub`: subtracts two 64-bit integers.
    I64Sub,
    /// `i64.mul`: multiplies two 64-bit integers.
    I64Mul,
    /// `ref.null`: pushes a null reference of this heap type.
    RefNull { hty: HeapType },
    /// `ref.func`: pushes a reference to a function.
    RefFunc { function_index: u32 },
    /// `ref.i31`: converts a 32-bit integer to an unboxed 31-bit reference.
    RefI31,
    /// `struct.new`: allocates a structure, with field values from the stack.
    StructNew { struct_type_index: u32 },
    /// `struct.new_default`: allocates a structure of default values.
    StructNewDefault { struct_type_index: u32 },
    /// `array.new`: allocates an array of copies of a value.
    ArrayNew { array_type_index: u32 },
    /// `array.new_default`: allocates an array of default values.
    ArrayNewDefault { array_type_index: u32 },
    /// `array.new_fixed`: allocates an array of this many elements from the stack.
    ArrayNewFixed { array_type_index: u32, array_size: u32 },
    /// `any.convert_extern`: converts a reference of the host to one of the module.
    AnyConvertExtern,
    /// `extern.convert_any`: converts a reference of the module to one of the host.
    ExternConvertAny,
    // Never made: it gives the type the lifetime that it has in `wasmparser`, where some instructions borrow from the input.
    #[doc(hidden)]
    Borrowed(Infallible, PhantomData<&'a ()>),
}

impl Operator<'_> {
    /// The operator that the proved sources have.
    fn of(operator: items::ConstOperator) -> Self {
        use items::ConstOperator as Const;
        match operator {
            Const::End => Operator::End,
            Const::GlobalGet { global_index } => Operator::GlobalGet { global_index },
            Const::I32Const { value } => Operator::I32Const { value },
            Const::I64Const { value } => Operator::I64Const { value },
            Const::F32Const { value } => Operator::F32Const { value: Ieee32(value.bits()) },
            Const::F64Const { value } => Operator::F64Const { value: Ieee64(value.bits()) },
            Const::V128Const { value } => Operator::V128Const { value: V128(*value.bytes()) },
            Const::I32Add => Operator::I32Add,
            Const::I32Sub => Operator::I32Sub,
            Const::I32Mul => Operator::I32Mul,
            Const::I64Add => Operator::I64Add,
            Const::I64Sub => Operator::I64Sub,
            Const::I64Mul => Operator::I64Mul,
            Const::RefNull { hty } => Operator::RefNull { hty: HeapType::of(hty) },
            Const::RefFunc { function_index } => Operator::RefFunc { function_index },
            Const::RefI31 => Operator::RefI31,
            Const::StructNew { struct_type_index } => Operator::StructNew { struct_type_index },
            Const::StructNewDefault { struct_type_index } => Operator::StructNewDefault { struct_type_index },
            Const::ArrayNew { array_type_index } => Operator::ArrayNew { array_type_index },
            Const::ArrayNewDefault { array_type_index } => Operator::ArrayNewDefault { array_type_index },
            Const::ArrayNewFixed { array_type_index, array_size } => Operator::ArrayNewFixed { array_type_index, array_size },
            Const::AnyConvertExtern => Operator::AnyConvertExtern,
            Const::ExternConvertAny => Operator::ExternConvertAny,
        }
    }
}

/// A reader over the instructions of a constant expression. Any other instruction is an error.
///
/// # Examples
///
/// ```
/// use pulleynavy::{BinaryReader, Operator, OperatorsReader};
///
/// let mut reader = OperatorsReader::new(BinaryReader::new(&[0x41, 5, 0x0b], 0));
/// assert_eq!(reader.read()?, Operator::I32Const { value: 5 });
/// assert_eq!(reader.read()?, Operator::End);
/// assert!(reader.eof());
/// # Ok::<(), pulleynavy::Error>(())
/// ```
#[derive(Clone, Debug)]
pub struct OperatorsReader<'a> {
    reader: BinaryReader<'a>,
}

impl<'a> OperatorsReader<'a> {
    /// Takes the remaining bytes of a reader as instructions. Nothing is read yet.
    #[must_use]
    pub fn new(reader: BinaryReader<'a>) -> Self {
        OperatorsReader { reader }
    }

    /// Returns whether no byte remains.
    #[must_use]
    pub fn eof(&self) -> bool {
        self.reader.eof()
    }

    /// Returns the offset of the next instruction, in bytes from the start of the stream.
    #[must_use]
    pub fn original_position(&self) -> u64 {
        self.reader.original_position()
    }

    /// Returns whether the next instruction is `end` and is the last one.
    #[must_use]
    pub fn is_end_then_eof(&self) -> bool {
        self.reader.remaining_buffer() == [0x0b]
    }

    /// Returns a reader over the remaining bytes.
    #[must_use]
    pub fn get_binary_reader(&self) -> BinaryReader<'a> {
        self.reader.clone()
    }

    /// Reads the next instruction.
    ///
    /// # Errors
    ///
    /// `NotConstant` at an instruction that is not allowed in a constant expression, `UnexpectedEof` where bytes are missing, and
    /// the errors of malformed operands.
    pub fn read(&mut self) -> Result<Operator<'a>> {
        let items::ConstInstruction { operator, .. } = self.reader.by(items::read_instruction)?;
        Ok(Operator::of(operator))
    }

    /// Reads the next instruction, and returns it with its offset in bytes from the start of the stream.
    ///
    /// # Errors
    ///
    /// Those of [`OperatorsReader::read`].
    pub fn read_with_offset(&mut self) -> Result<(Operator<'a>, u64)> {
        let offset = self.original_position();
        Ok((self.read()?, offset))
    }

    /// Returns an iterator over the instructions, each with its offset in bytes from the start of the stream.
    #[must_use]
    pub fn into_iter_with_offsets(self) -> OperatorsIteratorWithOffsets<'a> {
        OperatorsIteratorWithOffsets { reader: self, ended: false }
    }
}

impl<'a> IntoIterator for OperatorsReader<'a> {
    type Item = Result<Operator<'a>>;
    type IntoIter = OperatorsIterator<'a>;

    fn into_iter(self) -> Self::IntoIter {
        OperatorsIterator { operators: self.into_iter_with_offsets() }
    }
}

/// An iterator over instructions, up to the end of the bytes or the first error.
///
/// # Examples
///
/// ```
/// use pulleynavy::{BinaryReader, Operator, OperatorsReader};
///
/// let reader = OperatorsReader::new(BinaryReader::new(&[0x41, 5, 0x0b], 0));
/// assert!(reader.into_iter().eq([Ok(Operator::I32Const { value: 5 }), Ok(Operator::End)]));
/// ```
#[derive(Clone, Debug)]
pub struct OperatorsIterator<'a> {
    operators: OperatorsIteratorWithOffsets<'a>,
}

impl<'a> Iterator for OperatorsIterator<'a> {
    type Item = Result<Operator<'a>>;

    fn next(&mut self) -> Option<Self::Item> {
        Some(self.operators.next()?.map(|(operator, _)| operator))
    }
}

impl FusedIterator for OperatorsIterator<'_> {}

/// An iterator over instructions with their offsets, up to the end of the bytes or the first error.
///
/// # Examples
///
/// ```
/// use pulleynavy::{BinaryReader, Operator, OperatorsReader};
///
/// let reader = OperatorsReader::new(BinaryReader::new(&[0x41, 5, 0x0b], 100));
/// assert_eq!(reader.into_iter_with_offsets().last(), Some(Ok((Operator::End, 102))));
/// ```
#[derive(Clone, Debug)]
pub struct OperatorsIteratorWithOffsets<'a> {
    reader: OperatorsReader<'a>,
    ended: bool,
}

impl<'a> Iterator for OperatorsIteratorWithOffsets<'a> {
    type Item = Result<(Operator<'a>, u64)>;

    fn next(&mut self) -> Option<Self::Item> {
        if self.ended || self.reader.eof() {
            return None;
        }
        let operator = self.reader.read_with_offset();
        self.ended = operator.is_err();
        Some(operator)
    }
}

impl FusedIterator for OperatorsIteratorWithOffsets<'_> {}
