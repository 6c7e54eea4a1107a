//! Constant expressions.
use super::types::heap_type;
use super::{Encode, push};
use crate::proved::base::BinaryReader;
use crate::proved::items::{self, ConstOperator};
use crate::{HeapType, Ieee32, Ieee64};
use alloc::vec::Vec;

/// A constant expression, without its `end`.
///
/// (Core specification, Binary format, Instructions, Expressions.)
#[derive(Clone, Debug, Default, PartialEq, Eq)]
pub struct ConstExpr {
    bytes: Vec<u8>,
}

impl ConstExpr {
    /// Returns an expression without instructions.
    #[must_use]
    pub fn empty() -> Self {
        Self::default()
    }

    /// Returns an expression of these instructions, which are not checked, without `end`.
    #[must_use]
    pub fn raw(bytes: impl IntoIterator<Item = u8>) -> Self {
        ConstExpr { bytes: bytes.into_iter().collect() }
    }

    fn with(mut self, operator: ConstOperator) -> Self {
        push(&mut self.bytes, &operator);
        self
    }

    /// The bytes with the `end` after them.
    pub(super) fn with_end(&self) -> Self {
        let mut bytes = self.bytes.clone();
        bytes.push(0x0b);
        ConstExpr { bytes }
    }

    pub(super) fn as_slice(&self) -> &[u8] {
        &self.bytes
    }

    /// The window of an expression that has its `end`.
    pub(super) fn expression(&self) -> items::ConstExpr<'_> {
        items::ConstExpr::new(BinaryReader::new(&self.bytes, 0))
    }
}

/// An expression that begins with an instruction, and one that goes on with it.
macro_rules! instructions {
    ($($(#[$doc:meta])* $name:ident $with:ident ($($argument:ident: $ty:ty)?) $operator:expr,)*) => {
        impl ConstExpr {
            $(
                $(#[$doc])*
                #[must_use]
                pub fn $name($($argument: $ty)?) -> Self {
                    Self::empty().$with($($argument)?)
                }

                /// Returns the expression with this instruction after the others.
                #[must_use]
                pub fn $with(self $(, $argument: $ty)?) -> Self {
                    self.with($operator)
                }
            )*
        }
    };
}

instructions! {
    /// `global.get`: the value of a global.
    global_get with_global_get(index: u32) ConstOperator::GlobalGet { global_index: index },
    /// `ref.null`: a null reference.
    ref_null with_ref_null(ty: HeapType) ConstOperator::RefNull { hty: heap_type(ty) },
    /// `ref.func`: a reference to a function.
    ref_func with_ref_func(func: u32) ConstOperator::RefFunc { function_index: func },
    /// `i32.const`.
    i32_const with_i32_const(value: i32) ConstOperator::I32Const { value },
    /// `i64.const`.
    i64_const with_i64_const(value: i64) ConstOperator::I64Const { value },
}

impl ConstExpr {
    /// `f32.const`.
    #[must_use]
    pub fn f32_const(value: Ieee32) -> Self {
        Self::empty().with_f32_const(value)
    }

    /// Returns the expression with this instruction after the others.
    #[must_use]
    pub fn with_f32_const(mut self, value: Ieee32) -> Self {
        self.bytes.push(0x43);
        self.bytes.extend_from_slice(&value.bits().to_le_bytes());
        self
    }

    /// `f64.const`.
    #[must_use]
    pub fn f64_const(value: Ieee64) -> Self {
        Self::empty().with_f64_const(value)
    }

    /// Returns the expression with this instruction after the others.
    #[must_use]
    pub fn with_f64_const(mut self, value: Ieee64) -> Self {
        self.bytes.push(0x44);
        self.bytes.extend_from_slice(&value.bits().to_le_bytes());
        self
    }

    /// `v128.const`.
    #[must_use]
    pub fn v128_const(value: i128) -> Self {
        let mut expression = Self::raw([0xfd, 0x0c]);
        expression.bytes.extend_from_slice(&value.to_le_bytes());
        expression
    }

    /// Returns the expression with `i32.add` after the others.
    #[must_use]
    pub fn with_i32_add(self) -> Self {
        self.with(ConstOperator::I32Add)
    }

    /// Returns the expression with `i32.sub` after the others.
    #[must_use]
    pub fn with_i32_sub(self) -> Self {
        self.with(ConstOperator::I32Sub)
    }

    /// Returns the expression with `i32.mul` after the others.
    #[must_use]
    pub fn with_i32_mul(self) -> Self {
        self.with(ConstOperator::I32Mul)
    }

    /// Returns the expression with `i64.add` after the others.
    #[must_use]
    pub fn with_i64_add(self) -> Self {
        self.with(ConstOperator::I64Add)
    }

    /// Returns the expression with `i64.sub` after the others.
    #[must_use]
    pub fn with_i64_sub(self) -> Self {
        self.with(ConstOperator::I64Sub)
    }

    /// Returns the expression with `i64.mul` after the others.
    #[must_use]
    pub fn with_i64_mul(self) -> Self {
        self.with(ConstOperator::I64Mul)
    }
}

impl Encode for ConstExpr {
    fn encode(&self, sink: &mut Vec<u8>) {
        sink.extend_from_slice(&self.bytes);
        sink.push(0x0b);
    }
}
