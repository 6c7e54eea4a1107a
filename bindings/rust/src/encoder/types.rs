//! The type section.
use super::{Items, push, sections};
use crate::proved::encode::Encode;
use crate::proved::items;
use crate::{AbstractHeapType, FieldType, HeapType, RefType, StorageType, UnpackedIndex, ValType};
use alloc::vec::Vec;

sections! {
    /// The type section: types of functions, arrays and structures.
    ///
    /// (Core specification, Binary format, Modules, Type Section.)
    TypeSection Type,
}

impl TypeSection {
    /// Adds a type, which the result writes.
    pub fn ty(&mut self) -> CoreTypeEncoder<'_> {
        CoreTypeEncoder { items: &mut self.items }
    }
}

/// Writes one type of a type section.
#[derive(Debug)]
#[must_use = "the type is added by a method of this"]
pub struct CoreTypeEncoder<'a> {
    items: &'a mut Items,
}

/// Appends a count and these items.
fn push_list<T: Encode>(sink: &mut Vec<u8>, list: impl ExactSizeIterator<Item = T>) {
    super::push_number(sink, list.len() as u64);
    for item in list {
        push(sink, &item);
    }
}

impl CoreTypeEncoder<'_> {
    /// The type of a function.
    pub fn function<P, R>(self, params: P, results: R)
    where
        P: IntoIterator<Item = ValType>,
        P::IntoIter: ExactSizeIterator,
        R: IntoIterator<Item = ValType>,
        R::IntoIter: ExactSizeIterator,
    {
        self.items.bytes.push(0x60);
        push_list(&mut self.items.bytes, params.into_iter().map(val_type));
        push_list(&mut self.items.bytes, results.into_iter().map(val_type));
        self.items.count += 1;
    }

    /// The type of an array.
    pub fn array(self, ty: &StorageType, mutable: bool) {
        self.items.bytes.push(0x5e);
        self.items.add(&field_type(FieldType { element_type: *ty, mutable }));
    }

    /// The type of a structure.
    pub fn struct_<F>(self, fields: F)
    where
        F: IntoIterator<Item = FieldType>,
        F::IntoIter: ExactSizeIterator,
    {
        self.items.bytes.push(0x5f);
        push_list(&mut self.items.bytes, fields.into_iter().map(field_type));
        self.items.count += 1;
    }
}

fn field_type(field: FieldType) -> items::FieldType {
    let storage = match field.element_type {
        StorageType::I8 => items::StorageType::I8,
        StorageType::I16 => items::StorageType::I16,
        StorageType::Val(ty) => items::StorageType::Val(val_type(ty)),
    };
    items::FieldType { storage, mutable: field.mutable }
}

pub(super) fn val_type(ty: ValType) -> items::ValType {
    match ty {
        ValType::I32 => items::ValType::I32,
        ValType::I64 => items::ValType::I64,
        ValType::F32 => items::ValType::F32,
        ValType::F64 => items::ValType::F64,
        ValType::V128 => items::ValType::V128,
        ValType::Ref(ty) => items::ValType::Ref(ref_type(ty)),
    }
}

pub(super) fn ref_type(ty: RefType) -> items::RefType {
    items::RefType { nullable: ty.is_nullable(), heap: heap_type(ty.heap_type()) }
}

pub(super) fn heap_type(ty: HeapType) -> items::HeapType {
    match ty {
        HeapType::Abstract { shared: false, ty } => abstract_type(ty),
        HeapType::Concrete(UnpackedIndex::Module(index)) => items::HeapType::Concrete(index),
        other => panic!("{other} is not written"),
    }
}

fn abstract_type(ty: AbstractHeapType) -> items::HeapType {
    match ty {
        AbstractHeapType::Func => items::HeapType::Func,
        AbstractHeapType::Extern => items::HeapType::Extern,
        AbstractHeapType::Any => items::HeapType::Any,
        AbstractHeapType::None => items::HeapType::None,
        AbstractHeapType::NoExtern => items::HeapType::NoExtern,
        AbstractHeapType::NoFunc => items::HeapType::NoFunc,
        AbstractHeapType::Eq => items::HeapType::Eq,
        AbstractHeapType::Struct => items::HeapType::Struct,
        AbstractHeapType::Array => items::HeapType::Array,
        AbstractHeapType::I31 => items::HeapType::I31,
        AbstractHeapType::Exn => items::HeapType::Exn,
        AbstractHeapType::NoExn => items::HeapType::NoExn,
        AbstractHeapType::Cont | AbstractHeapType::NoCont => panic!("{ty} is not written"),
    }
}
