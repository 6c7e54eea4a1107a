//! Prints the interface of a module: its imports and exports with their types.
//!
//! It uses the names of `wasmparser` alone: with that crate in the manifest it compiles as it is.
use std::error::Error;
use wasmparser::{CompositeInnerType, Export, ExternalKind, FuncType, GlobalType, MemoryType, Parser, Payload, TableType, TypeRef, ValType};

/// The index spaces of a module, imports first.
#[derive(Default)]
struct Module {
    types: Vec<Option<FuncType>>,
    functions: Vec<u32>,
    tables: Vec<TableType>,
    memories: Vec<MemoryType>,
    globals: Vec<GlobalType>,
    tags: Vec<u32>,
}

fn list(types: &[ValType]) -> String {
    types.iter().map(ValType::to_string).collect::<Vec<_>>().join(", ")
}

impl Module {
    fn add(&mut self, ty: TypeRef) {
        match ty {
            TypeRef::Func(index) | TypeRef::FuncExact(index) => self.functions.push(index),
            TypeRef::Table(ty) => self.tables.push(ty),
            TypeRef::Memory(ty) => self.memories.push(ty),
            TypeRef::Global(ty) => self.globals.push(ty),
            TypeRef::Tag(ty) => self.tags.push(ty.func_type_idx),
        }
    }

    /// Adds the types and definitions of a section.
    fn define(&mut self, payload: Payload<'_>) -> wasmparser::Result<()> {
        match payload {
            Payload::TypeSection(section) => {
                for group in section {
                    self.types.extend(group?.into_types().map(|ty| match ty.composite_type.inner {
                        CompositeInnerType::Func(ty) => Some(ty),
                        _ => None,
                    }));
                }
            }
            Payload::FunctionSection(section) => self.functions.extend(section.into_iter().collect::<Result<Vec<_>, _>>()?),
            Payload::TableSection(section) => {
                for table in section {
                    self.tables.push(table?.ty);
                }
            }
            Payload::MemorySection(section) => self.memories.extend(section.into_iter().collect::<Result<Vec<_>, _>>()?),
            Payload::GlobalSection(section) => {
                for global in section {
                    self.globals.push(global?.ty);
                }
            }
            Payload::TagSection(section) => {
                for tag in section {
                    self.tags.push(tag?.func_type_idx);
                }
            }
            _ => {}
        }
        Ok(())
    }

    fn function(&self, index: u32) -> String {
        match self.types.get(index as usize) {
            Some(Some(ty)) => format!("({}) -> ({})", list(ty.params()), list(ty.results())),
            Some(None) => format!("type {index}, which is no function type"),
            None => format!("type {index}, which is missing"),
        }
    }

    fn limits(initial: u64, maximum: Option<u64>) -> String {
        maximum.map_or_else(|| format!("{initial}.."), |maximum| format!("{initial}..={maximum}"))
    }

    fn text(&self, ty: TypeRef) -> String {
        match ty {
            TypeRef::Func(index) | TypeRef::FuncExact(index) => format!("func {}", self.function(index)),
            TypeRef::Table(ty) => format!("table {} of {}", Module::limits(ty.initial, ty.maximum), ty.element_type),
            TypeRef::Memory(ty) => format!("memory {} pages{}", Module::limits(ty.initial, ty.maximum), if ty.memory64 { ", 64-bit" } else { "" }),
            TypeRef::Global(ty) => format!("global {}{}", if ty.mutable { "mut " } else { "" }, ty.content_type),
            TypeRef::Tag(ty) => format!("tag {}", self.function(ty.func_type_idx)),
        }
    }

    /// The type of an export, or nothing if its index is beyond the index space.
    fn exported(&self, export: &Export<'_>) -> Option<String> {
        let index = export.index as usize;
        Some(match export.kind {
            ExternalKind::Func | ExternalKind::FuncExact => self.text(TypeRef::Func(*self.functions.get(index)?)),
            ExternalKind::Table => self.text(TypeRef::Table(*self.tables.get(index)?)),
            ExternalKind::Memory => self.text(TypeRef::Memory(*self.memories.get(index)?)),
            ExternalKind::Global => self.text(TypeRef::Global(*self.globals.get(index)?)),
            ExternalKind::Tag => format!("tag {}", self.function(*self.tags.get(index)?)),
        })
    }
}

pub fn show(bytes: &[u8]) -> wasmparser::Result<()> {
    let mut module = Module::default();
    for payload in Parser::new(0).parse_all(bytes) {
        match payload? {
            Payload::ImportSection(section) => {
                for import in section.into_imports() {
                    let import = import?;
                    println!("import {:?} {:?}: {}", import.module, import.name, module.text(import.ty));
                    module.add(import.ty);
                }
            }
            Payload::ExportSection(section) => {
                for export in section {
                    let export = export?;
                    let ty = module.exported(&export).unwrap_or_else(|| format!("{:?} {}, which is missing", export.kind, export.index));
                    println!("export {:?}: {ty}", export.name);
                }
            }
            other => module.define(other)?,
        }
    }
    Ok(())
}

fn main() -> Result<(), Box<dyn Error>> {
    let path = std::env::args().nth(1).ok_or("usage: interface FILE")?;
    Ok(show(&std::fs::read(path)?)?)
}
