//! Types and the items of a module's own sections.
use super::*;

impl Show for u32 {
    fn show(&self) -> String {
        self.to_string()
    }
}

impl Show for bool {
    fn show(&self) -> String {
        self.to_string()
    }
}

impl<T: Show, U: Show> Show for (T, U) {
    fn show(&self) -> String {
        format!("({} {})", self.0.show(), self.1.show())
    }
}

impl Show for &str {
    fn show(&self) -> String {
        hex(self.as_bytes())
    }
}

impl<T: Show> Show for &T {
    fn show(&self) -> String {
        (**self).show()
    }
}

impl Show for ConstExpr<'_> {
    fn show(&self) -> String {
        range(self.range())
    }
}

impl Show for RefType {
    fn show(&self) -> String {
        format!("{}:{}", if self.is_nullable() { "null" } else { "ref" }, self.heap_type().show())
    }
}

impl Show for HeapType {
    fn show(&self) -> String {
        match self {
            HeapType::Concrete(index) => index.as_module_index().unwrap().to_string(),
            HeapType::Abstract { shared: false, ty } => format!("{ty:?}").to_lowercase(),
            other => panic!("{other:?}"),
        }
    }
}

impl Show for ExternalKind {
    fn show(&self) -> String {
        format!("{self:?}").to_lowercase()
    }
}

impl Show for ValType {
    fn show(&self) -> String {
        match self {
            ValType::Ref(ty) => ty.show(),
            other => format!("{other:?}").to_lowercase(),
        }
    }
}

impl Show for FieldType {
    fn show(&self) -> String {
        let holds = match self.element_type {
            StorageType::I8 => "i8".to_owned(),
            StorageType::I16 => "i16".to_owned(),
            StorageType::Val(ty) => ty.show(),
        };
        format!("field({holds} {} )", self.mutable)
    }
}

/// What is shown of types, which borrow from the input if they own no lists.
macro_rules! show_types {
    ($($lifetime:lifetime)?) => {
        impl Show for SubType$(<$lifetime>)? {
            fn show(&self) -> String {
                let CompositeType { inner, shared: false } = &self.composite_type else { panic!("{self:?}") };
                let inner = match inner {
                    CompositeInnerType::Func(ty) => format!("func({} {} )", owned(ty.params()), owned(ty.results())),
                    CompositeInnerType::Array(ty) => format!("array {}", ty.0.show()),
                    CompositeInnerType::Struct(ty) => format!("struct {}", owned(ty.fields.clone())),
                    CompositeInnerType::Cont(ty) => panic!("{ty:?}"),
                };
                format!("sub({} {} {inner} )", self.is_final, option(self.supertype_idx.and_then(|index| index.as_module_index())))
            }
        }

        impl Show for RecGroup$(<$lifetime>)? {
            fn show(&self) -> String {
                format!("rec({} {} )", self.is_explicit_rec_group(), owned(self.types()))
            }
        }
    };
}

#[cfg(feature = "alloc")]
show_types!();
#[cfg(not(feature = "alloc"))]
show_types!('_);

impl Show for TableType {
    fn show(&self) -> String {
        format!("table({} {} {} {} {} )", self.element_type.show(), self.table64, self.initial, option(self.maximum), self.shared)
    }
}

impl Show for MemoryType {
    fn show(&self) -> String {
        let (maximum, page_size) = (option(self.maximum), option(self.page_size_log2));
        format!("memory({} {} {} {maximum} {page_size} )", self.memory64, self.shared, self.initial)
    }
}

impl Show for GlobalType {
    fn show(&self) -> String {
        format!("global({} {} {} )", self.content_type.show(), self.mutable, self.shared)
    }
}

impl Show for TagType {
    fn show(&self) -> String {
        format!("tag(exception {} )", self.func_type_idx)
    }
}

impl Show for TypeRef {
    fn show(&self) -> String {
        match self {
            TypeRef::Func(index) => format!("func {index}"),
            TypeRef::Table(ty) => ty.show(),
            TypeRef::Memory(ty) => ty.show(),
            TypeRef::Global(ty) => ty.show(),
            TypeRef::Tag(ty) => ty.show(),
            TypeRef::FuncExact(index) => format!("funcexact {index}"),
        }
    }
}

impl Show for Import<'_> {
    fn show(&self) -> String {
        format!("import({} {} {} )", self.module.show(), self.name.show(), self.ty.show())
    }
}

impl Show for ImportItemCompact<'_> {
    fn show(&self) -> String {
        format!("item({} {} )", self.name.show(), self.ty.show())
    }
}

impl Show for Imports<'_> {
    fn show(&self) -> String {
        match self.clone() {
            Imports::Single(offset, import) => format!("single {offset} {}", import.show()),
            Imports::Compact1 { module, items } => format!("compact1 {} {}", module.show(), listed(items)),
            Imports::Compact2 { module, ty, names } => format!("compact2 {} {} {}", module.show(), ty.show(), listed(names)),
        }
    }
}

impl Show for Table<'_> {
    fn show(&self) -> String {
        let init = match &self.init {
            TableInit::RefNull => "null".to_owned(),
            TableInit::Expr(init) => init.show(),
        };
        format!("table({} {init} )", self.ty.show())
    }
}

impl Show for Global<'_> {
    fn show(&self) -> String {
        format!("global({} {} )", self.ty.show(), self.init_expr.show())
    }
}

impl Show for Export<'_> {
    fn show(&self) -> String {
        format!("export({} {} {} )", self.name.show(), self.kind.show(), self.index)
    }
}

impl Show for Element<'_> {
    fn show(&self) -> String {
        let kind = match &self.kind {
            ElementKind::Passive => "passive".to_owned(),
            ElementKind::Active { table_index, offset_expr } => format!("active {} {}", option(*table_index), offset_expr.show()),
            ElementKind::Declared => "declared".to_owned(),
        };
        let items = match self.items.clone() {
            ElementItems::Functions(items) => listed(items),
            ElementItems::Expressions(ty, items) => format!("{} {}", ty.show(), listed(items)),
        };
        format!("element({kind} {items} {} )", range(self.range.clone()))
    }
}

impl Show for Data<'_> {
    fn show(&self) -> String {
        let kind = match &self.kind {
            DataKind::Passive => "passive".to_owned(),
            DataKind::Active { memory_index, offset_expr } => format!("active {memory_index} {}", offset_expr.show()),
        };
        format!("data({kind} {} {} )", hex(self.data), range(self.range.clone()))
    }
}
