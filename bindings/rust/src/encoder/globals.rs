//! The global section.
use super::kinds::global_type;
use super::{ConstExpr, GlobalType, sections};
use crate::proved::items;

sections! {
    /// The global section.
    ///
    /// (Core specification, Binary format, Modules, Global Section.)
    GlobalSection Global,
}

impl GlobalSection {
    /// Adds a global.
    pub fn global(&mut self, ty: GlobalType, init_expr: &ConstExpr) -> &mut Self {
        let bytes = init_expr.with_end();
        self.items.add(&items::Global { ty: global_type(ty), init_expr: bytes.expression() });
        self
    }
}
