//! Allocation, clones, and what may abort.
use super::{Rule, rewrite};
use crate::Fault;
use crate::pattern::Pattern;
use crate::text::Text;

pub(super) const RULES: &[Rule] = &[
    Rule {
        name: "clones",
        removes: &[
            ".clone() ~ ?",
            ".clone() ~ .unwrap()",
            ".clone() ~ .expect(rt, $why)",
            ".clone() ~ .expect(&rt, $why)",
            ".clone() ~ .ok()?",
            "fn clone(&self) -> ~ std::result::Result<",
            "fn clone(&self) -> ~ Result<",
            "Self ~ , AllocError>",
            "{ ~ Ok(",
            ")",
        ],
        writes: &[],
        says: "A clone can't fail in Rust: `clone` returns the value, and calls lose `?`, `unwrap`, `expect` and `ok`.",
        source: "fn clone(&self) -> std::result::Result<Self, AllocError> { Ok(S { a: self.a.clone()?, b: self.b.clone().expect(rt, \"x\") }) }\nlet c = d.clone().unwrap();",
        result: "fn clone(&self) -> Self { S { a: self.a.clone(), b: self.b.clone() } }\nlet c = d.clone();",
        apply: clones,
    },
    Rule {
        name: "abort",
        removes: &["rt;", "rt,", "&rt;", "&rt,"],
        writes: &[],
        says: "Macros and methods that abort lose their argument for the leave to abort.",
        source: "assert_eq!(rt; a, b);\nassert!(&rt; c);\nlet x = y.expect(&rt, \"none\");",
        result: "assert_eq!(a, b);\nassert!(c);\nlet x = y.expect(\"none\");",
        apply: abort,
    },
    Rule {
        name: "macros that allocate",
        removes: &["vec![in", "format!", "in", ";", "]"],
        writes: &["Vec::filled(", "Vec::from_array(", "String::formatted", ", format_args!(", ",", ", [", ")"],
        says: "`vec!` and `format!` with `in ALLOCATOR;` become calls of functions, which return a `Result`.",
        source: "let a = vec![in alloc; 0u8; 4]?;\nlet b = vec![in alloc; 1, 2]?;\nlet c = format!(in rt.alloc(); \"{a}\")?;",
        result: "let a = Vec::filled(alloc, 0u8, 4)?;\nlet b = Vec::from_array(alloc, [1, 2])?;\nlet c = String::formatted(rt.alloc(), format_args!(\"{a}\"))?;",
        apply: macros,
    },
    Rule {
        name: "methods that allocate",
        removes: &["to_vec", "to_string", "repeat", "concat"],
        writes: &["to_vec_with", "to_string_with", "repeat_with", "concat_with"],
        says: "Methods of slices and texts that take an allocator get names of their own, since Rust has others without it.",
        source: "a.to_vec(alloc)?; b.to_string(alloc)?; c.repeat(alloc, 3)?; d.concat(alloc)?; e.to_string();",
        result: "a.to_vec_with(alloc)?; b.to_string_with(alloc)?; c.repeat_with(alloc, 3)?; d.concat_with(alloc)?; e.to_string();",
        apply: methods,
    },
    Rule {
        name: "allocators",
        removes: &["unsafe", "*mut u8", "unsafe fn deallocate(&self, $$parameters) { $$$body }"],
        writes: &["()"],
        says: "An allocator only gives leave to allocate, so that it needs no `unsafe`: `allocate` returns nothing, and there is no `deallocate`.",
        source: "unsafe impl Allocator for A {\n    fn allocate(&self, size: usize, align: usize) -> Result<*mut u8, AllocError> { B.allocate(size, align) }\n\n    unsafe fn \
                 deallocate(&self, ptr: *mut u8, size: usize, align: usize) {}\n}",
        result: "impl Allocator for A {\n    fn allocate(&self, size: usize, align: usize) -> Result<(), AllocError> { B.allocate(size, align) }\n}",
        apply: allocators,
    },
];

fn clones(text: &mut Text) -> Result<(), Fault> {
    rewrite(
        text,
        &[
            ("fn clone(&self) -> std::result::Result<Self, AllocError> { Ok($$$value) }", "fn clone(&self) -> Self { $$$value }"),
            ("fn clone(&self) -> Result<Self, AllocError> { Ok($$$value) }", "fn clone(&self) -> Self { $$$value }"),
            (".clone()?", ".clone()"),
            (".clone().unwrap()", ".clone()"),
            (".clone().expect($$why)", ".clone()"),
            (".clone().ok()?", ".clone()"),
        ],
    )
}

fn abort(text: &mut Text) -> Result<(), Fault> {
    for name in ["assert", "assert_eq", "assert_ne", "debug_assert", "panic", "unreachable"] {
        for leave in ["rt", "&rt"] {
            text.rewrite(&format!("{name}!({leave};"), &format!("{name}!("));
        }
    }
    for name in ["expect", "expect_err"] {
        for leave in ["rt", "&rt"] {
            text.rewrite(&format!(".{name}({leave},"), &format!(".{name}("));
        }
    }
    Ok(())
}

fn macros(text: &mut Text) -> Result<(), Fault> {
    rewrite(
        text,
        &[
            ("vec![in $$alloc; $$item; $$$count]", "Vec::filled($$alloc, $$item, $$$count)"),
            ("vec![in $$alloc; $$$items]", "Vec::from_array($$alloc, [$$$items])"),
            ("format!(in $$alloc; $$$format)", "String::formatted($$alloc, format_args!($$$format))"),
        ],
    )
}

fn methods(text: &mut Text) -> Result<(), Fault> {
    for name in ["to_vec", "to_string", "repeat", "concat"] {
        let call = Pattern::new(&format!(".{name}("));
        let mut from = 0;
        while let Some((at, found)) = text.find(&call, from) {
            from = found.end;
            if !text.is(found.end, ")") {
                let name = text.written(&format!("{name}_with"), text.live[at].line);
                text.replace(at + 1..at + 2, name);
            }
        }
    }
    Ok(())
}

fn allocators(text: &mut Text) -> Result<(), Fault> {
    rewrite(
        text,
        &[
            ("unsafe impl $$parameters Allocator for", "impl $$parameters Allocator for"),
            ("unsafe fn deallocate($$parameters) { $$$body }", ""),
            ("fn allocate($$parameters) -> Result<*mut u8, AllocError>", "fn allocate($$parameters) -> Result<(), AllocError>"),
        ],
    )
}
