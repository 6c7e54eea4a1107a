//! Programs, tests, and forms of `std` that Rust spells otherwise.
use super::{Rule, rewrite};
use crate::Fault;
use crate::text::Text;

pub(super) const RULES: &[Rule] = &[
    Rule {
        name: "formatters",
        removes: &["<W: fmt::Write>", "W"],
        writes: &["LIFETIME"],
        says: "`fmt` loses its parameter for the type of the writer.",
        source: "fn fmt<W: fmt::Write>(&self, f: &mut fmt::Formatter<W>) -> fmt::Result {}",
        result: "fn fmt(&self, f: &mut fmt::Formatter<'_>) -> fmt::Result {}",
        apply: |text| rewrite(text, &[("<W: fmt::Write>(", "("), ("fmt::Formatter<W>", "fmt::Formatter<'_>")]),
    },
    Rule {
        name: "slices",
        removes: &["DerefSlice", "Elem"],
        writes: &["Deref", "Target", "[", "]"],
        says: "What dereferences to a slice implements `Deref`.",
        source: "use std::ops::DerefSlice;\nimpl<T> DerefSlice for List<T> { type Elem = T; }",
        result: "use std::ops::Deref;\nimpl<T> Deref for List<T> { type Target = [T]; }",
        apply: |text| rewrite(text, &[("DerefSlice", "Deref"), ("type Elem = $item;", "type Target = [$item];")]),
    },
    Rule {
        name: "kinds of errors",
        removes: &["ErrorKind", "FilesystemLoop", "InvalidFilename"],
        writes: &["kind if", "std", "io::is_filesystem_loop(kind)", "io::is_invalid_filename(kind)"],
        says: "Kinds of I/O errors that Rust 1.85 has but does not name are tested by functions of the module `std`.",
        source: "match kind { ErrorKind::FilesystemLoop => 1, ErrorKind::InvalidFilename => 2, _ => 3 }",
        result: "match kind { kind if std::io::is_filesystem_loop(kind) => 1, kind if std::io::is_invalid_filename(kind) => 2, _ => 3 }",
        apply: kinds,
    },
    Rule {
        name: "tests",
        removes: &[")", ",)", "rt"],
        writes: &[") {", "{ std::test::run(|", "std::test::run(|", "|", ") }", "})", "_: HostRuntime"],
        says: "A test is a closure that the module `std` runs, since Rust passes a test no runtime.",
        source: "#[test]\nfn adds(rt: HostRuntime) -> Result<(), Fail> { f(&rt)?; Ok(()) }\n#[test]\nfn ends(rt: HostRuntime) { g(rt); }\n#[test]\nfn counts() -> Result<(), Fail> { Ok(()) }",
        result: "#[test]\nfn adds() { std::test::run(|rt: HostRuntime| -> Result<(), Fail> { f(&rt)?; Ok(()) }) }\n#[test]\nfn ends() { std::test::run(|rt: HostRuntime| { g(rt); }) }\n\
                 #[test]\nfn counts() { std::test::run(|_: HostRuntime| -> Result<(), Fail> { Ok(()) }) }",
        apply: tests,
    },
    Rule {
        name: "main",
        removes: &["rt: HostRuntime"],
        writes: &["pub", "let rt = HostRuntime;"],
        says: "`main` is public and takes no runtime: it has the only one.",
        source: "fn main(rt: HostRuntime) -> ExitCode { run(rt) }",
        result: "pub fn main() -> ExitCode { let rt = HostRuntime; run(rt) }",
        apply: |text| rewrite(text, &[("fn main($rt: HostRuntime) -> $type {", "pub fn main() -> $type { let $rt = HostRuntime;")]),
    },
];

fn kinds(text: &mut Text) -> Result<(), Fault> {
    rewrite(
        text,
        &[
            ("ErrorKind::FilesystemLoop =>", "kind if std::io::is_filesystem_loop(kind) =>"),
            ("ErrorKind::InvalidFilename =>", "kind if std::io::is_invalid_filename(kind) =>"),
        ],
    )
}

fn tests(text: &mut Text) -> Result<(), Fault> {
    rewrite(
        text,
        &[
            ("#[test] fn $name($rt: HostRuntime) -> $$type { $$$body }", "#[test] fn $name() { std::test::run(|$rt: HostRuntime| -> $$type { $$$body }) }"),
            ("#[test] fn $name($rt: HostRuntime,) -> $$type { $$$body }", "#[test] fn $name() { std::test::run(|$rt: HostRuntime| -> $$type { $$$body }) }"),
            (
                "#[test] fn $name(mut $rt: HostRuntime) -> $$type { $$$body }",
                "#[test] fn $name() { std::test::run(|mut $rt: HostRuntime| -> $$type { $$$body }) }",
            ),
            ("#[test] fn $name($rt: HostRuntime) { $$$body }", "#[test] fn $name() { std::test::run(|$rt: HostRuntime| { $$$body }) }"),
            ("#[test] fn $name() -> $$type { $$$body }", "#[test] fn $name() { std::test::run(|_: HostRuntime| -> $$type { $$$body }) }"),
        ],
    )
}
