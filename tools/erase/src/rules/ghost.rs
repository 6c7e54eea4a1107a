//! What only the proof reads.
use super::{Rule, rewrite};
use crate::Fault;
use crate::lexer::Kind;
use crate::pattern::Pattern;
use crate::text::Text;

pub(super) const RULES: &[Rule] = &[
    Rule {
        name: "contracts",
        removes: &["CLAUSE"],
        writes: &[],
        says: "The clauses of functions go: `requires`, `ensures` and `ensures*`, with or without a name.",
        source: "fn half(n: u32) -> u32\n    requires even { n % 2 ≡ 0 }\n    ensures* { result ≡ n / 2 }\n{ n / 2 }",
        result: "fn half(n: u32) -> u32 { n / 2 }",
        apply: |text| remove_kind(text, Kind::Clause),
    },
    Rule {
        name: "ghost items",
        removes: &["GHOST", "COMMENT", "DOC"],
        writes: &[],
        says: "Ghost imports, members and fields go, with the comments over members and fields.",
        source: "// Counts.\nghost use Rattle.std.{ℕ};\n\ntrait Count {\n    /// Its meaning.\n    ghost meaning: { Self → ℕ };\n\n    /// Counts.\n    fn count(&self);\n}",
        result: "// Counts.\n\ntrait Count {\n    /// Counts.\n    fn count(&self);\n}",
        apply: |text| remove_kind(text, Kind::Ghost),
    },
    Rule {
        name: "tactics",
        removes: &["#[tactic($$names)]", "#![tactic($$names)]"],
        writes: &[],
        says: "Attributes that name tactics go.",
        source: "#![tactic(auto)]\n#[tactic(auto, unfolding(crate::specs::X))]\nfn f() {}",
        result: "fn f() {}",
        apply: tactics,
    },
    Rule {
        name: "laws",
        removes: &["mod laws;", "pub mod laws;", "use $of::laws::$$names;", "pub use $of::laws::$$names;", "$law();", "DOC"],
        writes: &[],
        says: "Modules of laws, imports of laws and calls of imported laws go: a law is a function that does nothing.",
        source: "use wasm_frames::laws::last;\n\n/// The laws.\npub mod laws;\n\nfn f() {\n    last();\n    g();\n}",
        result: "fn f() {\n    g();\n}",
        apply: laws,
    },
    Rule {
        name: "models",
        removes: &["use std::marker::Model;", "Model,", "impl $$of Model for $$type {}", "COMMENT"],
        writes: &[],
        says: "Implementations of `Model`, which have only ghost members, go with the imports of the trait.",
        source: "use std::marker::{Model, PhantomData};\n\nimpl<'a, T> Model for List<'a, T> {}\n\nstruct S;",
        result: "use std::marker::{PhantomData};\n\nstruct S;",
        apply: models,
    },
    Rule {
        name: "drops",
        removes: &[
            "#[derive(Drop)]",
            ", Drop",
            "Drop,",
            "+ Drop",
            "Drop +",
            ": Drop",
            "impl $$of Drop for $$type { fn drop(self) { let $name { $$fields } = self; } }",
            "impl $$of Drop for $$type { fn drop(self) { let $name($$fields) = self; } }",
            "COMMENT",
        ],
        writes: &[],
        says: "Implementations of `Drop` that only take a value apart, derives of it, and bounds by it go: in Rust every value can be dropped.",
        source: "#[derive(Debug, Drop)]\nstruct S<T: Drop + Copy, U: Drop>(T, U);\n\n// By hand.\nimpl Drop for S {\n    fn drop(self) { let S(_, _) = self; }\n}\n\ntrait X: Sized + Drop {}",
        result: "#[derive(Debug)]\nstruct S<T: Copy, U>(T, U);\n\ntrait X: Sized {}",
        apply: drops,
    },
    Rule {
        name: "labels",
        removes: &["LIFETIME:"],
        writes: &[],
        says: "Labels of loops that no `break` or `continue` names go: proofs name loops by them.",
        source: "'a: for x in y { f(x) }\n'b: loop { break 'b; }",
        result: "for x in y { f(x) }\n'b: loop { break 'b; }",
        apply: labels,
    },
    Rule {
        name: "final",
        removes: &["final"],
        writes: &[],
        says: "`final` goes from functions of traits: it says that no type has another body.",
        source: "trait Tree { final fn nothing(&self) {} }",
        result: "trait Tree { fn nothing(&self) {} }",
        apply: |text| rewrite(text, &[("final fn", "fn")]),
    },
];

// Removes all tokens of a kind. A ghost member takes the comments over it along.
fn remove_kind(text: &mut Text, kind: Kind) -> Result<(), Fault> {
    let mut at = text.live.len();
    while at > 0 {
        at -= 1;
        if text.live[at].kind == kind {
            let is_member = kind == Kind::Ghost && !text.at(at).starts_with("ghost use");
            let start = if is_member { text.item_start(at) } else { at };
            text.remove(start..at + 1);
            at = start;
        }
    }
    Ok(())
}

fn tactics(text: &mut Text) -> Result<(), Fault> {
    rewrite(text, &[("#![tactic($$names)]", ""), ("#[tactic($$names)]", "")])
}

fn laws(text: &mut Text) -> Result<(), Fault> {
    remove_items(text, "mod laws;")?;
    let import = Pattern::new("use $crate::laws::$$names;");
    while let Some((at, found)) = text.find(&import, 0) {
        let names: Vec<String> = text.live[found.of("names")].iter().filter(|token| token.kind == Kind::Word).map(|token| token.text.clone()).collect();
        let start = if at > 0 && text.is(at - 1, "pub") { at - 1 } else { at };
        text.remove(text.item_start(start)..found.end);
        for name in names {
            text.rewrite(&format!("{name}();"), "");
        }
    }
    Ok(())
}

// Removes the items that a pattern matches, with `pub` and what is over them.
fn remove_items(text: &mut Text, pattern: &str) -> Result<(), Fault> {
    let pattern = Pattern::new(pattern);
    while let Some((at, found)) = text.find(&pattern, 0) {
        let start = if at > 0 && text.is(at - 1, "pub") { at - 1 } else { at };
        text.remove(text.item_start(start)..found.end);
    }
    Ok(())
}

fn models(text: &mut Text) -> Result<(), Fault> {
    rewrite(text, &[("use std::marker::Model;", ""), ("std::marker::{Model, $$others}", "std::marker::{$$others}")])?;
    remove_items(text, "impl $$parameters Model for $$type {}")
}

fn drops(text: &mut Text) -> Result<(), Fault> {
    remove_items(text, "impl $$parameters Drop for $$type { fn drop(self) { let $name { $$fields } = self; } }")?;
    remove_items(text, "impl $$parameters Drop for $$type { fn drop(self) { let $name ( $$fields ) = self; } }")?;
    rewrite(
        text,
        &[
            ("#[derive(Drop)]", ""),
            ("#[derive($$before, Drop $$after)]", "#[derive($$before $$after)]"),
            ("#[derive(Drop, $$after)]", "#[derive($$after)]"),
            (": Drop +", ":"),
            ("+ Drop", ""),
            (": Drop,", ","),
            (": Drop>", ">"),
            (": Drop {", " {"),
        ],
    )
}

fn labels(text: &mut Text) -> Result<(), Fault> {
    let mut at = 0;
    while at < text.live.len() {
        let is_label = text.live[at].kind == Kind::Lifetime && text.is(at + 1, ":") && ["for", "while", "loop"].contains(&text.at(at + 2));
        if is_label && !is_named(text, at)? {
            text.remove(at..at + 2);
        }
        at += 1;
    }
    Ok(())
}

// Whether the loop with the label at this place names it.
fn is_named(text: &Text, label: usize) -> Result<bool, Fault> {
    let mut open = label;
    while !["{", ""].contains(&text.at(open)) {
        open = if ["(", "["].contains(&text.at(open)) { text.closing(open)? } else { open } + 1;
    }
    let body = open..text.closing(open)?;
    Ok(text.live[body].iter().any(|token| token.text == text.live[label].text))
}
