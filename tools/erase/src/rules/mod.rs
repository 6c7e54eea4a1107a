//! The rules, in the order in which they run.
//!
//! Each has a name, a sentence, and a source with its result, which a test compares.
mod comments;
pub(crate) mod crates;
mod ghost;
mod memory;
mod parameters;
mod programs;

use crate::Fault;
use crate::text::Text;
pub use crates::{Import, drop_imports, exported, imported, module_of};

/// What turns a form of Rattle into Rust.
pub struct Rule {
    pub name: &'static str,
    /// What it does, in a sentence.
    pub says: &'static str,
    /// What runs of tokens that it removes or writes are made of, as patterns; before `~` is what the run has to follow. `honesty::check` holds the rule to them, whatever its code does.
    pub removes: &'static [&'static str],
    pub writes: &'static [&'static str],
    /// A source and its result by this rule alone. The source is of the crate `wasm_base`.
    pub source: &'static str,
    pub result: &'static str,
    pub apply: fn(&mut Text) -> Result<(), Fault>,
}

/// The rules for every file.
pub fn rules() -> impl Iterator<Item = &'static Rule> {
    [comments::RULES, ghost::RULES, memory::RULES, programs::RULES, parameters::RULES, crates::RULES].into_iter().flatten()
}

/// Replaces each pattern by its template.
fn rewrite(text: &mut Text, forms: &[(&str, &str)]) -> Result<(), Fault> {
    for (pattern, with) in forms {
        text.rewrite(pattern, with);
    }
    Ok(())
}
