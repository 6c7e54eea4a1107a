//! Writes the proved sources as modules of this crate.
use erase::crates::{Erased, Sources};
use std::path::{Path, PathBuf};
use std::{env, fs};

/// The crate of the C library, whose exports rustc would not make safe.
const LEFT_OUT: [&str; 1] = ["wasm_c"];

/// The crates that only tests use.
fn is_for_tests(name: &str) -> bool {
    name.ends_with("_tests") || name == "test_devices"
}

fn main() {
    let top = PathBuf::from(env::var_os("CARGO_MANIFEST_DIR").expect("cargo sets it"));
    let out = PathBuf::from(env::var_os("OUT_DIR").expect("cargo sets it"));
    println!("cargo::rerun-if-changed=tools/cargo/build.rs");
    if let Err(why) = written(&top, &out) {
        println!("cargo::error={why}");
    }
}

fn written(top: &Path, out: &Path) -> Result<(), String> {
    let sources = Sources::new(top).map_err(|fault| fault.to_string())?;
    let mut erased = Erased::default();
    let mut modules = String::from("pub mod bitflags;\npub mod std;\n");
    println!("cargo::rerun-if-changed=crates.txt");
    for name in sources.names().filter(|name| !LEFT_OUT.contains(name)) {
        println!("cargo::rerun-if-changed={}", sources.folder(name).display());
        sources.erase(name, "crate", "pulleynavy_program", &mut erased).map_err(|fault| fault.to_string())?;
        let tests = if is_for_tests(name) { "#[cfg(test)]\n" } else { "" };
        modules += &format!("{tests}pub mod {};\n", erase::rules::module_of(name));
    }
    let result = erased.write(out).and_then(|()| erase::crates::write_std(out)).and_then(|()| fs::write(out.join("modules.rs"), modules));
    result.map_err(|error| format!("{}: {error}", out.display()))
}
