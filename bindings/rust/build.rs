//! Writes the proved sources of a checkout as modules of this crate. A package has them as files, and no build script.
use std::env;
use std::path::{Path, PathBuf};

fn main() {
    let of = |name: &str| PathBuf::from(env::var_os(name).expect("cargo sets it"));
    let top = of("CARGO_MANIFEST_DIR").join("../..");
    for name in erase::library::crates() {
        println!("cargo::rerun-if-changed={}", top.join("crates").join(name).join("src").display());
    }
    println!("cargo::rerun-if-changed=build.rs");
    if let Err(why) = erase::library::write(&top, &of("OUT_DIR").join(Path::new("proved"))) {
        println!("cargo::error={why}");
    }
}
