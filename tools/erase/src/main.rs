//! Writes crates of a checkout as modules of one crate: `erase CHECKOUT FOLDER LIBRARY CRATE..`, the modules of
//! the crate `pulleynavy`: `erase --crate CHECKOUT FOLDER`, or `erase --rules` for the rules.
use erase::crates::{Erased, Sources};
use std::path::Path;
use std::process::ExitCode;

fn main() -> ExitCode {
    let words: Vec<String> = std::env::args().skip(1).collect();
    match &words[..] {
        [flag] if flag == "--rules" => {
            for rule in erase::rules::rules() {
                println!("{}: {}", rule.name, rule.says);
            }
            ExitCode::SUCCESS
        }
        [flag, top, folder] if flag == "--crate" => ended(erase::library::write(Path::new(top), Path::new(folder))),
        [top, folder, library, crates @ ..] if !crates.is_empty() => ended(run(Path::new(top), Path::new(folder), library, crates)),
        _ => {
            eprintln!("usage: erase --rules\n       erase --crate CHECKOUT FOLDER\n       erase CHECKOUT FOLDER LIBRARY CRATE..");
            ExitCode::from(2)
        }
    }
}

fn run(top: &Path, folder: &Path, library: &str, crates: &[String]) -> Result<(), String> {
    let sources = Sources::new(top).map_err(|fault| fault.to_string())?;
    let mut erased = Erased::default();
    for name in crates {
        sources.erase(name, "crate", library, &mut erased).map_err(|fault| fault.to_string())?;
    }
    erased.write(folder).map_err(|error| error.to_string())?;
    for (rule, (removed, written)) in &erased.counts {
        println!("{rule}: removed {removed} and wrote {written} tokens");
    }
    Ok(())
}

fn ended(result: Result<(), String>) -> ExitCode {
    match result {
        Ok(()) => ExitCode::SUCCESS,
        Err(why) => {
            eprintln!("erase: {why}");
            ExitCode::FAILURE
        }
    }
}
