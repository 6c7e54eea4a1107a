//! Writes each import and each export of the module on standard input as a line of JSON, and last the error, if there is one.
use pulleynavy::{Error, Parser, Payload};
use std::io::{self, Read};

fn lines(module: &[u8]) -> Result<(), Error> {
    let line = |value: serde_json::Result<String>| println!("{}", value.expect("these values have keys that are texts"));
    for payload in Parser::new(0).parse_all(module) {
        match payload? {
            Payload::ImportSection(section) => {
                for import in section.into_imports() {
                    line(serde_json::to_string(&import?));
                }
            }
            Payload::ExportSection(section) => {
                for export in section {
                    line(serde_json::to_string(&export?));
                }
            }
            _ => {}
        }
    }
    Ok(())
}

fn main() -> io::Result<()> {
    let mut module = Vec::new();
    io::stdin().read_to_end(&mut module)?;
    if let Err(error) = lines(&module) {
        println!("{}", serde_json::to_string(&error)?);
    }
    Ok(())
}
