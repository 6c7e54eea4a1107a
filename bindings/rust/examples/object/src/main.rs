//! Prints what the crate `object` reads of modules. Each line of standard input is one, in hexadecimal; an empty line ends what it prints of each.
use std::io::{self, BufRead, BufWriter, Write};

use object::read::wasm::WasmFile;
use object::{Object, ObjectSection, ObjectSymbol};

/// A name in double quotes. A quote, a backslash, and a byte outside 32 to 126 are a backslash and two hexadecimal digits.
fn quoted(name: &[u8]) -> String {
    let escaped = |byte: &u8| match byte {
        b'"' | b'\\' | ..=31 | 127.. => format!("\\{byte:02x}"),
        _ => char::from(*byte).to_string(),
    };
    format!("\"{}\"", name.iter().map(escaped).collect::<String>())
}

/// Prints what is read of a module, or why nothing is.
fn print(module: &[u8], out: &mut impl Write) -> io::Result<()> {
    let file: WasmFile = match WasmFile::parse(module) {
        Ok(file) => file,
        Err(error) => return writeln!(out, "error {error}"),
    };
    let segments = file.segments().count();
    writeln!(out, "file {:?} entry={} debug={} segments={segments}", file.architecture(), file.entry(), file.has_debug_symbols())?;
    for section in file.sections() {
        let (start, end) = section.file_range().unwrap_or_default();
        let data = section.data().map_err(io::Error::other)?;
        let name = quoted(section.name_bytes().map_err(io::Error::other)?);
        writeln!(out, "section {} {:?} {start}..{end} bytes={} {name}", section.index().0, section.kind(), data.len())?;
    }
    for symbol in file.symbols() {
        let name = quoted(symbol.name_bytes().map_err(io::Error::other)?);
        let (kind, place, scope) = (symbol.kind(), symbol.section(), symbol.scope());
        writeln!(out, "symbol {kind:?} {place:?} {scope:?} weak={} {}+{} {name}", symbol.is_weak(), symbol.address(), symbol.size())?;
    }
    Ok(())
}

fn main() -> io::Result<()> {
    let mut out = BufWriter::new(io::stdout().lock());
    for line in io::stdin().lock().lines() {
        let digits = line?.into_bytes();
        let byte = |pair: &[u8]| u8::from_str_radix(std::str::from_utf8(pair).ok()?, 16).ok();
        let module: Option<Vec<u8>> = digits.chunks(2).map(byte).collect();
        print(&module.ok_or(io::ErrorKind::InvalidInput)?, &mut out)?;
        writeln!(out)?;
    }
    out.flush()
}
