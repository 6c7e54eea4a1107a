use pulleynavy::{Parser, Payload};

fn main() {
    let bytes = std::fs::read(std::env::args().nth(1).unwrap()).unwrap();
    for payload in Parser::new(0).parse_all(&bytes) {
        let (id, range, count) = match payload.unwrap() {
            Payload::ImportSection(imports) => (2, imports.range(), imports.count()),
            Payload::ExportSection(exports) => (7, exports.range(), exports.count()),
            _ => continue,
        };
        println!("section {id} {} {} {count}", range.start, range.end);
    }
}
