//! Times the events of the module on standard input: of each word (`parse`, `parse_all`) how many there are, the module's bytes, and the
//! nanoseconds of the fastest of the rounds of a second.
use pulleynavy::{Chunk, Parser, Payload, Result};
use std::hint::black_box;
use std::io::Read;
use std::time::{Duration, Instant};

fn parse(bytes: &[u8]) -> Result<usize> {
    let (mut parser, mut rest, mut count) = (Parser::new(0), bytes, 0);
    loop {
        let Chunk::Parsed { consumed, payload } = parser.parse(rest, true)? else { return Ok(count) };
        count += 1;
        if let Payload::End(_) = black_box(payload) {
            return Ok(count);
        }
        rest = &rest[consumed..];
    }
}

fn parse_all(bytes: &[u8]) -> Result<usize> {
    let mut count = 0;
    for payload in Parser::new(0).parse_all(bytes) {
        black_box(payload?);
        count += 1;
    }
    Ok(count)
}

fn main() -> std::result::Result<(), Box<dyn std::error::Error>> {
    let mut bytes = Vec::new();
    std::io::stdin().read_to_end(&mut bytes)?;
    for word in std::env::args().skip(1) {
        let read = if word == "parse" { parse } else { parse_all };
        let (first, mut least, mut count) = (Instant::now(), Duration::MAX, 0);
        while first.elapsed() < Duration::from_secs(1) {
            let start = Instant::now();
            count = read(&bytes).map_err(|error| error.to_string())?;
            least = least.min(start.elapsed());
        }
        println!("{word} {count} {} {}", bytes.len(), least.as_nanos());
    }
    Ok(())
}
