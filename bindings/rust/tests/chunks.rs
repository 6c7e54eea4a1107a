//! Chunked input: the events are those of the complete input.
mod common;

use common::*;
use pulleynavy::*;

/// Complete streams and malformed ones.
const STREAMS: [&str; 34] = [
    "",
    "00",
    "00 61 73 6d",
    "00 61 73 6d 01 01 01 01",
    "M",
    "M 00 01 00",
    "M 01 00",
    "M 00 01 01",
    "M 01 01 01 02 03 04",
    "M 01 01 00 01 01",
    "M 00 61 73",
    "M 00 61 73 6d",
    "M 03 02 01 00 0a 04 01 02 00 0b",
    "M 03 02 01 00 0a 01 01 00",
    "M 03 02 01 00",
    "M 0c 01 01 0b 02 02 00",
    "M 02 0e 01 01 6d 00 7f 02 01 61 00 03 01 62 00 04",
    "00 61 73 6d 0d 00 01 00 01 01 00",
    "M 00 02 01 61",
    "M 08 02 01 01",
    "M 08 00",
    "M 0a 01 00",
    "M 03 02 01 00 0a 03 01 00 00",
    "M 03 02 02 00 0a 02 02 00 00",
    "M 00 01 00 01 01 00 00 02 01 61",
    "M 0e 01 ff",
    "M 00 82 80 80 80 00 01 61",
    "M 00 03 a1 8d 06",
    "M 00 80 80 80 80 10",
    "M 80 00",
    "M 08 01 01 03 01 00",
    "M 0a 02 01 00",
    "M 03 02 01 00 0a 02 01 05",
    "M 03 02 01 00 0a ff ff ff ff 0f 01 ff ff ff ff 0f",
];

/// A stream of a function section and a code section with one body, 18 bytes.
const BODY: &str = "M 03 02 01 00 0a 04 01 02 00 0b";

/// What a parser returns that gets the next chunk whenever it requests more: the lines of its events and of its requests.
fn outcomes(offset: u64, chunks: &[&[u8]]) -> Vec<String> {
    let (mut parser, mut held, mut lines) = (Parser::new(offset), Vec::new(), vec![]);
    let mut chunks = chunks.iter();
    let mut is_all = false;
    loop {
        let result = parser.parse(&held, is_all);
        let consumed = if let Ok(Chunk::Parsed { consumed, .. }) = &result { *consumed } else { 0 };
        let line = outcome(result);
        let (is_last, is_request) = (line.starts_with("end") || line.starts_with("fault"), line.starts_with("need"));
        lines.push(line);
        if is_last {
            return lines;
        }
        held.drain(..consumed);
        if is_request {
            assert!(!is_all);
            let chunk = chunks.next();
            is_all = chunk.is_none();
            held.extend_from_slice(chunk.unwrap_or(&&[][..]));
        }
    }
}

/// The events alone.
fn fed(offset: u64, chunks: &[&[u8]]) -> Vec<String> {
    outcomes(offset, chunks).into_iter().filter(|line| !line.starts_with("need")).collect()
}

#[test]
fn chunks_of_any_size() {
    for text in STREAMS {
        let stream = bytes(text);
        for size in 1..=stream.len().max(1) {
            assert_eq!(fed(0, &stream.chunks(size).collect::<Vec<_>>()), events(&stream), "{text} by {size}");
        }
    }
}

#[test]
fn golden_streams_in_chunks() {
    for (stream, lines) in golden() {
        let whole: Vec<_> = lines.into_iter().filter(|line| !line.starts_with(' ')).collect();
        for size in [1, 7, 100] {
            assert_eq!(fed(0, &stream.chunks(size).collect::<Vec<_>>()), whole, "{} by {size}", hex(&stream));
        }
    }
}

#[test]
fn empty_chunks_change_nothing() {
    for text in STREAMS {
        let stream = bytes(text);
        let chunks: Vec<&[u8]> = stream.chunks(1).flat_map(|chunk| [&[][..], chunk, &[]]).collect();
        assert_eq!(fed(0, &chunks), events(&stream), "{text}");
    }
}

#[test]
fn requests_byte_by_byte() {
    let stream = bytes(BODY);
    let outcomes = outcomes(0, &stream[..12].chunks(1).collect::<Vec<_>>());
    let hints: Vec<_> = outcomes.iter().filter_map(|line| line.strip_prefix("need ")).take(12).collect();
    assert_eq!(hints, ["4", "3", "2", "1", "4", "3", "2", "1", "1", "1", "2", "1"]);
}

#[test]
fn chunks_of_five_bytes() {
    let stream = bytes(BODY);
    let lines = ["need 4", "need 3", "version 0 8 1 module", "need 2", "section 3 10 12 1", "code 14 18 1 3", "need 1", "body 16 18", "need 1", "end 18"];
    assert_eq!(outcomes(0, &stream.chunks(5).collect::<Vec<_>>()), lines);
}

/// The kind of an event with its place from the start of the stream.
fn places(offset: u64, stream: &[u8]) -> Vec<(u64, u64, String)> {
    let place = |payload: Payload<'_>| {
        let range = match &payload {
            Payload::Version { range, .. } => range.clone(),
            Payload::CodeSectionEntry(body) => body.range(),
            Payload::End(at) => *at..*at,
            section => section.as_section().unwrap().1,
        };
        (range.start - offset, range.end - offset, format!("{payload:?}").split([' ', '(']).next().unwrap().to_owned())
    };
    let fault = |error: Error| (error.offset() - offset, 0, format!("{} {:?}", error.fault().message(), error.number()));
    Parser::new(offset).parse_all(stream).map(|payload| payload.map_or_else(fault, place)).collect()
}

#[test]
fn offsets_count_from_the_start_of_the_whole_stream() {
    for text in STREAMS {
        let stream = bytes(text);
        for offset in [1, 1000, 1 << 40, u64::MAX - (1 << 33)] {
            assert_eq!(places(offset, &stream), places(0, &stream), "{text} at {offset}");
        }
    }
}

/// A copy of a parser continues from where it was made.
#[test]
fn copies_are_checkpoints() {
    for text in STREAMS {
        let stream = bytes(text);
        let (mut parser, mut rest, whole) = (Parser::new(0), &stream[..], events(&stream));
        for passed in 0..whole.len() {
            let left: Vec<_> = parser.clone().parse_all(rest).map(|payload| text_of(payload, |payload| event(&payload))).collect();
            assert_eq!(left, whole[passed..], "{text}");
            if let Ok(Chunk::Parsed { consumed, .. }) = parser.parse(rest, true) {
                rest = &rest[consumed..];
            }
        }
    }
}

/// Appending bytes never changes what a parser has returned.
#[test]
fn more_bytes_change_no_outcome() {
    for text in STREAMS {
        let stream = bytes(text);
        for cut in 0..=stream.len() {
            let (mut parser, mut at) = (Parser::new(0), 0);
            loop {
                let mut copies = [parser.clone(), parser.clone()];
                let result = parser.parse(&stream[at..cut], false);
                let consumed = if let Ok(Chunk::Parsed { consumed, .. }) = &result { *consumed } else { 0 };
                let line = outcome(result);
                if line.starts_with("need") {
                    break;
                }
                for (copy, eof) in copies.iter_mut().zip([false, true]) {
                    assert_eq!(outcome(copy.parse(&stream[at..], eof)), line, "{text} to {cut}");
                }
                if line.starts_with("fault") {
                    break;
                }
                at += consumed;
            }
        }
    }
}
