//! What `parse` returns after a prefix of a stream, and the events of complete streams.
mod common;

use common::*;
use pulleynavy::*;

/// A parser of a stream that begins at this offset, after it has consumed these bytes, which are complete parts.
fn parser_after(offset: u64, front: &[u8]) -> Parser {
    let (mut parser, mut rest) = (Parser::new(offset), front);
    while !rest.is_empty() {
        let Chunk::Parsed { consumed, .. } = parser.parse(rest, true).unwrap() else { panic!() };
        rest = &rest[consumed..];
    }
    parser
}

/// What `parse` returns after a prefix. After a request or a fault the parser is unchanged, and returns the same again.
fn ask(offset: u64, front: &str, data: &str, eof: bool) -> String {
    let (mut parser, data) = (parser_after(offset, &bytes(front)), bytes(data));
    let before = format!("{parser:?}");
    let text = outcome(parser.parse(&data, eof));
    if text.starts_with("need") || text.starts_with("fault") {
        assert_eq!(format!("{parser:?}"), before);
        assert_eq!(outcome(parser.parse(&data, eof)), text);
    }
    text
}

/// Rows of a prefix, data, whether the data is the rest of the stream, and the outcome.
fn agree(rows: &[(&str, &str, bool, &str)]) {
    for (front, data, eof, text) in rows {
        assert_eq!(ask(0, front, data, *eof), *text, "{front}, {data}, {eof}");
    }
}

/// A function section with a count of 1, after which a code section of one body of 2 bytes follows.
const FUNCTION: &str = "M 03 02 01 00";
const HEAD: &str = "M 03 02 01 00 0a 04 01";
const WHOLE: &str = "M 03 02 01 00 0a 04 01 02 00 0b";

#[test]
fn headers() {
    agree(&[
        ("", "", false, "need 4"),
        ("", "", true, "fault 0 unexpected end-of-file"),
        ("", "00", false, "need 3"),
        ("", "00 61 73 6d", false, "need 4"),
        ("", "00 61 73 6d", true, "fault 4 unexpected end-of-file"),
        ("", "00 61 73 6d 01 01 01 01", false, "fault 4 unknown binary version: 16843009"),
        ("", "00 00 00 00", false, "fault 0 magic header not detected: bad magic number"),
        ("", "M", false, "version 0 8 1 module"),
        ("", "00 61 73 6d 0d 00 01 00", false, "version 0 8 13 component"),
    ]);
}

#[test]
fn section_starts() {
    agree(&[
        ("M", "", false, "need 1"),
        ("M", "", true, "end 8"),
        ("M", "00", false, "need 3"),
        ("M", "00 61 73", false, "need 1"),
        ("M", "00 61 73 6d", false, "fault 8 expected section, got wasm magic number"),
        ("M", "80", false, "fault 8 malformed section id"),
        ("M", "01", false, "need 1"),
        ("M", "01", true, "fault 9 unexpected end-of-file"),
        ("M", "01 02", false, "need 2"),
        ("M", "01 02", true, "fault 10 unexpected end-of-file"),
        ("M 01 01 00", "01 01", false, "fault 13 section out of order"),
    ]);
}

#[test]
fn contents() {
    agree(&[
        ("M", "00 01 00", false, "custom 10 11 11"),
        ("M", "01 00", false, "fault 10 unexpected end-of-file"),
        ("M", "00 01 01", false, "fault 11 unexpected end-of-file"),
        ("M", "01 01 01 02 03 04", false, "section 1 10 11 1"),
        ("M", "08 02", false, "need 2"),
        ("M", "08 01 01", false, "start 10 11 1"),
        ("M", "08 02 01 01", false, "fault 11 unexpected content in the start section"),
        ("M", "08 00", false, "fault 10 unexpected end-of-file"),
        ("M", "0c 02 01 01", false, "fault 11 unexpected content in the data count section"),
    ]);
}

#[test]
fn code_sections() {
    agree(&[
        ("M", "0a 00", false, "need 1"),
        ("M", "0a 01 00", false, "code 10 11 0 0"),
        ("M 0a 01 00", "", true, "end 11"),
        (FUNCTION, "0a ff ff ff ff 0f 01", false, "code 18 4294967313 1 4294967294"),
        ("M 03 02 01 00 0a 01 01", "00", false, "fault 15 unexpected end-of-file"),
        ("M 03 02 01 00 0a 03 01", "00", false, "body 16 16"),
        // Trailing bytes of the section, a fault whatever follows.
        ("M 03 02 01 00 0a 03 01 00", "00", false, "fault 16 trailing bytes at end of section"),
        ("M 03 02 01 00 0a 03 01 00", "", false, "fault 16 trailing bytes at end of section"),
        ("M 03 02 02 00 0a 02 02", "00", false, "body 16 16"),
        ("M 03 02 02 00 0a 02 02 00", "", false, "need 1"),
        ("M 03 02 02 00 0a 02 02 00", "00", false, "fault 16 unexpected end-of-file"),
        (HEAD, "", false, "need 1"),
        (HEAD, "02", false, "need 2"),
        (HEAD, "02 00", false, "need 1"),
        (HEAD, "02 00 0b", false, "body 16 18"),
    ]);
}

#[test]
fn a_body_past_its_section_is_refused_when_its_size_is_read() {
    agree(&[
        ("M 03 02 01 00 0a 02 01", "05", false, "fault 15 unexpected end-of-file"),
        ("M 03 02 01 00 0a 02 01", "05", true, "fault 15 unexpected end-of-file"),
        ("M 03 02 01 00 0a ff ff ff ff 0f 01", "ff ff ff ff 0f", false, "fault 19 unexpected end-of-file"),
        ("M 03 02 01 00 0a 04 01", "02", false, "need 2"),
        ("M 03 02 01 00 0a 01 01", "", false, "need 1"),
        ("M 03 02 01 00 0a 01 01", "00", false, "fault 15 unexpected end-of-file"),
    ]);
}

#[test]
fn great_offsets() {
    for (offset, data, eof, text) in [
        (u64::MAX - 15, "00 05", false, "need 5"),
        (u64::MAX - 15, "00 06", false, "fault 18446744073709551609 section too large: 6"),
        (u64::MAX - 8, "00", true, "fault 18446744073709551615 data passes the offset range"),
        (u64::MAX - 8, "", true, "end 18446744073709551615"),
    ] {
        assert_eq!(ask(offset, "M", data, eof), text);
    }
}

/// A parser requests bytes only if those so far do not decide: after each request two suffixes have different outcomes.
#[test]
fn each_request_has_two_suffixes() {
    let (version, body) = ("version 0 8 1 module", "body 16 18");
    for (front, data, endings) in [
        ("", "", [("M", version), ("00 00 00 00", "fault 0 magic header not detected: bad magic number")]),
        ("", "00 61 73 6d", [("01 00 00 00", version), ("", "fault 4 unexpected end-of-file")]),
        ("M", "", [("", "end 8"), ("80", "fault 8 malformed section id")]),
        ("M", "00", [("61 73 6d", "fault 8 expected section, got wasm magic number"), ("01 00", "custom 10 11 11")]),
        ("M", "01", [("", "fault 9 unexpected end-of-file"), ("01 00", "section 1 10 11 0")]),
        ("M", "01 02", [("", "fault 10 unexpected end-of-file"), ("00 00", "section 1 10 12 0")]),
        ("M", "0a 01", [("", "fault 10 unexpected end-of-file"), ("00", "code 10 11 0 0")]),
        (HEAD, "", [("", "fault 15 unexpected end-of-file"), ("02 00 0b", body)]),
        (HEAD, "02", [("", "fault 16 unexpected end-of-file"), ("00 0b", body)]),
    ] {
        assert!(ask(0, front, data, false).starts_with("need"));
        for (ending, text) in endings {
            assert_eq!(ask(0, front, &format!("{data}{ending}"), true), text);
        }
    }
}

/// Of two faults the first of these is returned: a magic, an id, a size, the end of the offset range, an order, missing bytes, and those of
/// the content.
#[test]
fn of_two_faults_the_first_is_returned() {
    agree(&[
        ("M", "80 80 80 80 80 80", true, "fault 8 malformed section id"),
        ("M 01 01 00", "01 80 80 80 80 10", true, "fault 16 invalid var_u32: integer too large"),
        ("M 01 01 00", "01 80", true, "fault 13 unexpected end-of-file"),
        ("M 01 01 00", "01 02 00", true, "fault 13 section out of order"),
        ("M 01 01 00", "01 00", true, "fault 13 section out of order"),
        ("M", "01 02 80", true, "fault 10 unexpected end-of-file"),
        ("M", "00 02 a1 8d", true, "fault 12 unexpected end-of-file"),
        // A count that overruns its section, and one that differs from the function section's.
        (FUNCTION, "0a 00 02", true, "fault 14 unexpected end-of-file"),
        (FUNCTION, "0a 05 02", true, "fault 14 function and code section have inconsistent lengths"),
        // At the end both counts have no section.
        ("M 03 02 01 00 0c 01 01", "", true, "fault 15 function section has non-zero count but code section is absent"),
        // A body's size is read before it is compared with the end of its section.
        ("M 03 02 01 00 0a 02 01", "80 80 80 80 80", true, "fault 19 invalid var_u32: integer representation too long"),
        ("M 03 02 01 00 0a 01 01", "80", true, "fault 16 unexpected end-of-file"),
    ]);
    assert_eq!(ask(u64::MAX - 15, "M 01 01 00", "01 0a", true), "fault 18446744073709551612 section too large: 10");
}

#[test]
fn whole_streams() {
    for (stream, last) in STREAMS {
        let lines = events(&bytes(stream));
        assert!(lines.ends_with(&last.map(str::to_owned)), "{stream}: {lines:?}");
    }
}

/// Streams with their last two lines.
const STREAMS: [(&str, [&str; 2]); 30] = [
    ("M", ["version 0 8 1 module", "end 8"]),
    ("00 61 73 6d 0d 00 01 00 01 01 00", ["unknown 1 10 11", "end 11"]),
    ("M 0e 01 ff", ["unknown 14 10 11", "end 11"]),
    ("M 00 02 01 61", ["custom 10 12 12", "end 12"]),
    ("M 00 82 80 80 80 00 01 61", ["custom 14 16 16", "end 16"]),
    ("M 00 00", ["version 0 8 1 module", "fault 10 unexpected end-of-file"]),
    ("M 00 03 a1 8d 06", ["version 0 8 1 module", "fault 12 string size out of bounds"]),
    ("M 00 03 a0 8d 06", ["version 0 8 1 module", "fault 13 unexpected end-of-file"]),
    ("M 00 80 80 80 80 10", ["version 0 8 1 module", "fault 13 invalid var_u32: integer too large"]),
    ("M 00 80 80 80 80 80", ["version 0 8 1 module", "fault 13 invalid var_u32: integer representation too long"]),
    ("M 80 00", ["version 0 8 1 module", "fault 8 malformed section id"]),
    ("M 00 61 73", ["version 0 8 1 module", "fault 10 unexpected end-of-file"]),
    ("M 00 61 73 6d", ["version 0 8 1 module", "fault 8 expected section, got wasm magic number"]),
    ("M 03 02 01 00", ["section 3 10 12 1", "fault 12 function section has non-zero count but code section is absent"]),
    ("M 03 01 00", ["section 3 10 11 0", "end 11"]),
    ("M 0c 01 00", ["datacount 10 11 0", "end 11"]),
    ("M 0c 01 01", ["datacount 10 11 1", "fault 11 data count is non-zero but data section is absent"]),
    ("M 08 01 01 03 01 00", ["start 10 11 1", "fault 13 section out of order"]),
    ("M 08 02 01 01", ["version 0 8 1 module", "fault 11 unexpected content in the start section"]),
    ("M 01 01 00 01 01", ["section 1 10 11 0", "fault 13 section out of order"]),
    ("M 0a 02 80 00", ["code 10 12 0 0", "end 12"]),
    ("M 0a 00 00", ["version 0 8 1 module", "fault 10 unexpected end-of-file"]),
    ("M 0a 02 01 00", ["version 0 8 1 module", "fault 10 function section is absent but code section has non-zero count"]),
    ("M 03 02 01 00 0a 01 00", ["section 3 10 12 1", "fault 14 function and code section have inconsistent lengths"]),
    ("M 03 02 01 00 0a 01 01 00", ["code 14 15 1 0", "fault 15 unexpected end-of-file"]),
    ("M 03 02 01 00 0a 03 01 00 00", ["body 16 16", "fault 16 trailing bytes at end of section"]),
    ("M 03 02 02 00 0a 02 02 00", ["body 16 16", "fault 16 unexpected end-of-file"]),
    ("M 0b 01 00", ["section 11 10 11 0", "end 11"]),
    ("M 0c 01 01 0b 02 02 00", ["datacount 10 11 1", "fault 15 data count and data section have inconsistent lengths"]),
    (WHOLE, ["body 16 18", "end 18"]),
];

#[test]
fn a_stream_with_a_body() {
    let lines = ["version 0 8 1 module", "section 3 10 12 1", "code 14 18 1 3", "body 16 18", "end 18"];
    assert_eq!(events(&bytes(WHOLE)), lines);
    let sections: Vec<_> = Parser::new(0).parse_all(&bytes(WHOLE)).filter_map(|payload| payload.unwrap().as_section()).collect();
    assert_eq!(sections, [(3, 10..12), (10, 14..18)]);
}

/// The bytes of a custom section and of an unknown one.
#[test]
fn contents_are_given() {
    let (module, component) = (bytes("M 00 01 00"), bytes("00 61 73 6d 0d 00 01 00 01 01 00"));
    let Some(Ok(Payload::CustomSection(section))) = Parser::new(0).parse_all(&module).nth(1) else { panic!() };
    assert_eq!((section.name(), section.data_offset(), section.range()), ("", 11, 10..11));
    let Some(Ok(Payload::UnknownSection { id, contents, range })) = Parser::new(0).parse_all(&component).nth(1) else { panic!() };
    assert_eq!((id, contents, range), (1, &[0][..], 10..11));
}

#[test]
fn a_code_section_is_skipped() {
    let end = |parser: &mut Parser| outcome(parser.parse(&[], true));
    let mut parser = parser_after(0, &bytes(HEAD));
    assert_eq!((parser.offset(), parser.skippable()), (15, Some(3)));
    // After a request or a fault the parser is still in the section.
    for (data, eof) in [(&[2][..], false), (&[5], true)] {
        assert!(!outcome(parser.parse(data, eof)).starts_with("body"));
        assert_eq!((parser.offset(), parser.skippable()), (15, Some(3)));
    }
    let checkpoint = parser.clone();
    parser.skip_section();
    assert_eq!((parser.offset(), end(&mut parser).as_str()), (18, "end 18"));
    assert_eq!((checkpoint.offset(), outcome(checkpoint.clone().parse(&[2, 0, 11], false)).as_str()), (15, "body 16 18"));
    let mut parser = parser_after(0, &bytes(WHOLE));
    assert_eq!(parser.skippable(), Some(0));
    assert_eq!(end(&mut parser), "end 18");
    assert_eq!(parser.skippable(), None);
}

/// After the end `parse` returns the end again, and after a fault the same fault. `parse_all` ends with the first of either.
/// The content of a part that is skipped, its first fields, and where the parser is then.
fn skipped<'a>(parser: &mut Parser, bytes: &'a [u8]) -> Option<(std::ops::Range<u64>, PartHead<'a>, u64)> {
    let part = parser.skip_part(bytes)?;
    Some((part.range, part.head, parser.offset()))
}

#[test]
fn parts_that_are_skipped() {
    let mut parser = Parser::new(100);
    parser.parse(b"\0asm\x01\0\0\0", false).unwrap();
    assert_eq!(skipped(&mut parser, b"\0\x09\x04na"), None);
    let custom = PartHead::Custom { name: "name", data_offset: 115 };
    assert_eq!(skipped(&mut parser, b"\0\x09\x04name\xff"), Some((110..119, custom, 119)));
    assert_eq!(skipped(&mut parser, b"\x7f\xc8\x01"), Some((122..322, PartHead::Unknown { id: 0x7f }, 322)));
    assert_eq!(skipped(&mut parser, b"\x03\x02\x01"), Some((324..326, PartHead::Items { id: 3, count: 1 }, 326)));
    assert_eq!(skipped(&mut parser, b"\x0a\x04\x01"), None);
    parser.parse(b"\x0a\x04\x01", false).unwrap();
    assert_eq!(skipped(&mut parser, b"\x02"), Some((330..332, PartHead::Body, 332)));
    assert!(matches!(parser.parse(b"", true), Ok(Chunk::Parsed { consumed: 0, payload: Payload::End(332) })));
}

#[test]
fn what_comes_last_comes_again() {
    for text in ["M", WHOLE, FUNCTION] {
        let stream = bytes(text);
        let mut parser = parser_after(0, &stream);
        let first = outcome(parser.parse(&[], true));
        assert_eq!(outcome(parser.parse(&[], true)), first);
        let mut walk = Parser::new(0).parse_all(&stream);
        assert_eq!(text_of(walk.by_ref().last().unwrap(), |payload| event(&payload)), first);
        assert!((0..3).all(|_| walk.next().is_none()));
    }
}

#[test]
fn headers_are_known() {
    for (digits, is_module, is_component) in [
        ("M", true, false),
        ("M 00", true, false),
        ("00 61 73 6d 0d 00 01 00", false, true),
        ("00 61 73 6d 01 00 01 00", false, false),
        ("00 61 73 6d 01 00 00", false, false),
        ("", false, false),
    ] {
        let stream = bytes(digits);
        assert_eq!((Parser::is_core_wasm(&stream), Parser::is_component(&stream)), (is_module, is_component), "{digits}");
    }
}

#[test]
fn payloads_have_short_debug_texts() {
    let text = |stream: &str| {
        let stream = bytes(stream);
        let payloads: Vec<_> = Parser::new(0).parse_all(&stream).map(|payload| format!("{:?}", payload.unwrap())).collect();
        payloads[1..].join(" ")
    };
    for (stream, wanted) in [
        (WHOLE, "FunctionSection(\"...\") CodeSectionStart { count: 1, unchecked_range: 14..18, size: 3 } CodeSectionEntry(\"...\") End(18)"),
        ("M 01 01 00 02 01 00", "TypeSection(\"...\") ImportSection(\"...\") End(14)"),
        ("M 08 01 05 0e 01 ff", "StartSection { func: 5, range: 10..11 } UnknownSection { id: 14, range: 13..14 } End(14)"),
        ("M 0c 01 00", "DataCountSection { count: 0, range: 10..11 } End(11)"),
        ("M 00 01 00", "CustomSection(CustomSectionReader { name: \"\", data_offset: 11, data: \"...\", range: 10..11 }) End(11)"),
    ] {
        assert_eq!(text(stream), wanted);
    }
    let header = Parser::new(0).parse_all(&bytes("M")).next().unwrap().map(|payload| format!("{payload:?}"));
    assert_eq!(header.as_deref(), Ok("Version { num: 1, encoding: Module, range: 0..8 }"));
}
