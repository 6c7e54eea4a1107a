//! New custom sections, and edits of the custom sections of streams.
mod common;

use common::bytes;
use pulleynavy::{Edit, Error, Fault, NewSection, Parser, Result, edit_to, encode_to};

const fn section<'a>(name: &'a str, data: &'a [u8]) -> NewSection<'a> {
    NewSection { name, data }
}

/// The edited stream, in a buffer that has just enough room for it.
fn edited(stream: &[u8], edit: Edit<'_>) -> Result<Vec<u8>> {
    let mut out = vec![0xaa; edit_to(stream, edit, &mut [])?];
    assert_eq!(edit_to(stream, edit, &mut out), Ok(out.len()));
    Ok(out)
}

/// A stream, an edit, and the edited stream or the fault.
const ROWS: [(&str, Edit<'_>, std::result::Result<&str, &str>); 14] = [
    ("M 00 02 01 61 01 01 00", Edit::Append(section("b", b"zz")), Ok("M 00 02 01 61 01 01 00 00 04 01 62 7a 7a")),
    ("M", Edit::Append(section("", b"")), Ok("M 00 01 00")),
    ("00 61 73 6d 0d 00 01 00", Edit::Append(section("α", b"")), Ok("00 61 73 6d 0d 00 01 00 00 03 02 ce b1")),
    ("M 00 02 01 61 01 01 00 00 04 01 61 78 78", Edit::Replace(section("a", b"z")), Ok("M 00 03 01 61 7a 01 01 00 00 03 01 61 7a")),
    ("M 00 82 80 00 01 61", Edit::Replace(section("a", b"")), Ok("M 00 02 01 61")),
    ("M 00 02 01 61", Edit::Replace(section("b", b"z")), Ok("M 00 02 01 61")),
    ("M 00 02 01 61 01 01 00 00 02 01 62 00 02 01 61", Edit::Remove("a"), Ok("M 01 01 00 00 02 01 62")),
    ("M 00 82 80 00 01 61", Edit::Remove("b"), Ok("M 00 82 80 00 01 61")),
    ("M 00 02 01 61 01 01 00 00 02 01 62", Edit::Keep("b"), Ok("M 01 01 00 00 02 01 62")),
    ("M 00 02 01 61", Edit::Keep(""), Ok("M")),
    ("M 00 02 01 61 00 03 02 62 63", Edit::Keep("b*"), Ok("M 00 03 02 62 63")),
    ("M 03 02 01 00", Edit::Keep("a"), Err("function section has non-zero count but code section is absent (at offset 0xc)")),
    ("", Edit::Append(section("a", b"")), Err("unexpected end-of-file (at offset 0x0)")),
    ("M 00 02 01", Edit::Remove("a"), Err("unexpected end-of-file (at offset 0xa)")),
];

#[test]
fn each_kind_of_edit() {
    for (stream, edit, wanted) in ROWS {
        let said = edited(&bytes(stream), edit).map_err(|error| error.to_string());
        assert_eq!(said, wanted.map(bytes).map_err(str::to_owned), "{stream}, {edit:?}");
    }
}

#[test]
fn without_room_nothing_is_written() {
    let stream = bytes("M 00 02 01 61");
    for size in 0..13 {
        let mut out = vec![0xaa; size];
        assert_eq!(edit_to(&stream, Edit::Replace(section("a", b"z")), &mut out), Ok(13));
        assert_eq!(out, vec![0xaa; size]);
        assert_eq!(encode_to(section("a", b"0123456789"), &mut out[..size.min(12)]), Ok(14));
        assert_eq!(out, vec![0xaa; size]);
    }
    let mut out = [0xaa; 14];
    assert_eq!(edit_to(&stream, Edit::Replace(section("a", b"z")), &mut out), Ok(13));
    assert_eq!(out[..], bytes("M 00 03 01 61 7a aa"));
}

#[test]
fn a_name_has_a_limit() {
    let (longest, longer) = ("a".repeat(100_000), "a".repeat(100_001));
    let error = Error::new(Fault::SectionTooLarge, 0);
    assert_eq!(encode_to(section(&longest, b""), &mut []), Ok(1 + 3 + 3 + 100_000));
    assert_eq!(encode_to(section(&longer, b""), &mut []), Err(error));
    for edit in [Edit::Append(section(&longer, b"")), Edit::Replace(section(&longer, b""))] {
        assert_eq!(edit_to(&bytes("M"), edit, &mut []), Err(error));
    }
    assert_eq!(edit_to(&bytes("M"), Edit::Remove(&longer), &mut []), Ok(8));
}

#[test]
fn a_stream_that_does_not_parse_is_not_edited() {
    for (stream, _) in common::golden() {
        let error = Parser::new(0).parse_all(&stream).find_map(Result::err);
        let size = edit_to(&stream, Edit::Append(section("a", b"xyz")), &mut []);
        assert_eq!(size, error.map_or(Ok(stream.len() + 7), Err));
    }
}

#[cfg(feature = "alloc")]
mod owned {
    use super::{ROWS, bytes, section};
    use pulleynavy::{Edit, Error, Fault, edit, encode};

    #[test]
    fn sections_have_the_shortest_numbers() {
        let (short, long) = ([vec![0, 127, 0], vec![0; 126]].concat(), [vec![0, 0x80, 1, 1, b'a'], vec![0; 126]].concat());
        assert_eq!(encode(section("", &[0; 126])), Ok(short));
        assert_eq!(encode(section("a", &[0; 126])), Ok(long));
        assert_eq!(encode(section(&"a".repeat(100_001), b"")), Err(Error::new(Fault::SectionTooLarge, 0)));
    }

    #[test]
    fn later_edits_change_new_sections() {
        let stream = bytes("M 00 02 01 61");
        let edits = [Edit::Append(section("b", b"1")), Edit::Replace(section("b", b"2")), Edit::Remove("a"), Edit::Append(section("a", b""))];
        for (count, wanted) in ["M 00 02 01 61", "M 00 02 01 61 00 03 01 62 31", "M 00 02 01 61 00 03 01 62 32", "M 00 03 01 62 32"].into_iter().enumerate() {
            assert_eq!(edit(&stream, &edits[..count]), Ok(bytes(wanted)));
        }
        assert_eq!(edit(&stream, &edits), Ok(bytes("M 00 03 01 62 32 00 02 01 61")));
    }

    #[test]
    fn one_edit_and_none() {
        for (stream, one, wanted) in ROWS {
            let stream = bytes(stream);
            assert_eq!(edit(&stream, &[one]).map_err(|error| error.to_string()), wanted.map(bytes).map_err(str::to_owned));
            assert_eq!(edit(&stream, &[]).ok(), wanted.ok().map(|_| stream));
        }
    }
}
