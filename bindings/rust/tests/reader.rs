//! Readers, sections and their iterators, as a caller uses them.
mod common;

use common::*;
use pulleynavy::*;

#[test]
fn a_reader_knows_its_place() {
    let mut reader = BinaryReader::new(b"\x01ab\x7f", 100);
    assert_eq!((reader.original_position(), reader.current_position(), reader.bytes_remaining()), (100, 0, 4));
    assert_eq!(reader.read_string(), Ok("a"));
    assert_eq!((reader.original_position(), reader.current_position(), reader.range()), (102, 2, 100..104));
    assert_eq!((reader.remaining_range(), reader.remaining_buffer(), reader.eof()), (102..104, &b"b\x7f"[..], false));
    let mut rest = reader.shrink();
    assert_eq!((rest.range(), rest.current_position(), rest.peek()), (102..104, 0, Ok(b'b')));
    let passed = rest.skip(|reader| reader.read_bytes(2).map(drop)).unwrap();
    assert_eq!((passed.range(), passed.remaining_buffer(), rest.eof()), (102..104, &b"b\x7f"[..], true));
    assert_eq!(reader.bytes_remaining(), 2);
}

type Read = fn(&mut BinaryReader<'_>) -> Result<String>;

fn var_u32(reader: &mut BinaryReader<'_>) -> Result<String> {
    reader.read_var_u32().map(|number| number.to_string())
}

fn text(reader: &mut BinaryReader<'_>) -> Result<String> {
    reader.read_string().map(str::to_owned)
}

fn long_text(reader: &mut BinaryReader<'_>) -> Result<String> {
    reader.read_unlimited_string().map(|text| text.len().to_string())
}

fn skipped(reader: &mut BinaryReader<'_>) -> Result<String> {
    reader.skip_string().map(|()| String::new())
}

fn window(reader: &mut BinaryReader<'_>) -> Result<String> {
    reader.read_reader().map(|reader| range(reader.range()))
}

fn three_bytes(reader: &mut BinaryReader<'_>) -> Result<String> {
    reader.read_bytes(3).map(hex)
}

/// What is read at 0, and how many bytes are left.
#[test]
fn parts_and_their_faults() {
    let rows: &[(Read, &str, &str)] = &[
        (three_bytes, "01 02", "fault 0 unexpected end-of-file"),
        (three_bytes, "01 02 03 04", "x010203, 1 left"),
        (|reader| reader.read_u8().map(|byte| byte.to_string()), "", "fault 0 unexpected end-of-file"),
        (|reader| reader.read_u7().map(|byte| byte.to_string()), "7f", "127, 0 left"),
        (|reader| reader.read_u7().map(|byte| byte.to_string()), "80", "fault 0 invalid u7"),
        (var_u32, "80 80 80 80 00 05", "0, 1 left"),
        (var_u32, "80 80", "fault 2 unexpected end-of-file"),
        (var_u32, "80 80 80 80 10", "fault 4 invalid var_u32: integer too large"),
        (var_u32, "80 80 80 80 80", "fault 4 invalid var_u32: integer representation too long"),
        (text, "a1 8d 06", "fault 2 string size out of bounds"),
        (text, "a0 8d 06", "fault 3 unexpected end-of-file"),
        (text, "02 c3 28", "fault 2 malformed UTF-8 encoding"),
        (long_text, "a1 8d 06", "fault 3 unexpected end-of-file"),
        (long_text, "02 c3 28", "fault 2 malformed UTF-8 encoding"),
        (long_text, "00 05", "0, 1 left"),
        (skipped, "a1 8d 06", "fault 2 string size out of bounds"),
        (skipped, "02 c3", "fault 1 unexpected end-of-file"),
        (skipped, "02 c3 28", ", 0 left"),
        (window, "02 05 06 07", "1..3, 1 left"),
        (window, "02 05", "fault 1 unexpected end-of-file"),
    ];
    for (read, digits, wanted) in rows {
        let bytes = bytes(digits);
        let mut reader = BinaryReader::new(&bytes, 0);
        assert_eq!(text_of(read(&mut reader), |text| format!("{text}, {} left", reader.bytes_remaining())), *wanted, "{digits}");
    }
}

#[test]
fn long_names_are_bounded() {
    let name = |size: usize| [&[size as u8 | 0x80, (size >> 7) as u8 | 0x80, (size >> 14) as u8][..], &vec![b'a'; size]].concat();
    let (most, more) = (name(MAX_WASM_STRING_SIZE), name(MAX_WASM_STRING_SIZE + 1));
    let read = |bytes: &[u8]| text_of(BinaryReader::new(bytes, 0).read_string(), |text| text.len().to_string());
    assert_eq!((read(&most).as_str(), read(&more).as_str()), ("100000", "fault 2 string size out of bounds"));
    assert_eq!(BinaryReader::new(&more, 0).read_unlimited_string().map(str::len), Ok(MAX_WASM_STRING_SIZE + 1));
}

#[test]
fn bounds_of_items_that_are_left() {
    let mut items = FunctionSectionReader::new(BinaryReader::new(b"\x02\x05\x80\x01\x07", 100)).unwrap().into_iter();
    let (mut hints, mut lengths) = (vec![], vec![]);
    for wanted in [Some("5"), Some("128"), Some("fault 104 section size mismatch: unexpected data at the end of the section"), None] {
        hints.push(items.size_hint());
        lengths.push(items.len());
        assert_eq!(items.next().map(|item| text_of(item, |item| item.to_string())).as_deref(), wanted);
    }
    assert_eq!((hints, lengths), ([2, 1, 0, 0].map(|left| (left, Some(left))).to_vec(), vec![2, 1, 0, 0]));
    let mut items = SectionLimited::<bool>::new(BinaryReader::new(b"\xff\xff\xff\xff\x0f", 0)).unwrap().into_iter();
    // A malformed count allocates nothing: no byte is there, so an error is all that can come.
    assert_eq!((items.size_hint(), items.len()), ((1, Some(1)), 1));
    assert_eq!(items.next().unwrap().map_err(|error| fault(&error)), Err("fault 5 unexpected end-of-file".to_owned()));
    assert_eq!((items.next(), items.size_hint()), (None, (0, Some(0))));
}

#[test]
fn a_section_knows_its_place() {
    let section = FunctionSectionReader::new(BinaryReader::new(b"\x82\0\x05\x06", 10)).unwrap();
    assert_eq!((section.count(), section.original_position(), section.range()), (2, 12, 10..14));
    assert_eq!(format!("{section:?}"), "SectionLimited { count: 2, range: 10..14 }");
    let mut items = section.clone().into_iter();
    assert_eq!((items.original_position(), items.next(), items.original_position()), (12, Some(Ok(5)), 13));
    // An iterator is a section again, whose count is what it was and whose items begin where it was.
    let rest = FunctionSectionReader::from(items);
    assert_eq!((rest.count(), rest.original_position(), rest.range()), (2, 13, 10..14));
    assert_eq!(section.into_iter().collect::<Result<Vec<_>>>(), Ok(vec![5, 6]));
}

#[test]
fn copies_give_the_same_items() {
    let mut items = FunctionSectionReader::new(BinaryReader::new(b"\x03\x05\x06\x07\x08", 0)).unwrap().into_iter_with_offsets();
    loop {
        let copy: Vec<_> = items.clone().collect();
        let (first, rest) = (items.next(), items.clone().collect::<Vec<_>>());
        assert_eq!(first.into_iter().chain(rest).collect::<Vec<_>>(), copy);
        if copy.is_empty() {
            break;
        }
    }
}

#[cfg(not(feature = "alloc"))]
#[test]
fn lists_inside_items() {
    let mut reader = BinaryReader::new(b"\x02\x05\x80\x01\x07", 0);
    let mut list: List<u32> = reader.read().unwrap();
    assert_eq!((format!("{list:?}"), list.len(), reader.original_position()), ("[5, 128]".to_owned(), 2, 4));
    let copy = list.clone();
    assert_eq!((list.next(), list.len(), list.next(), list.next(), list.next()), (Some(5), 1, Some(128), None, None));
    assert_eq!(copy.collect::<Vec<_>>(), [5, 128]);
    // A list with a fault is none.
    let error = BinaryReader::new(b"\x02\x05\x80", 9).read::<List<u32>>().unwrap_err();
    assert_eq!(fault(&error), "fault 12 unexpected end-of-file");
}

#[test]
fn libraries_have_names_of_any_size() {
    let size = MAX_WASM_STRING_SIZE + 1;
    let part = [&[1, 0xa1, 0x8d, 0x06][..], &vec![b'l'; size]].concat();
    let Ok(Dylink0Subsection::Needed(names)) = Dylink0Subsection::from_reader(2, BinaryReader::new(&part, 0)) else { panic!() };
    assert_eq!(names.into_iter().map(str::len).collect::<Vec<_>>(), [size]);
}

/// A type of items of a caller's own, which reads nothing.
struct Nothing;

impl FromReader<'_> for Nothing {
    fn from_reader(_: &mut BinaryReader<'_>) -> Result<Self> {
        Ok(Nothing)
    }
}

/// A type of items of a caller's own, which is any byte.
struct Byte;

impl FromReader<'_> for Byte {
    fn from_reader(reader: &mut BinaryReader<'_>) -> Result<Self> {
        reader.read_u8().map(|_| Byte)
    }
}

/// How many items there are, and the fault after them.
fn counted<T>(items: impl Iterator<Item = Result<T>>) -> (usize, Option<String>) {
    let (items, faults): (Vec<_>, Vec<_>) = items.partition(Result::is_ok);
    assert!(faults.len() <= 1);
    (items.len(), faults.into_iter().next().map(|error| fault(&error.err().unwrap())))
}

#[test]
fn items_of_other_types() {
    let mismatch = "fault 1 section size mismatch: unexpected data at the end of the section".to_owned();
    for (digits, wanted) in [("03", (3, None)), ("03 ff", (3, Some(mismatch)))] {
        let bytes = bytes(digits);
        assert_eq!(counted(SectionLimited::<Nothing>::new(BinaryReader::new(&bytes, 0)).unwrap().into_iter()), wanted);
    }
    assert_eq!(counted(SectionLimited::<Byte>::new(BinaryReader::new(&[2, 7, 7], 0)).unwrap().into_iter()), (2, None));
}

/// Subsections of a caller's own: the id, and how many bytes there are.
struct Part(u8, usize);

impl<'a> Subsection<'a> for Part {
    fn from_reader(id: u8, reader: BinaryReader<'a>) -> Result<Self> {
        Ok(Part(id, reader.bytes_remaining()))
    }
}

#[test]
fn subsections_of_other_types() {
    let mut parts = Subsections::<Part>::new(BinaryReader::new(b"\x05\x01\xff\x04\0", 50));
    assert_eq!((parts.original_position(), parts.range(), format!("{parts:?}")), (50, 50..55, "Subsections { range: 50..55 }".to_owned()));
    let first = parts.next().unwrap().unwrap();
    assert_eq!((first.0, first.1, parts.original_position(), parts.range()), (5, 1, 53, 50..55));
    assert_eq!(parts.clone().map(|part| part.unwrap().0).collect::<Vec<_>>(), [4]);
}

/// Asserts that nothing comes from an iterator that has ended.
fn stays_ended<T>(mut items: impl Iterator<Item = T>) {
    items.by_ref().for_each(drop);
    assert!((0..3).all(|_| items.next().is_none()));
}

#[test]
fn what_has_ended_stays_ended() {
    for digits in ["", "00", "02 05 80 01 07", "01", "ff ff ff ff 0f", "03 00 01 61 00", "02 01 6d 00 7f 01 01 ff 00 00", "4e ff ff", "05 ff"] {
        let bytes = bytes(digits);
        let reader = || BinaryReader::new(&bytes, 0);
        stays_ended(Parser::new(0).parse_all(&bytes));
        stays_ended(NameSectionReader::new(reader()));
        stays_ended(Dylink0SectionReader::new(reader()));
        let Ok(section) = FunctionSectionReader::new(reader()) else { continue };
        stays_ended(section.clone().into_iter());
        stays_ended(section.into_iter_with_offsets());
        stays_ended(ImportSectionReader::new(reader()).unwrap().into_imports_with_offsets());
        stays_ended(TypeSectionReader::new(reader()).unwrap().into_iter());
        stays_ended(NameMap::new(reader()).unwrap());
        stays_ended(IndirectNameMap::new(reader()).unwrap());
    }
}

/// What is cut out of a reader has its features and offsets.
#[test]
fn features_go_with_the_bytes() {
    let (mut features, mut parser) = (WasmFeatures::all(), Parser::new(0));
    features.remove(WasmFeatures::COMPACT_IMPORTS);
    parser.set_features(features);
    let mut reader = parser.binary_reader(b"\x02ab", 7);
    assert_eq!((reader.features(), reader.memory64()), (WasmFeatures::MEMORY64, true));
    assert_eq!(reader.read_reader().unwrap().features(), features);
    assert!(!features.contains(WasmFeatures::all()) && features.union(WasmFeatures::COMPACT_IMPORTS) == WasmFeatures::all());
    let many = WasmFeatures::from_bits_retain(1 << 40 | 1 << 31 | 1);
    assert_eq!(BinaryReader::new_features(&[], 0, many).features(), WasmFeatures::from_bits_retain(1 << 31 | 1));
    let module = bytes("M 02 0e 01 01 6d 00 7f 02 01 61 00 03 01 62 00 04");
    let Some(Ok(Payload::ImportSection(imports))) = parser.parse_all(&module).nth(1) else { panic!() };
    let mut imports = imports.into_imports_with_offsets();
    let text = "fault 14 invalid leading byte 0x7F with compact imports proposal disabled";
    assert_eq!(imports.next().unwrap().map_err(|error| fault(&error)), Err(text.to_owned()));
    assert!(imports.next().is_none());
}

#[test]
fn pages_of_memories() {
    assert_eq!((max_wasm_memory32_pages(65536), max_wasm_memory32_pages(1)), (65536, 4294967295));
    assert_eq!((max_wasm_memory64_pages(65536), max_wasm_memory64_pages(1)), (281474976710656, u64::MAX));
    assert_eq!([0, 1, 3, 65536, 131072].map(is_page_size), [false, true, false, true, false]);
}
