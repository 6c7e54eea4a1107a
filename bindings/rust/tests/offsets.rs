//! Random inputs that end near the greatest offset: nothing panics, and offsets of errors and ranges are where the input is.
//!
//! `PULLEYNAVY_INPUTS` sets how many inputs there are. Overflow checks are on in the profile of tests.
mod common;

use common::customs::*;
use common::*;
use pulleynavy::*;

/// Readers of every kind of item and section.
const READERS: [Reader; 59] = [
    |reader| item::<u32>(reader),
    |reader| item::<&str>(reader),
    |reader| item::<bool>(reader),
    |reader| item::<(u32, &str)>(reader),
    |reader| item::<ValType>(reader),
    |reader| item::<RefType>(reader),
    |reader| item::<HeapType>(reader),
    |reader| item::<FieldType>(reader),
    |reader| item::<RecGroup>(reader),
    |reader| item::<SubType>(reader),
    |reader| item::<TableType>(reader),
    |reader| item::<MemoryType>(reader),
    |reader| item::<GlobalType>(reader),
    |reader| item::<TagType>(reader),
    |reader| item::<Table>(reader),
    |reader| item::<Global>(reader),
    |reader| item::<Imports>(reader),
    |reader| item::<Import>(reader),
    |reader| item::<ImportItemCompact>(reader),
    |reader| item::<TypeRef>(reader),
    |reader| item::<ExternalKind>(reader),
    |reader| item::<Export>(reader),
    |reader| item::<ConstExpr>(reader),
    |reader| item::<Element>(reader),
    |reader| item::<Data>(reader),
    |reader| item::<Naming>(reader),
    |reader| item::<IndirectNaming>(reader),
    |reader| item::<ProducersField>(reader),
    |reader| item::<ProducersFieldValue>(reader),
    |reader| item::<BranchHintFunction>(reader),
    |reader| item::<BranchHint>(reader),
    |reader| item::<ExportInfo>(reader),
    |reader| item::<ImportInfo>(reader),
    |reader| item::<Segment>(reader),
    |reader| item::<InitFunc>(reader),
    |reader| item::<Comdat>(reader),
    |reader| item::<ComdatSymbol>(reader),
    |reader| item::<SymbolInfo>(reader),
    |reader| item::<RelocationEntry>(reader),
    |reader| item::<CoreDumpInstance>(reader),
    |reader| item::<CoreDumpStackFrame>(reader),
    |reader| item::<CoreDumpValue>(reader),
    |reader| section::<u32>(reader),
    |reader| section::<RecGroup>(reader),
    |reader| section::<Element>(reader),
    |reader| section::<Data>(reader),
    flat,
    names,
    name_map,
    indirect_name_map,
    dylink,
    linking,
    reloc,
    core,
    core_modules,
    core_instances,
    core_stack,
    operators,
    plain,
];

/// The instructions of an expression that is not checked as a whole.
fn operators(reader: BinaryReader<'_>) -> Result<String> {
    OperatorsReader::new(reader).into_iter().try_fold(String::new(), |text, operator| Ok(text + &format!("{:?}", operator?)))
}

/// The reads of a reader that are no items.
fn plain(reader: BinaryReader<'_>) -> Result<String> {
    let again = || reader.clone();
    let numbers = [
        again().read_var_i32().map(i64::from),
        again().read_var_i64(),
        again().read_var_s33(),
        again().read_var_u64().map(|number| number as i64),
        again().read_u32().map(i64::from),
        again().read_header_version().map(i64::from),
        again().read_f64().map(|float| float.bits() as i64),
        again().skip_string().map(|()| 0),
        again().read_unlimited_string().map(|text| text.len() as i64),
        again().read_reader().map(|reader| reader.bytes_remaining() as i64),
        again().skip(|reader| reader.read_bytes(3).map(drop)).map(|reader| reader.bytes_remaining() as i64),
        again().peek_bytes(5).map(|bytes| bytes.len() as i64),
        again().read::<StorageType>().map(|_| 0),
        again().read::<FuncType>().map(|_| 0),
        again().read::<StructType>().map(|_| 0),
    ];
    for error in numbers.into_iter().filter_map(Result::err) {
        assert!(reader.range().start <= error.offset() && error.offset() <= reader.range().end, "{error}");
    }
    Ok(String::new())
}

impl Random {
    /// Bytes that begin items often, and others.
    fn byte(&mut self) -> u8 {
        const OFTEN: [u8; 24] = [0, 0, 1, 1, 2, 3, 4, 5, 0x0b, 0x41, 0x40, 0x60, 0x5f, 0x4e, 0x50, 0x63, 0x64, 0x70, 0x7e, 0x7f, 0x80, 0xff, 0xff, 0x61];
        if self.below(4) == 0 { self.below(256) as u8 } else { OFTEN[self.below(OFTEN.len())] }
    }

    fn bytes(&mut self) -> Vec<u8> {
        (0..self.below(24)).map(|_| self.byte()).collect()
    }
}

/// Reads bytes as every kind of item and section. They end `gap` bytes before the greatest offset.
fn read(bytes: &[u8], gap: u64, features: WasmFeatures) {
    let offset = u64::MAX - gap - bytes.len() as u64;
    for read in READERS {
        if let Err(error) = read(BinaryReader::new_features(bytes, offset, features)) {
            assert!(error.offset() >= offset && error.offset() <= u64::MAX - gap, "{error}: {}", hex(bytes));
        }
    }
}

/// Parses a stream that ends `gap` bytes before the greatest offset, complete and byte by byte.
fn parse(bytes: &[u8], gap: u64) {
    let offset = u64::MAX - gap - bytes.len() as u64;
    let whole: Vec<_> = Parser::new(offset).parse_all(bytes).map(|payload| text_of(payload, |payload| event(&payload))).collect();
    let (mut parser, mut start, mut end, mut lines) = (Parser::new(offset), 0, 0, vec![]);
    while lines.last().is_none_or(|line: &String| !line.starts_with("end") && !line.starts_with("fault")) {
        match parser.parse(&bytes[start..end], end == bytes.len()) {
            Ok(Chunk::NeedMoreData(_)) => end += 1,
            Ok(Chunk::Parsed { consumed, payload }) => {
                start += consumed;
                lines.push(event(&payload));
            }
            Err(error) => lines.push(fault(&error)),
        }
    }
    assert_eq!(lines, whole, "{}", hex(bytes));
}

#[test]
fn random_inputs_near_the_greatest_offset() {
    let mut random = Random::new();
    for number in 0..inputs(4_000) {
        let (bytes, gap) = (random.bytes(), random.below(4) as u64);
        let features = if number % 8 == 0 { WasmFeatures::empty() } else { WasmFeatures::all() };
        read(&bytes, gap, features);
        parse(&[b"\0asm\x01\0\0\0", &bytes[..]].concat(), gap);
        let (id, size) = (random.below(14) as u8, bytes.len() as u8 + random.below(3) as u8);
        parse(&[b"\0asm\x01\0\0\0", &[id, size][..], &bytes[..]].concat(), gap);
    }
}

/// An item of which nothing is there, at the greatest offset.
#[test]
fn nothing_at_the_greatest_offset() {
    read(&[], 0, WasmFeatures::all());
    let error = BinaryReader::new(&[], u64::MAX).read::<HeapType>().unwrap_err();
    assert_eq!((error.fault(), error.offset()), (Fault::UnexpectedEof, u64::MAX));
    assert_eq!(BinaryReader::new(&[0x70], u64::MAX - 1).read(), Ok(HeapType::FUNC));
}
