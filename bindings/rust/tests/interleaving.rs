//! A parser that is called in a random order meets each part once, at its place.
//!
//! `PULLEYNAVY_INPUTS` sets how many modules there are.
mod common;

use common::*;
use pulleynavy::*;
use std::ops::Range;

/// What a caller of the parser meets: the number of the section, or of [`BODY`], and where its content is.
#[derive(Debug, Clone, PartialEq)]
struct Part {
    id: u8,
    content: Range<u64>,
}

const CODE: u8 = 10;
const BODY: u8 = 200;

/// A module in which each size and count has one byte.
struct Module {
    bytes: Vec<u8>,
    parts: Vec<Part>,
}

impl Module {
    fn new(random: &mut Random) -> Module {
        let bodies = random.below(5) as u8;
        let mut module = Module { bytes: bytes("M"), parts: Vec::new() };
        module.others(random);
        module.section(3, &[&[bodies][..], &vec![0; bodies.into()]].concat());
        module.others(random);
        module.code(random, bodies);
        module.others(random);
        module
    }

    fn section(&mut self, id: u8, content: &[u8]) {
        self.bytes.extend([id, content.len() as u8]);
        self.part(id, content);
    }

    fn part(&mut self, id: u8, content: &[u8]) {
        let start = self.bytes.len() as u64;
        self.bytes.extend(content);
        self.parts.push(Part { id, content: start..self.bytes.len() as u64 });
    }

    /// Custom sections with the name "x", and unknown ones.
    fn others(&mut self, random: &mut Random) {
        for _ in 0..random.below(3) {
            let content = vec![0; random.below(20)];
            match random.below(2) {
                0 => self.section(0, &[b"\x01x", &content[..]].concat()),
                _ => self.section(100, &content),
            }
        }
    }

    fn code(&mut self, random: &mut Random, bodies: u8) {
        let sizes: Vec<u8> = (0..bodies).map(|_| random.below(20) as u8).collect();
        let size = 1 + sizes.iter().map(|size| size + 1).sum::<u8>();
        let start = self.bytes.len() as u64 + 2;
        self.bytes.extend([CODE, size, bodies]);
        self.parts.push(Part { id: CODE, content: start..start + u64::from(size) });
        for size in sizes {
            self.bytes.push(size);
            self.part(BODY, &vec![0; size.into()]);
        }
    }

    /// The parts after the code section that `parts` are in.
    fn after_bodies(parts: &[Part]) -> &[Part] {
        &parts[parts.iter().take_while(|part| part.id == BODY).count()..]
    }
}

fn parsed(payload: &Payload) -> Option<Part> {
    match payload {
        Payload::CodeSectionEntry(body) => Some(Part { id: BODY, content: body.range() }),
        payload => payload.as_section().map(|(id, content)| Part { id, content }),
    }
}

fn skipped(part: SkippedPart) -> Part {
    let id = match part.head {
        PartHead::Custom { .. } => 0,
        PartHead::Items { id, .. } | PartHead::Unknown { id } => id,
        PartHead::Body => BODY,
        _ => panic!("no such part in the module"),
    };
    Part { id, content: part.range }
}

/// Calls the parser until the end, and compares each part with the next one of the module.
fn meet_parts(module: &Module, random: &mut Random) {
    let (mut parser, mut fed, mut parts) = (Parser::new(0), 0, &module.parts[..]);
    loop {
        fed = (fed + random.below(8)).min(module.bytes.len());
        let window = module.bytes.get(parser.offset() as usize..fed).unwrap_or_default();
        let met = match random.below(8) {
            0 => {
                if let Some(left) = parser.skippable() {
                    let end = parser.offset() + u64::from(left);
                    parser.skip_section();
                    assert_eq!(parser.offset(), end);
                    parts = Module::after_bodies(parts);
                }
                None
            }
            1 => parser.clone().skip_part(window).and(None),
            2..5 => parser.skip_part(window).map(skipped),
            _ => match parser.parse(window, fed == module.bytes.len()).unwrap() {
                Chunk::NeedMoreData(_) => None,
                Chunk::Parsed { payload: Payload::End(end), .. } => break assert_eq!((end, parts), (fed as u64, &[][..])),
                Chunk::Parsed { payload, .. } => parsed(&payload),
            },
        };
        if let Some(part) = met {
            assert_eq!(Some(&part), parts.first());
            parts = &parts[1..];
        }
    }
}

#[test]
fn calls_in_any_order() {
    let mut random = Random::new();
    for _ in 0..inputs(10_000) {
        let module = Module::new(&mut random);
        meet_parts(&module, &mut random);
    }
}

/// A parser may move between threads, and be shared by them.
#[test]
fn a_parser_moves_between_threads() {
    fn moves<T: Send + Sync + 'static>(value: T) -> T {
        value
    }
    let mut parser = moves(Parser::new(0));
    let after = std::thread::spawn(move || {
        parser.parse(&bytes("M"), false).unwrap();
        parser
    });
    assert_eq!(after.join().unwrap().offset(), 8);
}
