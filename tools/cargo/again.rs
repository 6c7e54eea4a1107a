//! Modules that are read, and written again by `encode`.
use pulleynavy_program::encode::{Module, SectionItem};
use pulleynavy_program::parser::{Encoding, Error, FunctionBody, Parser, Payload};
use pulleynavy_program::std::alloc::Global;

/// Why a stream is not written again.
#[derive(Debug, PartialEq, Eq)]
pub enum Left {
    /// It is malformed, or an item of it is.
    Malformed(Error),
    /// It has what the writer does not write: a component, or a section with an unknown id.
    Other(&'static str),
    /// The writer refused a section that was read.
    Refused(String),
}

impl From<Error> for Left {
    fn from(error: Error) -> Self {
        Left::Malformed(error)
    }
}

struct Again<'a> {
    module: Module<Global>,
    /// How many bodies the code section announced, and those that came.
    announced: u32,
    bodies: Vec<FunctionBody<'a>>,
}

impl<'a> Again<'a> {
    fn add<T: SectionItem>(&mut self, items: impl Iterator<Item = Result<T, Error>>) -> Result<(), Left> {
        let items = items.collect::<Result<Vec<T>, Error>>()?;
        self.module.section(&items).map_err(|refused| Left::Refused(format!("{refused:?}")))
    }

    /// Adds the code section once all bodies have come.
    fn add_code(&mut self) -> Result<(), Left> {
        if self.bodies.len() < self.announced as usize {
            return Ok(());
        }
        let bodies = std::mem::take(&mut self.bodies);
        self.add(bodies.into_iter().map(Ok))
    }

    fn take(&mut self, payload: Payload<'a>) -> Result<(), Left> {
        match payload {
            Payload::Version { encoding: Encoding::Module, .. } | Payload::End(_) => Ok(()),
            Payload::Version { .. } => Err(Left::Other("a component")),
            Payload::UnknownSection { .. } => Err(Left::Other("an unknown section")),
            Payload::TypeSection(section) => self.add(section.into_iter_in(Global)),
            Payload::ImportSection(section) => self.add(section.into_iter()),
            Payload::FunctionSection(section) => self.add(section.into_iter()),
            Payload::TableSection(section) => self.add(section.into_iter()),
            Payload::MemorySection(section) => self.add(section.into_iter()),
            Payload::TagSection(section) => self.add(section.into_iter()),
            Payload::GlobalSection(section) => self.add(section.into_iter()),
            Payload::ExportSection(section) => self.add(section.into_iter()),
            Payload::ElementSection(section) => self.add(section.into_iter()),
            Payload::DataSection(section) => self.add(section.into_iter()),
            Payload::StartSection { func, .. } => self.module.start(func).map_err(|refused| Left::Refused(format!("{refused:?}"))),
            Payload::DataCountSection { count, .. } => self.module.data_count(count).map_err(|refused| Left::Refused(format!("{refused:?}"))),
            Payload::CodeSectionStart { count, .. } => {
                self.announced = count;
                self.add_code()
            }
            Payload::CodeSectionEntry(body) => {
                self.bodies.push(body);
                self.add_code()
            }
            Payload::CustomSection(section) => self.module.custom(section.name(), section.data()).map_err(|refused| Left::Refused(format!("{refused:?}"))),
        }
    }
}

/// A module with the same sections and items.
pub fn again(stream: &[u8]) -> Result<Vec<u8>, Left> {
    let module = Module::new(Global).expect("memory");
    let mut again = Again { module, announced: 0, bodies: Vec::new() };
    for payload in Parser::new(0).parse_all(stream) {
        again.take(payload?)?;
    }
    let bytes = again.module.finish().map_err(|unfinished| Left::Refused(format!("{unfinished:?}")))?;
    Ok(bytes.to_vec())
}
