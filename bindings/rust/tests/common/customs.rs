//! Known custom sections and their items.
use super::*;

impl Show for Naming<'_> {
    fn show(&self) -> String {
        format!("name({} {} )", self.index, self.name.show())
    }
}

impl Show for IndirectNaming<'_> {
    fn show(&self) -> String {
        format!("names({} {} )", self.index, named(self.names.clone()))
    }
}

/// Names, and the faults among them.
pub fn named<T: Show>(names: impl Iterator<Item = Result<T>>) -> String {
    format!("{{{}}}", joined(names.map(|name| text_of(name, |name| name.show()))))
}

/// What direct names are read as.
pub fn name_map(reader: BinaryReader<'_>) -> Result<String> {
    NameMap::new(reader).map(named)
}

/// What indirect names are read as.
pub fn indirect_name_map(reader: BinaryReader<'_>) -> Result<String> {
    IndirectNameMap::new(reader).map(named)
}

/// Subsections, and the faults among them.
fn parts<T: Show>(parts: impl Iterator<Item = Result<T>>) -> String {
    format!("<{}>", joined(parts.map(|part| text_of(part, |part| part.show()))))
}

fn unknown(ty: u8, data: &[u8], place: &Range<u64>) -> String {
    format!("unknown {ty} {} {}", hex(data), range(place.clone()))
}

impl Show for Name<'_> {
    fn show(&self) -> String {
        let (id, names) = match self.clone() {
            Name::Module { name, name_range } => return format!("module {} {}", name.show(), range(name_range)),
            Name::Unknown { ty, data, range } => return unknown(ty, data, &range),
            Name::Function(names) => (1, named(names)),
            Name::Local(names) => (2, named(names)),
            Name::Label(names) => (3, named(names)),
            Name::Type(names) => (4, named(names)),
            Name::Table(names) => (5, named(names)),
            Name::Memory(names) => (6, named(names)),
            Name::Global(names) => (7, named(names)),
            Name::Element(names) => (8, named(names)),
            Name::Data(names) => (9, named(names)),
            Name::Field(names) => (10, named(names)),
            Name::Tag(names) => (11, named(names)),
            Name::Parameter(names) => (12, named(names)),
            Name::TagParameter(names) => (13, named(names)),
        };
        format!("{id}{names}")
    }
}

/// What the section `name` is read as.
pub fn names(reader: BinaryReader<'_>) -> Result<String> {
    Ok(parts(NameSectionReader::new(reader)))
}

impl Show for ProducersField<'_> {
    fn show(&self) -> String {
        format!("field({} {} )", self.name.show(), listed(self.values.clone()))
    }
}

impl Show for ProducersFieldValue<'_> {
    fn show(&self) -> String {
        format!("value({} {} )", self.name.show(), self.version.show())
    }
}

impl Show for BranchHintFunction<'_> {
    fn show(&self) -> String {
        format!("function({} {} )", self.func, listed(self.hints.clone()))
    }
}

impl Show for BranchHint {
    fn show(&self) -> String {
        format!("hint({} {} )", self.func_offset, self.taken)
    }
}

impl Show for ExportInfo<'_> {
    fn show(&self) -> String {
        format!("export({} {} )", self.name.show(), self.flags.bits())
    }
}

impl Show for ImportInfo<'_> {
    fn show(&self) -> String {
        format!("import({} {} {} )", self.module.show(), self.field.show(), self.flags.bits())
    }
}

impl Show for Dylink0Subsection<'_> {
    fn show(&self) -> String {
        match self.clone() {
            Dylink0Subsection::MemInfo(MemInfo { memory_size, memory_alignment, table_size, table_alignment }) => {
                format!("1 meminfo({memory_size} {memory_alignment} {table_size} {table_alignment} )")
            }
            Dylink0Subsection::Needed(names) => format!("2 {}", owned(names)),
            Dylink0Subsection::ExportInfo(exports) => format!("3 {}", owned(exports)),
            Dylink0Subsection::ImportInfo(imports) => format!("4 {}", owned(imports)),
            Dylink0Subsection::RuntimePath(names) => format!("5 {}", owned(names)),
            Dylink0Subsection::TargetArch(name) => format!("6 {}", name.show()),
            Dylink0Subsection::Unknown { ty, data, range } => unknown(ty, data, &range),
        }
    }
}

/// What the section `dylink.0` is read as.
pub fn dylink(reader: BinaryReader<'_>) -> Result<String> {
    Ok(parts(Dylink0SectionReader::new(reader)))
}

impl Show for Segment<'_> {
    fn show(&self) -> String {
        format!("segment({} {} {} )", self.name.show(), self.alignment, self.flags.bits())
    }
}

impl Show for InitFunc {
    fn show(&self) -> String {
        format!("init({} {} )", self.priority, self.symbol_index)
    }
}

impl Show for Comdat<'_> {
    fn show(&self) -> String {
        format!("comdat({} {} {} )", self.name.show(), self.flags, listed(self.symbols.clone()))
    }
}

impl Show for ComdatSymbol {
    fn show(&self) -> String {
        format!("symbol({} {} )", format!("{:?}", self.kind).to_lowercase(), self.index)
    }
}

impl Show for SymbolInfo<'_> {
    fn show(&self) -> String {
        let indexed = |word: &str, flags: SymbolFlags, index: u32, name: Option<&str>| {
            format!("{word} {} {index} {}", flags.bits(), name.map_or("-".to_owned(), |name| name.show()))
        };
        match *self {
            SymbolInfo::Func { flags, index, name } => indexed("func", flags, index, name),
            SymbolInfo::Global { flags, index, name } => indexed("global", flags, index, name),
            SymbolInfo::Event { flags, index, name } => indexed("event", flags, index, name),
            SymbolInfo::Table { flags, index, name } => indexed("table", flags, index, name),
            SymbolInfo::Section { flags, section } => format!("section {} {section}", flags.bits()),
            SymbolInfo::Data { flags, name, symbol } => {
                let place = symbol.map(|one| format!("defined({} {} {} )", one.index, one.offset, one.size));
                format!("data {} {} {}", flags.bits(), name.show(), option(place))
            }
        }
    }
}

impl Show for Linking<'_> {
    fn show(&self) -> String {
        match self.clone() {
            Linking::SegmentInfo(segments) => format!("5 {}", listed(segments)),
            Linking::InitFuncs(functions) => format!("6 {}", listed(functions)),
            Linking::ComdatInfo(comdats) => format!("7 {}", listed(comdats)),
            Linking::SymbolTable(symbols) => format!("8 {}", listed(symbols)),
            Linking::TargetArch(name) => format!("9 {}", name.show()),
            Linking::Unknown { ty, data, range } => unknown(ty, data, &range),
        }
    }
}

fn linking_text(section: LinkingSectionReader<'_>) -> String {
    let head = format!("version {} at {} {}", section.version(), section.original_position(), range(section.range()));
    format!("{head} {}", parts(section.into_iter()))
}

/// What the section `linking` is read as.
pub fn linking(reader: BinaryReader<'_>) -> Result<String> {
    LinkingSectionReader::new(reader).map(linking_text)
}

impl Show for RelocationEntry {
    fn show(&self) -> String {
        format!("reloc({} {} {} {} )", self.ty as u8, self.offset, self.index, self.addend)
    }
}

fn reloc_text(section: RelocSectionReader<'_>) -> String {
    format!("section {} {} {}", section.section_index(), range(section.range()), listed(section.entries()))
}

/// What a section of relocations is read as.
pub fn reloc(reader: BinaryReader<'_>) -> Result<String> {
    RelocSectionReader::new(reader).map(reloc_text)
}

/// What is shown of core dumps, which borrow from the input if they own no lists.
macro_rules! show_core_dumps {
    ($($lifetime:lifetime)?) => {
        impl Show for CoreDumpInstance$(<$lifetime>)? {
            fn show(&self) -> String {
                format!("instance({} {} {} )", self.module_index, owned(self.memories.clone()), owned(self.globals.clone()))
            }
        }

        impl Show for CoreDumpStackFrame$(<$lifetime>)? {
            fn show(&self) -> String {
                let place = format!("{} {} {}", self.instanceidx, self.funcidx, self.codeoffset);
                format!("frame({place} {} {} )", owned(self.locals.clone()), owned(self.stack.clone()))
            }
        }
    };
}

#[cfg(feature = "alloc")]
show_core_dumps!();
#[cfg(not(feature = "alloc"))]
show_core_dumps!('_);

impl Show for CoreDumpValue {
    fn show(&self) -> String {
        match self {
            CoreDumpValue::Missing => "missing".to_owned(),
            CoreDumpValue::I32(value) => format!("i32:{value}"),
            CoreDumpValue::I64(value) => format!("i64:{value}"),
            CoreDumpValue::F32(value) => format!("f32:{}", value.bits()),
            CoreDumpValue::F64(value) => format!("f64:{}", value.bits()),
        }
    }
}

fn stack_text(section: CoreDumpStackSection<'_>) -> String {
    format!("{} {}", section.name.show(), owned(section.frames))
}

/// What the section `core` is read as.
pub fn core(reader: BinaryReader<'_>) -> Result<String> {
    CoreDumpSection::new(reader).map(|section| section.name.show())
}

/// What the section `coremodules` is read as.
pub fn core_modules(reader: BinaryReader<'_>) -> Result<String> {
    CoreDumpModulesSection::new(reader).map(|section| owned(section.modules))
}

/// What the section `coreinstances` is read as.
pub fn core_instances(reader: BinaryReader<'_>) -> Result<String> {
    CoreDumpInstancesSection::new(reader).map(|section| owned(section.instances))
}

/// What the section `corestack` is read as.
pub fn core_stack(reader: BinaryReader<'_>) -> Result<String> {
    CoreDumpStackSection::new(reader).map(stack_text)
}

/// What a custom section is read as, by its name.
pub fn known(section: &CustomSectionReader<'_>) -> String {
    match section.as_known() {
        KnownCustom::Name(section) => parts(section),
        KnownCustom::BranchHints(section) => listed(section),
        KnownCustom::Producers(section) => listed(section),
        KnownCustom::Dylink0(section) => parts(section),
        KnownCustom::Linking(section) => linking_text(section),
        KnownCustom::Reloc(section) => reloc_text(section),
        KnownCustom::CoreDump(section) => section.name.show(),
        KnownCustom::CoreDumpModules(section) => owned(section.modules),
        KnownCustom::CoreDumpInstances(section) => owned(section.instances),
        KnownCustom::CoreDumpStack(section) => stack_text(section),
        KnownCustom::Unknown => "unknown".to_owned(),
        // As in wasmparser, there may be more.
        _ => "new".to_owned(),
    }
}
