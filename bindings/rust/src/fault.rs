//! Why input is refused.
use crate::codes::{core_start, fault_kind, lead, number_kind};
use crate::proved::base;

/// Declares an enum whose variants have a number in the C library.
macro_rules! numbered {
    ($(#[$doc:meta])* $name:ident { $($(#[$variant_doc:meta])* $module:ident::$code:ident $variant:ident,)* }) => {
        $(#[$doc])*
        #[derive(Clone, Copy, Debug, PartialEq, Eq, Hash)]
        pub enum $name {
            $($(#[$variant_doc])* $variant,)*
        }

        impl $name {
            /// All variants of the proved sources.
            #[cfg(test)]
            const ALL: &[base::$name] = &[$(base::$name::$variant,)*];

            /// The variant of the proved sources.
            const fn of(variant: base::$name) -> Self {
                match variant {
                    $(base::$name::$variant => $name::$variant,)*
                }
            }

            /// Its number in the C library.
            const fn number(self) -> u32 {
                match self {
                    $($name::$variant => $module::$code,)*
                }
            }
        }
    };
}

numbered! {
    /// The kind of a LEB128 number: its width in bits, and whether it is signed.
    NumberKind {
        /// An unsigned number of 32 bits.
        number_kind::VAR_U32 VarU32,
        /// A signed number of 32 bits.
        number_kind::VAR_I32 VarI32,
        /// An unsigned number of 64 bits.
        number_kind::VAR_U64 VarU64,
        /// A signed number of 64 bits.
        number_kind::VAR_I64 VarI64,
        /// A signed number of 33 bits: a heap type, or a type index.
        number_kind::VAR_S33 VarS33,
    }
}

numbered! {
    /// What a `LeadingByte` fault expected at its offset.
    #[non_exhaustive]
    Lead {
        /// A branch hint.
        lead::BRANCH_HINT BranchHint,
        /// Whether a branch is likely taken.
        lead::BRANCH_TAKEN BranchTaken,
        /// The kind of a symbol in a comdat.
        lead::COMDAT_SYMBOL ComdatSymbol,
        /// The kind of a symbol.
        lead::SYMBOL Symbol,
        /// The type of a relocation.
        lead::RELOC Reloc,
        /// The kind of an import or export.
        lead::EXTERNAL External,
        /// A value type.
        lead::VALUE Value,
        /// A reference type.
        lead::REFERENCE Reference,
        /// A heap type.
        lead::HEAP Heap,
        /// A function, array or struct type.
        lead::COMPOSITE Composite,
        /// Whether a field is mutable.
        lead::MUTABILITY Mutability,
    }
}

numbered! {
    /// The part of a core dump that a byte 0 should begin.
    CoreStart {
        /// The name of the process.
        core_start::NAME Name,
        /// A module.
        core_start::MODULE Module,
        /// An instance.
        core_start::INSTANCE Instance,
        /// The name of a thread.
        core_start::STACK_NAME StackName,
        /// A frame of a thread.
        core_start::FRAME Frame,
    }
}

/// Declares the kinds of faults: those with a text alone, and those that say more.
macro_rules! faults {
    ($($(#[$doc:meta])* $code:ident $variant:ident $text:literal,)*) => {
        /// The reason why input is malformed. [`Error`](crate::Error) adds the offset.
        ///
        /// Unless a variant says otherwise, the offset is that of the first byte of what the variant names.
        ///
        /// # Examples
        ///
        /// ```
        /// use pulleynavy::{BinaryReader, Fault, NumberKind};
        ///
        /// let error = BinaryReader::new(&[0xff; 5], 0).read_var_u32().unwrap_err();
        /// assert_eq!(error.fault(), Fault::NumberTooLong(NumberKind::VarU32));
        /// assert_eq!(error.offset(), 4);
        /// ```
        #[derive(Clone, Copy, Debug, PartialEq, Eq, Hash)]
        #[non_exhaustive]
        pub enum Fault {
            $($(#[$doc])* $variant,)*
            /// A LEB128 number is too long: its last possible byte has the top bit set. The offset is that of this byte.
            NumberTooLong(NumberKind),
            /// A LEB128 number is too large: unused bits of its last possible byte are wrong. The offset is that of this byte.
            NumberTooLarge(NumberKind),
            /// A byte begins nothing of this kind. The byte is the number of the error.
            LeadingByte(Lead),
            /// A part of a core dump does not begin with a byte 0. The offset of a module is that of the section's data.
            CoreStartByte(CoreStart),
            /// A type is not a plain function type. Only `into_iter_err_on_gc_types` returns it; the C library has no such fault.
            GcTypes,
        }

        impl Fault {
            /// The faults of the proved sources that have a text alone.
            #[cfg(test)]
            const ALONE: &[base::Fault] = &[$(base::Fault::$variant,)*];

            /// The fault of the proved sources.
            pub(crate) const fn of(fault: base::Fault) -> Self {
                match fault {
                    $(base::Fault::$variant => Fault::$variant,)*
                    base::Fault::NumberTooLong(kind) => Fault::NumberTooLong(NumberKind::of(kind)),
                    base::Fault::NumberTooLarge(kind) => Fault::NumberTooLarge(NumberKind::of(kind)),
                    base::Fault::LeadingByte(lead) => Fault::LeadingByte(Lead::of(lead)),
                    base::Fault::CoreStartByte(start) => Fault::CoreStartByte(CoreStart::of(start)),
                }
            }

            /// Returns the number of the fault in the C library: its kind in the lowest 8 bits, and its detail above them.
            pub const fn code(self) -> u32 {
                match self {
                    $(Fault::$variant => fault_kind::$code,)*
                    Fault::NumberTooLong(kind) => fault_kind::NUMBER_TOO_LONG | kind.number() << 8,
                    Fault::NumberTooLarge(kind) => fault_kind::NUMBER_TOO_LARGE | kind.number() << 8,
                    Fault::LeadingByte(lead) => fault_kind::LEADING_BYTE | lead.number() << 8,
                    Fault::CoreStartByte(start) => fault_kind::CORE_START_BYTE | start.number() << 8,
                    Fault::GcTypes => 0xff,
                }
            }

            /// Returns the message, without the number and the offset.
            pub const fn message(self) -> &'static str {
                match self {
                    $(Fault::$variant => $text,)*
                    Fault::NumberTooLong(kind) => too_long(kind),
                    Fault::NumberTooLarge(kind) => too_large(kind),
                    Fault::LeadingByte(lead) => leading_byte(lead),
                    Fault::CoreStartByte(start) => core_start_byte(start),
                    Fault::GcTypes => "gc proposal not supported",
                }
            }
        }
    };
}

faults! {
    /// An allocation failed. This crate never returns it.
    OUT_OF_MEMORY OutOfMemory "out of memory",
    /// The input is truncated. Inside a number, the offset is the end of the input; for raw bytes, it is where they should have started.
    UNEXPECTED_EOF UnexpectedEof "unexpected end-of-file",
    /// The data would pass offset 2^64 - 1. The offset is that of the parser.
    OFFSET_RANGE OffsetRange "data passes the offset range",
    /// The stream does not begin with the magic number. The offset is the start of the stream.
    BAD_MAGIC BadMagic "magic header not detected: bad magic number",
    /// No encoding has this version, which is the error's number. The offset is that of the version.
    UNKNOWN_VERSION UnknownVersion "unknown binary version",
    /// The magic number of a header is where a section should begin.
    MAGIC_AT_SECTION MagicAtSection "expected section, got wasm magic number",
    /// The id of a section is above 127.
    MALFORMED_SECTION_ID MalformedSectionId "malformed section id",
    /// A section would pass offset 2^64 - 1. The offset is that of its length, which is the error's number.
    SECTION_TOO_LARGE SectionTooLarge "section too large",
    /// A section may not follow an earlier one. The offset is that of its content.
    OUT_OF_ORDER OutOfOrder "section out of order",
    /// A start section has trailing bytes. The offset is that of the first one.
    START_CONTENT StartContent "unexpected content in the start section",
    /// A data count section has trailing bytes. The offset is that of the first one.
    DATA_COUNT_CONTENT DataCountContent "unexpected content in the data count section",
    /// The code section and the function section have different counts. The offset is that of the code section's content.
    FUNCTION_CODE_DIFFER FunctionCodeDiffer "function and code section have inconsistent lengths",
    /// The stream ends with functions and without a code section. The offset is the end.
    FUNCTION_WITHOUT_CODE FunctionWithoutCode "function section has non-zero count but code section is absent",
    /// A code section has bodies and no function section precedes it. The offset is that of its content.
    CODE_WITHOUT_FUNCTION CodeWithoutFunction "function section is absent but code section has non-zero count",
    /// The data section has another count than announced. The offset is the end of the section.
    DATA_COUNT_DIFFER DataCountDiffer "data count and data section have inconsistent lengths",
    /// The stream ends with a data count and without a data section. The offset is the end.
    DATA_COUNT_WITHOUT_DATA DataCountWithoutData "data count is non-zero but data section is absent",
    /// A code section has trailing bytes after its last body. The offset is that of the first one.
    TRAILING_CODE TrailingCode "trailing bytes at end of section",
    /// A string is too long. The offset is that of the last byte of its size.
    STRING_SIZE StringSize "string size out of bounds",
    /// A string is not UTF-8. The offset is that of its last byte.
    MALFORMED_UTF8 MalformedUtf8 "malformed UTF-8 encoding",
    /// A byte is not below 128.
    INVALID_U7 InvalidU7 "invalid u7",
    /// A byte is neither 0 nor 1.
    INVALID_BOOL InvalidBool "invalid boolean value",
    /// A section has trailing bytes after its last item. The offset is that of the first one.
    SIZE_MISMATCH SizeMismatch "section size mismatch: unexpected data at the end of the section",
    /// A data segment has unknown flags.
    DATA_FLAGS DataFlags "invalid flags byte in data segment",
    /// An element segment has unknown flags.
    ELEMENT_FLAGS ElementFlags "invalid flags byte in element segment",
    /// An element segment holds indices of something else than functions.
    ELEMENT_FUNCTION_ONLY ElementFunctionOnly "only the function external type is supported in elem segment",
    /// An export has an exact function type.
    EXACT_EXPORT ExactExport "Exact type is not allowed in the exports",
    /// A global type has unknown flags.
    GLOBAL_FLAGS GlobalFlags "malformed global flags",
    /// A group of compact imports, without the feature.
    COMPACT_7F Compact7F "invalid leading byte 0x7F with compact imports proposal disabled",
    /// A group of compact imports of one type, without the feature.
    COMPACT_7E Compact7E "invalid leading byte 0x7E with compact imports proposal disabled",
    /// A memory type has unknown flags.
    MEMORY_FLAGS MemoryFlags "invalid memory limits flags",
    /// A memory type has an invalid page size.
    PAGE_SIZE PageSize "invalid custom page size",
    /// A table with an initial value is malformed.
    TABLE_ENCODING TableEncoding "invalid table encoding",
    /// A table type has unknown flags.
    TABLE_FLAGS TableFlags "invalid table resizable limits flags",
    /// A tag has another attribute than 0.
    TAG_ATTRIBUTES TagAttributes "invalid tag attributes",
    /// An index in a name map is not above the previous one. The offset is that of the entry.
    NAMES_ORDER NamesOrder "names out of order",
    /// An index in an indirect name map is not above the previous one. The offset is that of the entry.
    INDIRECT_ORDER IndirectOrder "indirect names out of order",
    /// The id of a name subsection is not above the previous one. The offset is that of the subsection.
    NAME_SECTION_ORDER NameSectionOrder "name subsection out of order",
    /// Trailing bytes follow the name of a module. The offset is that of the first one.
    NAME_TRAILING NameTrailing "trailing data at the end of a name",
    /// A producers field has an unknown name.
    PRODUCERS_FIELD ProducersField "invalid producers field name",
    /// A linking section has this version, which is the error's number.
    LINKING_VERSION LinkingVersion "unsupported linking section version",
    /// A core dump value begins with an unknown byte.
    CORE_VALUE CoreValue "invalid CoreDumpValue type",
    /// A custom section has trailing bytes. The offset is that of the first one.
    CUSTOM_TRAILING CustomTrailing "trailing bytes at end of custom section",
    /// An instruction is not allowed in a constant expression.
    NOT_CONSTANT NotConstant "not a constant instruction",
    /// A type has more than one supertype.
    SUPERTYPES Supertypes "more than one supertype",
}

const fn too_long(kind: NumberKind) -> &'static str {
    match kind {
        NumberKind::VarU32 => "invalid var_u32: integer representation too long",
        NumberKind::VarI32 => "invalid var_i32: integer representation too long",
        NumberKind::VarU64 => "invalid var_u64: integer representation too long",
        NumberKind::VarI64 => "invalid var_i64: integer representation too long",
        NumberKind::VarS33 => "invalid var_s33: integer representation too long",
    }
}

const fn too_large(kind: NumberKind) -> &'static str {
    match kind {
        NumberKind::VarU32 => "invalid var_u32: integer too large",
        NumberKind::VarI32 => "invalid var_i32: integer too large",
        NumberKind::VarU64 => "invalid var_u64: integer too large",
        NumberKind::VarI64 => "invalid var_i64: integer too large",
        NumberKind::VarS33 => "invalid var_s33: integer too large",
    }
}

const fn leading_byte(lead: Lead) -> &'static str {
    match lead {
        Lead::BranchHint => "invalid leading byte for invalid branch hint byte",
        Lead::BranchTaken => "invalid leading byte for invalid branch hint taken byte",
        Lead::ComdatSymbol => "invalid leading byte for comdat symbol kind",
        Lead::Symbol => "invalid leading byte for symbol kind",
        Lead::Reloc => "invalid leading byte for RelocEntryType",
        Lead::External => "invalid leading byte for external kind",
        Lead::Value => "invalid leading byte for value type",
        Lead::Reference => "invalid leading byte for reference type",
        Lead::Heap => "invalid leading byte for heap type",
        Lead::Composite => "invalid leading byte for composite type",
        Lead::Mutability => "invalid leading byte for field mutability",
    }
}

const fn core_start_byte(start: CoreStart) -> &'static str {
    match start {
        CoreStart::Name => "invalid start byte for core dump name",
        CoreStart::Module => "invalid start byte for coremodule",
        CoreStart::Instance => "invalid start byte for core dump instance",
        CoreStart::StackName => "invalid start byte for core dump stack name",
        CoreStart::Frame => "invalid start byte for core dump stack frame",
    }
}

#[cfg(test)]
mod tests {
    use super::{CoreStart, Fault, Lead, NumberKind, base};
    extern crate std;
    use std::collections::BTreeSet;

    /// The text of each fault is that of the proved sources, and no other has its number.
    #[test]
    fn texts_are_those_of_the_proved_sources() {
        let kinds = NumberKind::ALL.iter().flat_map(|kind| [base::Fault::NumberTooLong(*kind), base::Fault::NumberTooLarge(*kind)]);
        let leads = Lead::ALL.iter().map(|lead| base::Fault::LeadingByte(*lead));
        let starts = CoreStart::ALL.iter().map(|start| base::Fault::CoreStartByte(*start));
        let mut numbers = BTreeSet::new();
        for fault in Fault::ALONE.iter().copied().chain(kinds).chain(leads).chain(starts) {
            let ours = Fault::of(fault);
            assert_eq!(ours.message(), fault.message());
            assert!(numbers.insert(ours.code()), "{ours:?} has the number of another fault");
        }
        // 44 faults without a part, and 5, 5, 11 and 5 with one.
        assert_eq!(numbers.len(), 44 + 26);
    }
}
