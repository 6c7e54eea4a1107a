//! Serialization by `serde`: types and flags are texts, items are maps of their fields, and an error is its message, code, offset and number.
use crate::{
    ArrayType, Error, Export, ExternalKind, FieldType, FuncType, GlobalType, HeapType, Import, ImportItemCompact, MemoryType, Naming, RefType, SegmentFlags,
    StorageType, SymbolFlags, TableType, TagKind, TagType, TypeRef, ValType, WasmFeatures,
};
use core::{fmt, result::Result};
use serde::de::{Deserialize, Deserializer, Visitor};
use serde::ser::{Serialize, SerializeStruct, Serializer};

/// Writes values as the text that `Display` has.
macro_rules! texts {
    ($($name:ident)*) => {$(
        impl Serialize for $name {
            fn serialize<S: Serializer>(&self, serializer: S) -> Result<S::Ok, S::Error> {
                serializer.collect_str(self)
            }
        }
    )*};
}

/// Writes structs as maps of their fields.
macro_rules! maps {
    ($($name:ty: $text:literal { $($field:ident)* })*) => {$(
        impl Serialize for $name {
            fn serialize<S: Serializer>(&self, serializer: S) -> Result<S::Ok, S::Error> {
                let mut map = serializer.serialize_struct($text, [$(stringify!($field)),*].len())?;
                $(map.serialize_field(stringify!($field), &self.$field)?;)*
                map.end()
            }
        }
    )*};
}

/// Writes kinds as their names, and types with a kind as maps with the kind as key.
macro_rules! kinds {
    ($($name:ident { $($variant:ident $(($value:ident))? = $index:literal $text:literal)* })*) => {$(
        impl Serialize for $name {
            fn serialize<S: Serializer>(&self, serializer: S) -> Result<S::Ok, S::Error> {
                match self {
                    $($name::$variant $(($value))? => kinds!(@one serializer $name $index $text $($value)?),)*
                }
            }
        }
    )*};
    (@one $serializer:ident $name:ident $index:literal $text:literal) => {
        $serializer.serialize_unit_variant(stringify!($name), $index, $text)
    };
    (@one $serializer:ident $name:ident $index:literal $text:literal $value:ident) => {
        $serializer.serialize_newtype_variant(stringify!($name), $index, $text, $value)
    };
}

/// Writes sets as the names of their flags, with ` | ` between them, and reads them. Bits without a name are a hexadecimal number.
macro_rules! sets {
    ($($name:ident $number:ty;)*) => {$(
        impl Serialize for $name {
            fn serialize<S: Serializer>(&self, serializer: S) -> Result<S::Ok, S::Error> {
                serializer.collect_str(&Names(self))
            }
        }

        impl fmt::Display for Names<'_, $name> {
            fn fmt(&self, f: &mut fmt::Formatter<'_>) -> fmt::Result {
                let mut names = self.0.iter_names();
                for (at, (name, _)) in names.by_ref().enumerate() {
                    write!(f, "{}{name}", if at == 0 { "" } else { " | " })?;
                }
                match self.0.bits() & !$name::all().bits() {
                    0 => Ok(()),
                    rest => write!(f, "{}0x{rest:x}", if rest == self.0.bits() { "" } else { " | " }),
                }
            }
        }

        impl<'de> Deserialize<'de> for $name {
            fn deserialize<D: Deserializer<'de>>(deserializer: D) -> Result<Self, D::Error> {
                let one = |word: &str| match word.strip_prefix("0x") {
                    Some(digits) => <$number>::from_str_radix(digits, 16).ok().map($name::from_bits_retain),
                    None => $name::from_name(word),
                };
                deserializer.deserialize_str(Words(|text: &str| text.split('|').map(str::trim).filter(|word| !word.is_empty()).map(one).collect()))
            }
        }
    )*};
}

/// A set that is written as names.
struct Names<'a, T>(&'a T);

/// Reads a text by this function, which returns nothing of a text that names no set.
struct Words<F>(F);

impl<T, F: Fn(&str) -> Option<T>> Visitor<'_> for Words<F> {
    type Value = T;

    fn expecting(&self, f: &mut fmt::Formatter<'_>) -> fmt::Result {
        f.write_str("names of flags with | between them")
    }

    fn visit_str<E: serde::de::Error>(self, text: &str) -> Result<T, E> {
        (self.0)(text).ok_or_else(|| E::custom("no flag has this name"))
    }
}

texts! { ValType RefType HeapType StorageType }

maps! {
    TableType: "TableType" { element_type table64 initial maximum shared }
    MemoryType: "MemoryType" { memory64 shared initial maximum page_size_log2 }
    GlobalType: "GlobalType" { content_type mutable shared }
    TagType: "TagType" { kind func_type_idx }
    FieldType: "FieldType" { element_type mutable }
    Import<'_>: "Import" { module name ty }
    ImportItemCompact<'_>: "ImportItemCompact" { name ty }
    Export<'_>: "Export" { name kind index }
    Naming<'_>: "Naming" { index name }
}

kinds! {
    TagKind { Exception = 0 "exception" }
    ExternalKind { Func = 0 "func" Table = 1 "table" Memory = 2 "memory" Global = 3 "global" Tag = 4 "tag" FuncExact = 5 "func_exact" }
    TypeRef {
        Func(ty) = 0 "func" Table(ty) = 1 "table" Memory(ty) = 2 "memory" Global(ty) = 3 "global" Tag(ty) = 4 "tag" FuncExact(ty) = 5 "func_exact"
    }
}

sets! {
    WasmFeatures u64;
    SymbolFlags u32;
    SegmentFlags u32;
}

impl Serialize for ArrayType {
    fn serialize<S: Serializer>(&self, serializer: S) -> Result<S::Ok, S::Error> {
        self.0.serialize(serializer)
    }
}

#[cfg(not(feature = "alloc"))]
type Function<'a> = FuncType<'a>;
#[cfg(feature = "alloc")]
type Function<'a> = FuncType;

impl Serialize for Function<'_> {
    fn serialize<S: Serializer>(&self, serializer: S) -> Result<S::Ok, S::Error> {
        let mut map = serializer.serialize_struct("FuncType", 2)?;
        map.serialize_field("params", &self.params())?;
        map.serialize_field("results", &self.results())?;
        map.end()
    }
}

#[cfg(not(feature = "alloc"))]
impl<T: Serialize> Serialize for crate::List<'_, T> {
    fn serialize<S: Serializer>(&self, serializer: S) -> Result<S::Ok, S::Error> {
        serializer.collect_seq(self.clone())
    }
}

impl Serialize for Error {
    fn serialize<S: Serializer>(&self, serializer: S) -> Result<S::Ok, S::Error> {
        let mut map = serializer.serialize_struct("Error", 4)?;
        map.serialize_field("message", self.message())?;
        map.serialize_field("code", &self.code())?;
        map.serialize_field("offset", &self.offset())?;
        map.serialize_field("number", &self.number())?;
        map.end()
    }
}
