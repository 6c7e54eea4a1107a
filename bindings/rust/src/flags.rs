//! Sets of flags.
use crate::{BinaryReader, FromReader, Result};
use core::fmt;
use core::ops::{BitAnd, BitAndAssign, BitOr, BitOrAssign, BitXor, BitXorAssign, Not, Sub, SubAssign};

/// Declares a set of flags with the calls of the crate `bitflags`. Bits without a name are kept.
macro_rules! flags {
    ($(#[$doc:meta])* $name:ident: $number:ty { $($(#[$flag_doc:meta])* $flag:ident = $bits:expr;)* }) => {
        $(#[$doc])*
        #[derive(Clone, Copy, PartialEq, Eq, Hash)]
        pub struct $name($number);

        impl $name {
            $($(#[$flag_doc])* pub const $flag: $name = $name($bits);)*

            /// The flags that have a name, with it.
            const NAMED: &'static [(&'static str, $name)] = &[$((stringify!($flag), $name($bits)),)*];

            /// Returns the set of all flags that have a name.
            pub const fn all() -> Self {
                $name(0 $(| $bits)*)
            }

            /// Returns the empty set.
            pub const fn empty() -> Self {
                $name(0)
            }

            /// Returns the set with exactly these bits, including those without a name.
            pub const fn from_bits_retain(bits: $number) -> Self {
                $name(bits)
            }

            /// Returns the set with these bits, or `None` if a bit has no name.
            pub const fn from_bits(bits: $number) -> Option<Self> {
                if bits & !$name::all().0 == 0 { Some($name(bits)) } else { None }
            }

            /// Returns the set with those of these bits that have a name.
            pub const fn from_bits_truncate(bits: $number) -> Self {
                $name(bits & $name::all().0)
            }

            /// Returns the flag with this name, or `None` if no flag has it.
            pub fn from_name(name: &str) -> Option<Self> {
                $name::NAMED.iter().find(|(known, _)| *known == name).map(|(_, flag)| *flag)
            }

            /// Returns the bits of the set.
            pub const fn bits(&self) -> $number {
                self.0
            }

            /// Returns whether the set is empty.
            pub const fn is_empty(&self) -> bool {
                self.0 == 0
            }

            /// Returns whether the set has all flags that have a name.
            pub const fn is_all(&self) -> bool {
                self.contains($name::all())
            }

            /// Returns whether the set has all flags of another one.
            pub const fn contains(&self, other: Self) -> bool {
                self.0 & other.0 == other.0
            }

            /// Returns whether the set has any flag of another one.
            pub const fn intersects(&self, other: Self) -> bool {
                self.0 & other.0 != 0
            }

            /// Returns the flags of either set.
            pub const fn union(self, other: Self) -> Self {
                $name(self.0 | other.0)
            }

            /// Returns the flags that both sets have.
            pub const fn intersection(self, other: Self) -> Self {
                $name(self.0 & other.0)
            }

            /// Returns the flags of this set that the other one does not have.
            pub const fn difference(self, other: Self) -> Self {
                $name(self.0 & !other.0)
            }

            /// Returns the flags of exactly one of the sets.
            pub const fn symmetric_difference(self, other: Self) -> Self {
                $name(self.0 ^ other.0)
            }

            /// Returns the named flags that the set does not have.
            pub const fn complement(self) -> Self {
                $name::from_bits_truncate(!self.0)
            }

            /// Adds the flags of another set.
            pub fn insert(&mut self, other: Self) {
                self.0 |= other.0;
            }

            /// Removes the flags of another set.
            pub fn remove(&mut self, other: Self) {
                self.0 &= !other.0;
            }

            /// Adds the flags of another set that this one does not have, and removes the others.
            pub fn toggle(&mut self, other: Self) {
                self.0 ^= other.0;
            }

            /// Adds the flags of another set if `value` is true, and removes them otherwise.
            pub fn set(&mut self, other: Self, value: bool) {
                if value { self.insert(other) } else { self.remove(other) }
            }

            /// Returns an iterator over the named flags of the set, and last a set of its bits without a name, if any.
            pub const fn iter(&self) -> FlagsIter<Self> {
                FlagsIter { names: self.iter_names() }
            }

            /// Returns an iterator over the named flags of the set, with their names.
            pub const fn iter_names(&self) -> FlagsIterNames<Self> {
                FlagsIterNames { named: $name::NAMED, rest: *self }
            }
        }

        impl Set for $name {
            fn split(&mut self, flag: Self) -> bool {
                let has = !flag.is_empty() && self.contains(flag);
                if has {
                    self.remove(flag);
                }
                has
            }

            fn is_none(&self) -> bool {
                self.is_empty()
            }
        }

        impl IntoIterator for $name {
            type Item = $name;
            type IntoIter = FlagsIter<$name>;

            fn into_iter(self) -> Self::IntoIter {
                self.iter()
            }
        }

        impl Extend<$name> for $name {
            fn extend<I: IntoIterator<Item = Self>>(&mut self, sets: I) {
                sets.into_iter().for_each(|set| self.insert(set));
            }
        }

        impl FromIterator<$name> for $name {
            fn from_iter<I: IntoIterator<Item = Self>>(sets: I) -> Self {
                sets.into_iter().fold($name::empty(), $name::union)
            }
        }

        flags!(@operators $name BitOr bitor union BitOrAssign bitor_assign);
        flags!(@operators $name BitAnd bitand intersection BitAndAssign bitand_assign);
        flags!(@operators $name BitXor bitxor symmetric_difference BitXorAssign bitxor_assign);
        flags!(@operators $name Sub sub difference SubAssign sub_assign);

        impl Not for $name {
            type Output = $name;

            fn not(self) -> $name {
                self.complement()
            }
        }

        /// The names of the flags, and the bits without a name.
        impl fmt::Debug for $name {
            fn fmt(&self, f: &mut fmt::Formatter<'_>) -> fmt::Result {
                f.write_str(concat!(stringify!($name), "("))?;
                let mut names = self.iter_names();
                for (at, (name, _)) in names.by_ref().enumerate() {
                    write!(f, "{}{name}", if at == 0 { "" } else { " | " })?;
                }
                let rest = names.rest;
                match (rest.is_empty(), rest == *self) {
                    (true, false) => f.write_str(")"),
                    (_, true) => write!(f, "0x{:x})", rest.0),
                    (false, false) => write!(f, " | 0x{:x})", rest.0),
                }
            }
        }

        flags!(@numbers $name Binary LowerHex Octal UpperHex);
    };
    (@operators $name:ident $operator:ident $call:ident $method:ident $assign:ident $assign_call:ident) => {
        impl $operator for $name {
            type Output = $name;

            fn $call(self, other: $name) -> $name {
                self.$method(other)
            }
        }

        impl $assign for $name {
            fn $assign_call(&mut self, other: $name) {
                *self = self.$method(other);
            }
        }
    };
    (@numbers $name:ident $($number:ident)*) => {
        $(
            impl fmt::$number for $name {
                fn fmt(&self, f: &mut fmt::Formatter<'_>) -> fmt::Result {
                    fmt::$number::fmt(&self.0, f)
                }
            }
        )*
    };
}

/// What the iterators need of a set.
trait Set: Copy {
    /// Removes a flag that is not empty. Returns whether the set had it.
    fn split(&mut self, flag: Self) -> bool;

    /// Whether the set is empty.
    fn is_none(&self) -> bool;
}

/// An iterator over the flags of a set, which `iter` returns.
///
/// # Examples
///
/// ```
/// use pulleynavy::SegmentFlags;
///
/// let flags = SegmentFlags::from_bits_retain(0x11);
/// assert!(flags.iter().eq([SegmentFlags::STRINGS, SegmentFlags::from_bits_retain(0x10)]));
/// ```
#[derive(Clone, Debug)]
pub struct FlagsIter<T: 'static> {
    names: FlagsIterNames<T>,
}

#[allow(private_bounds)]
impl<T: Set> Iterator for FlagsIter<T> {
    type Item = T;

    fn next(&mut self) -> Option<T> {
        if let Some((_, flag)) = self.names.next() {
            return Some(flag);
        }
        let rest = self.names.rest;
        (!rest.is_none()).then(|| {
            self.names.rest.split(rest);
            rest
        })
    }
}

/// An iterator over the named flags of a set, with their names, which `iter_names` returns.
///
/// # Examples
///
/// ```
/// use pulleynavy::SegmentFlags;
///
/// let names = SegmentFlags::all().iter_names().map(|(name, _)| name);
/// assert!(names.eq(["STRINGS", "TLS"]));
/// ```
#[derive(Clone, Debug)]
pub struct FlagsIterNames<T: 'static> {
    named: &'static [(&'static str, T)],
    rest: T,
}

#[allow(private_bounds)]
impl<T: Set> Iterator for FlagsIterNames<T> {
    type Item = (&'static str, T);

    fn next(&mut self) -> Option<Self::Item> {
        while let Some((first, others)) = self.named.split_first() {
            self.named = others;
            if self.rest.split(first.1) {
                return Some(*first);
            }
        }
        None
    }
}

flags! {
    /// A set of features of WebAssembly. Readers and parsers keep its lowest 32 bits.
    ///
    /// # Examples
    ///
    /// ```
    /// use pulleynavy::{BinaryReader, MemoryType, WasmFeatures};
    ///
    /// // Without 64-bit memories, a limit of 2^32 pages is too large.
    /// let bytes = [0x04, 0x80, 0x80, 0x80, 0x80, 0x10];
    /// assert!(BinaryReader::new(&bytes, 0).read::<MemoryType>().is_ok());
    /// let features = WasmFeatures::all() - WasmFeatures::MEMORY64;
    /// assert!(BinaryReader::new_features(&bytes, 0, features).read::<MemoryType>().is_err());
    /// ```
    WasmFeatures: u64 {
        /// 64-bit memories and tables: their limits are 64-bit numbers.
        MEMORY64 = 1;
        /// Groups of compact imports (a proposal).
        COMPACT_IMPORTS = 2;
    }
}

flags! {
    /// The flags of a symbol, as a set of bits. Unknown bits are kept.
    ///
    /// # Examples
    ///
    /// ```
    /// use pulleynavy::{BinaryReader, SymbolFlags};
    ///
    /// let flags = BinaryReader::new(&[0x14], 0).read::<SymbolFlags>()?;
    /// assert_eq!(flags, SymbolFlags::UNDEFINED | SymbolFlags::VISIBILITY_HIDDEN);
    /// # Ok::<(), pulleynavy::Error>(())
    /// ```
    #[derive(Default, PartialOrd, Ord)]
    SymbolFlags: u32 {
        /// The symbol is weak: another definition may replace it.
        BINDING_WEAK = 1;
        /// The symbol is local: it is visible only in its own module.
        BINDING_LOCAL = 1 << 1;
        /// The symbol is hidden: it is not visible outside the linked module.
        VISIBILITY_HIDDEN = 1 << 2;
        /// The symbol is not defined in this module.
        UNDEFINED = 1 << 4;
        /// The symbol is exported from the linked module.
        EXPORTED = 1 << 5;
        /// The symbol has a name of its own, although it is imported.
        EXPLICIT_NAME = 1 << 6;
        /// The symbol is kept even if it is unused.
        NO_STRIP = 1 << 7;
        /// The symbol is thread-local.
        TLS = 1 << 8;
        /// The symbol is an absolute address, in no segment.
        ABSOLUTE = 1 << 9;
    }
}

flags! {
    /// The flags of a data segment, as a set of bits. Unknown bits are kept.
    #[derive(Default)]
    SegmentFlags: u32 {
        /// The segment contains null-terminated strings, which may be merged.
        STRINGS = 1;
        /// The segment is thread-local.
        TLS = 1 << 1;
    }
}

impl WasmFeatures {
    /// The set with these bits of the library.
    pub(crate) fn of(bits: u32) -> Self {
        WasmFeatures(bits.into())
    }

    /// The bits for the library, which has 32. Higher ones have no name.
    pub(crate) fn low_bits(self) -> u32 {
        self.0 as u32
    }
}

/// Reads the bits as an unsigned 32-bit number in LEB128, with the errors of [`BinaryReader::read_var_u32`]. Unknown bits are kept.
impl<'a> FromReader<'a> for SymbolFlags {
    fn from_reader(reader: &mut BinaryReader<'a>) -> Result<Self> {
        reader.read_var_u32().map(SymbolFlags)
    }
}

/// Reads the bits as an unsigned 32-bit number in LEB128, with the errors of [`BinaryReader::read_var_u32`]. Unknown bits are kept.
impl<'a> FromReader<'a> for SegmentFlags {
    fn from_reader(reader: &mut BinaryReader<'a>) -> Result<Self> {
        reader.read_var_u32().map(SegmentFlags)
    }
}
