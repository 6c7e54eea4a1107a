//! Sets of flags, as the crate `bitflags` has them.
use core::ops::{BitAnd, BitOr, Not};

/// A flag and its name.
pub struct Flag<B: 'static> {
    pub name: &'static str,
    pub value: B,
}

/// The bits of a set of flags.
pub trait Bits: Copy + PartialEq + BitOr<Output = Self> + BitAnd<Output = Self> + Not<Output = Self> {
    const EMPTY: Self;
}

impl Bits for u8 {
    const EMPTY: u8 = 0;
}

impl Bits for u32 {
    const EMPTY: u32 = 0;
}

impl Bits for u64 {
    const EMPTY: u64 = 0;
}

/// A set of flags.
pub trait Flags: Sized + 'static {
    type Bits: Bits;

    fn flags<'a>() -> &'a [Flag<Self>];

    fn bits(&self) -> Self::Bits;

    fn from_bits_retain(bits: Self::Bits) -> Self;

    #[inline(always)]
    fn all() -> Self {
        Self::from_bits_retain(Self::flags().iter().fold(Self::Bits::EMPTY, |bits, flag| bits | flag.value.bits()))
    }

    #[inline]
    fn empty() -> Self {
        Self::from_bits_retain(Self::Bits::EMPTY)
    }

    #[inline]
    fn contains(&self, other: Self) -> bool {
        (self.bits() & other.bits()) == other.bits()
    }

    #[inline]
    fn intersects(&self, other: Self) -> bool {
        (self.bits() & other.bits()) != Self::Bits::EMPTY
    }

    #[inline]
    fn union(self, other: Self) -> Self {
        Self::from_bits_retain(self.bits() | other.bits())
    }

    #[inline]
    fn insert(&mut self, other: Self) {
        *self = Self::from_bits_retain(self.bits() | other.bits());
    }

    #[inline]
    fn remove(&mut self, other: Self) {
        *self = Self::from_bits_retain(self.bits() & !other.bits());
    }
}
