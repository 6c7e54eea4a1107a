//! Raw floats.

/// The bits of a 32-bit float. They are kept as encoded, also for NaN.
///
/// # Examples
///
/// ```
/// use pulleynavy::{BinaryReader, Ieee32};
///
/// let float = BinaryReader::new(&[0, 0, 0x80, 0x3f], 0).read_f32()?;
/// assert_eq!(float, Ieee32::from(1.0));
/// assert_eq!(float.bits(), 0x3f80_0000);
/// # Ok::<(), pulleynavy::Error>(())
/// ```
#[derive(Clone, Copy, Debug, PartialEq, Eq, Hash, PartialOrd, Ord)]
pub struct Ieee32(pub(crate) u32);

impl Ieee32 {
    /// Returns the bits.
    #[must_use]
    pub fn bits(self) -> u32 {
        self.0
    }
}

impl From<f32> for Ieee32 {
    fn from(value: f32) -> Self {
        Ieee32(value.to_bits())
    }
}

impl From<Ieee32> for f32 {
    fn from(bits: Ieee32) -> f32 {
        f32::from_bits(bits.0)
    }
}

/// The bits of a 64-bit float. They are kept as encoded, also for NaN.
///
/// # Examples
///
/// ```
/// use pulleynavy::BinaryReader;
///
/// let float = BinaryReader::new(&[0, 0, 0, 0, 0, 0, 0xf0, 0x3f], 0).read_f64()?;
/// assert_eq!(f64::from(float), 1.0);
/// # Ok::<(), pulleynavy::Error>(())
/// ```
#[derive(Clone, Copy, Debug, PartialEq, Eq, Hash, PartialOrd, Ord)]
pub struct Ieee64(pub(crate) u64);

impl Ieee64 {
    /// Returns the bits.
    #[must_use]
    pub fn bits(self) -> u64 {
        self.0
    }
}

impl From<f64> for Ieee64 {
    fn from(value: f64) -> Self {
        Ieee64(value.to_bits())
    }
}

impl From<Ieee64> for f64 {
    fn from(bits: Ieee64) -> f64 {
        f64::from_bits(bits.0)
    }
}
