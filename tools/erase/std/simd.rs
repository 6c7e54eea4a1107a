//! Lanes, as arrays: rustc makes vectors of them.
pub mod prelude {
    /// A value in each lane.
    #[derive(Clone, Copy)]
    pub struct Simd<T, const N: usize>([T; N]);

    /// Which lanes are chosen.
    #[derive(Clone, Copy)]
    pub struct Mask<const N: usize>([bool; N]);

    #[allow(non_camel_case_types)]
    pub type u8x32 = Simd<u8, 32>;

    impl<T: Copy, const N: usize> Simd<T, N> {
        #[inline(always)]
        pub fn splat(value: T) -> Self {
            Simd([value; N])
        }

        /// # Panics
        ///
        /// If the slice has fewer items than there are lanes.
        #[inline(always)]
        pub fn from_slice(items: &[T]) -> Self {
            Simd(*items.first_chunk::<N>().expect("too few items"))
        }
    }

    impl<const N: usize> Simd<u8, N> {
        #[inline(always)]
        pub fn simd_ge(self, other: Self) -> Mask<N> {
            Mask(core::array::from_fn(|lane| self.0[lane] >= other.0[lane]))
        }
    }

    impl<const N: usize> Mask<N> {
        /// A bit for each lane, that of the first lane the lowest.
        #[inline(always)]
        pub fn to_bitmask(self) -> u64 {
            (0..N).fold(0, |bits, lane| bits | u64::from(self.0[lane]) << lane)
        }
    }
}
