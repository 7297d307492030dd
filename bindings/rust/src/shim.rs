//! What Rattle's std and the kit's crates have and Rust's core and alloc don't, written by hand: as much of it as the
//! erased text uses. No proof covers this file.

/// The kit's `simdutf8`: the crate of that name with the feature `simd`, else core's own test.
pub mod simdutf8 {
    pub mod basic {
        #[cfg(feature = "simd")]
        pub use ::simdutf8::basic::from_utf8;
        #[cfg(not(feature = "simd"))]
        pub use core::str::from_utf8;
    }

    pub mod compat {
        #[cfg(feature = "simd")]
        pub use ::simdutf8::compat::from_utf8;
        #[cfg(not(feature = "simd"))]
        pub use core::str::from_utf8;
    }
}

/// The kit's `byteorder`.
pub mod byteorder {
    pub trait ByteOrder {
        fn write_u32(out: &mut [u8], value: u32);
    }

    pub struct BigEndian;

    impl ByteOrder for BigEndian {
        #[inline]
        fn write_u32(out: &mut [u8], value: u32) {
            out[..4].copy_from_slice(&value.to_be_bytes());
        }
    }
}

/// The kit's `arrayvec`.
pub mod arrayvec {
    #[derive(Clone, Debug)]
    pub struct ArrayVec<T, const N: usize> {
        count: usize,
        array: [T; N],
    }

    /// There is no room.
    #[derive(Clone, Copy, Debug)]
    pub struct CapacityError;

    impl<T: Copy + Default, const N: usize> ArrayVec<T, N> {
        pub fn new() -> Self {
            ArrayVec { count: 0, array: [T::default(); N] }
        }

        pub fn try_extend_from_slice(&mut self, items: &[T]) -> Result<(), CapacityError> {
            let free = self.array.get_mut(self.count..self.count + items.len()).ok_or(CapacityError)?;
            free.copy_from_slice(items);
            self.count += items.len();
            Ok(())
        }

        pub fn as_slice(&self) -> &[T] {
            &self.array[..self.count]
        }
    }
}

/// The kit's `itoa`.
pub mod itoa {
    pub struct Buffer([u8; 20]);

    impl Buffer {
        pub fn new() -> Self {
            Buffer([b'0'; 20])
        }

        pub fn format(&mut self, number: u64) -> &str {
            let (mut at, mut rest) = (20, number);
            while at == 20 || rest > 0 {
                at -= 1;
                self.0[at] = b'0' + (rest % 10) as u8;
                rest /= 10;
            }
            core::str::from_utf8(&self.0[at..]).unwrap()
        }
    }
}
