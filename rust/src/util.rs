//! Buffers.
use core::fmt;
use core::ops::Deref;

#[cfg(feature = "alloc")]
use alloc::vec::Vec;

pub(crate) mod private {
    /// Nobody but this crate can make one.
    pub struct Own(pub(crate) ());

    /// What a decoder and `encode` want of a buffer: its whole memory. Nobody else can implement it, so that every [`super::Buffer`] is one of this module's, or call it.
    ///
    /// ```
    /// fn f<B: sartrogheo::util::Buffer>(b: &B) -> usize { b.len() }
    /// ```
    /// ```compile_fail
    /// fn f<B: sartrogheo::util::Buffer>(b: &B) -> usize { b.all().len() }
    /// ```
    /// ```compile_fail
    /// fn f<B: sartrogheo::util::Buffer>(b: &B) -> usize { b.all(sartrogheo::util::private::Own(())).len() }
    /// ```
    pub trait Memory {
        /// Makes the memory `len` bytes long, if it can grow and that many can be had.
        fn grow(&mut self, len: usize, own: Own);
        /// The whole memory. It has the same length each time, but behind `grow` and what changes a growing buffer's content.
        fn all(&self, own: Own) -> &[u8];
        /// The same, to be written.
        fn all_mut(&mut self, own: Own) -> &mut [u8];
        /// Makes the first `len` bytes of the memory the content.
        fn keep(&mut self, len: usize, own: Own);
    }
}

use private::{Memory, Own};

/// A vector of bytes that a decoder, or `encode`, can own.
///
/// It is implemented for [`ArrayBuf`] and, with feature `alloc`, for `Vec<u8>`, which a decoder makes [`LIMIT`](crate::LIMIT) bytes long at once, if they can be had.
pub trait Buffer: Default + Deref<Target = [u8]> + Memory {
    /// Appends a byte, or refuses if there is no room.
    fn push(&mut self, b: u8) -> Result<(), OutOfMemory>;

    /// Keeps the first `len` bytes, or all if there are fewer.
    fn truncate(&mut self, len: usize);

    /// Removes all bytes.
    fn clear(&mut self);

    /// Appends bytes, or refuses if there is no room for all.
    fn extend_from_slice(&mut self, other: &[u8]) -> Result<(), OutOfMemory>;
}

/// A buffer of up to `N` bytes in an array.
///
/// A [`Decoder`](crate::transport::Decoder) uses the first [`LIMIT`](crate::LIMIT) bytes of a longer one.
#[derive(Clone)]
pub struct ArrayBuf<const N: usize> {
    bytes: [u8; N],
    // at most N
    len: usize,
}

impl<const N: usize> Default for ArrayBuf<N> {
    fn default() -> Self {
        ArrayBuf { bytes: [0; N], len: 0 }
    }
}

impl<const N: usize> Deref for ArrayBuf<N> {
    type Target = [u8];

    fn deref(&self) -> &[u8] {
        self.bytes.get(..self.len).unwrap_or_default()
    }
}

impl<const N: usize> fmt::Debug for ArrayBuf<N> {
    fn fmt(&self, f: &mut fmt::Formatter<'_>) -> fmt::Result {
        (**self).fmt(f)
    }
}

impl<const N: usize> PartialEq for ArrayBuf<N> {
    fn eq(&self, other: &Self) -> bool {
        **self == **other
    }
}

impl<const N: usize> Memory for ArrayBuf<N> {
    fn grow(&mut self, _len: usize, _: Own) {}

    fn all(&self, _: Own) -> &[u8] {
        &self.bytes
    }

    fn all_mut(&mut self, _: Own) -> &mut [u8] {
        &mut self.bytes
    }

    fn keep(&mut self, len: usize, _: Own) {
        self.len = len.min(N);
    }
}

impl<const N: usize> Buffer for ArrayBuf<N> {
    fn push(&mut self, b: u8) -> Result<(), OutOfMemory> {
        self.extend_from_slice(&[b])
    }

    fn truncate(&mut self, len: usize) {
        self.len = self.len.min(len);
    }

    fn clear(&mut self) {
        self.len = 0;
    }

    fn extend_from_slice(&mut self, other: &[u8]) -> Result<(), OutOfMemory> {
        let room = self.bytes.get_mut(self.len..).and_then(|rest| rest.get_mut(..other.len())).ok_or(OutOfMemory)?;
        room.copy_from_slice(other);
        self.len += other.len();
        Ok(())
    }
}

/// `Vec<u8>`, by the name that sml-rs has for it.
#[cfg(feature = "alloc")]
pub type VecBuf = Vec<u8>;

#[cfg(feature = "alloc")]
impl Memory for Vec<u8> {
    fn grow(&mut self, len: usize, _: Own) {
        if len > self.len() && self.try_reserve_exact(len - self.len()).is_ok() {
            self.resize(len, 0);
        }
    }

    fn all(&self, _: Own) -> &[u8] {
        self
    }

    fn all_mut(&mut self, _: Own) -> &mut [u8] {
        self
    }

    fn keep(&mut self, len: usize, _: Own) {
        Vec::truncate(self, len);
    }
}

#[cfg(feature = "alloc")]
impl Buffer for Vec<u8> {
    fn push(&mut self, b: u8) -> Result<(), OutOfMemory> {
        Buffer::extend_from_slice(self, &[b])
    }

    fn truncate(&mut self, len: usize) {
        Vec::truncate(self, len);
    }

    fn clear(&mut self) {
        Vec::clear(self);
    }

    fn extend_from_slice(&mut self, other: &[u8]) -> Result<(), OutOfMemory> {
        self.try_reserve(other.len()).map_err(|_| OutOfMemory)?;
        Vec::extend_from_slice(self, other);
        Ok(())
    }
}

/// There is not enough memory.
#[derive(Debug, Clone, Copy, PartialEq, Eq, PartialOrd, Ord, Hash)]
pub struct OutOfMemory;
