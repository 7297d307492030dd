//! Bytes that are borrowed, or owned where there is memory. `Cow` itself needs memory, and the crate works without.
use core::fmt;
use core::hash::{Hash, Hasher};
use core::ops::Deref;

#[cfg(feature = "alloc")]
use alloc::{borrow::Cow, string::String, vec::Vec};

/// Bytes that are borrowed or, with the feature `alloc`, owned: a `Cow` that needs no memory. The parts of a
/// [`NewRecord`](crate::NewRecord) are such bytes; slices, arrays and strings become them, and so do vectors.
///
/// They are equal if their bytes are.
#[derive(Clone)]
#[non_exhaustive]
pub enum Bytes<'a> {
    /// They are borrowed.
    Borrowed(&'a [u8]),
    /// They are owned.
    #[cfg(feature = "alloc")]
    Owned(Vec<u8>),
}

impl<'a> Bytes<'a> {
    /// A part of them. It is borrowed if they are.
    pub(crate) fn part(&self, at: usize, length: usize) -> Bytes<'a> {
        match self {
            Self::Borrowed(bytes) => Bytes::Borrowed(&bytes[at..][..length]),
            #[cfg(feature = "alloc")]
            Self::Owned(bytes) => Bytes::Owned(bytes[at..][..length].into()),
        }
    }

    /// The same bytes, which borrow nothing.
    #[cfg(feature = "alloc")]
    #[must_use]
    pub fn into_owned(self) -> Bytes<'static> {
        match self {
            Self::Borrowed(bytes) => Bytes::Owned(bytes.into()),
            Self::Owned(bytes) => Bytes::Owned(bytes),
        }
    }
}

impl Deref for Bytes<'_> {
    type Target = [u8];

    fn deref(&self) -> &[u8] {
        match self {
            Self::Borrowed(bytes) => bytes,
            #[cfg(feature = "alloc")]
            Self::Owned(bytes) => bytes,
        }
    }
}

impl AsRef<[u8]> for Bytes<'_> {
    fn as_ref(&self) -> &[u8] {
        self
    }
}

/// No bytes.
impl Default for Bytes<'_> {
    fn default() -> Self {
        Self::Borrowed(&[])
    }
}

impl PartialEq for Bytes<'_> {
    fn eq(&self, other: &Self) -> bool {
        **self == **other
    }
}

impl Eq for Bytes<'_> {}

impl Hash for Bytes<'_> {
    fn hash<H: Hasher>(&self, state: &mut H) {
        (**self).hash(state);
    }
}

impl<'a> From<&'a [u8]> for Bytes<'a> {
    fn from(bytes: &'a [u8]) -> Self {
        Self::Borrowed(bytes)
    }
}

impl<'a, const N: usize> From<&'a [u8; N]> for Bytes<'a> {
    fn from(bytes: &'a [u8; N]) -> Self {
        Self::Borrowed(bytes)
    }
}

impl<'a> From<&'a str> for Bytes<'a> {
    fn from(text: &'a str) -> Self {
        Self::Borrowed(text.as_bytes())
    }
}

/// Which types become bytes where there is an allocator, and how.
#[cfg(feature = "alloc")]
macro_rules! become_bytes {
    ($($given:ty: $name:ident => $bytes:expr;)*) => { $(
        impl<'a> From<$given> for Bytes<'a> {
            fn from($name: $given) -> Self {
                $bytes
            }
        }
    )* };
}

#[cfg(feature = "alloc")]
become_bytes! {
    Vec<u8>: bytes => Self::Owned(bytes);
    &'a Vec<u8>: bytes => Self::Borrowed(bytes);
    String: text => Self::Owned(text.into_bytes());
    &'a String: text => Self::Borrowed(text.as_bytes());
    Cow<'a, [u8]>: bytes => match bytes {
        Cow::Borrowed(bytes) => Self::Borrowed(bytes),
        Cow::Owned(bytes) => Self::Owned(bytes),
    };
    Cow<'a, str>: text => match text {
        Cow::Borrowed(text) => text.into(),
        Cow::Owned(text) => text.into(),
    };
}

/// As Rust writes byte strings.
impl fmt::Debug for Bytes<'_> {
    fn fmt(&self, to: &mut fmt::Formatter<'_>) -> fmt::Result {
        Quoted(self).fmt(to)
    }
}

/// Bytes that `Debug` writes between quotation marks, as Rust writes byte strings.
pub(crate) struct Quoted<'a>(pub(crate) &'a [u8]);

impl fmt::Debug for Quoted<'_> {
    fn fmt(&self, to: &mut fmt::Formatter<'_>) -> fmt::Result {
        write!(to, "b\"{}\"", self.0.escape_ascii())
    }
}
