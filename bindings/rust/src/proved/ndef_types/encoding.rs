// Written by ports/erase of crates/ndef_types/src/encoding.rt, which has the contracts: do not edit.
//! The encodings of the text of a Text record.

/// The encoding of a text (RTD Text 1.0, status octet).
#[derive(Clone, Copy, Debug, PartialEq, Eq, Hash)]
pub enum Encoding {
    /// UTF-8 (RFC 3629).
    Utf8,
    /// UTF-16 (RFC 2781), which is written big-endian after a byte order mark.
    Utf16,
}
