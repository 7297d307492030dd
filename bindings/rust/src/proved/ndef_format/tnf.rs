// Written by ports/erase of crates/ndef_format/src/tnf.rt, which has the contracts: do not edit.
//! The type name format of a record.

use core::fmt;

/// The type name format: the way in which the type of a record is to be read (NDEF 1.0, TNF).
#[derive(Clone, Copy, Debug, PartialEq, Eq, Hash)]
pub enum Tnf {
    /// A record with no type, id or payload.
    Empty,
    /// A well-known type, which the NFC Forum defines (RTD 1.0).
    WellKnown,
    /// A media type (RFC 2046).
    Media,
    /// An absolute URI (RFC 3986) names the type.
    AbsoluteUri,
    /// An external type: of somebody else's, named as the NFC Forum prescribes (RTD 1.0).
    External,
    /// A payload of unknown type.
    Unknown,
    /// A middle or terminating piece of a chunked record: the type is that of its initial piece. No
    /// `Record` has it.
    Unchanged,
}

impl Tnf {
    /// The number on the wire (NDEF 1.0, TNF), 0 to 6.
    pub fn code(self) -> u8 {
        match self {
            Tnf::Empty => 0,
            Tnf::WellKnown => 1,
            Tnf::Media => 2,
            Tnf::AbsoluteUri => 3,
            Tnf::External => 4,
            Tnf::Unknown => 5,
            Tnf::Unchanged => 6,
        }
    }

    /// The name, as it is printed.
    fn name(self) -> &'static str {
        match self {
            Tnf::Empty => "Empty",
            Tnf::WellKnown => "WellKnown",
            Tnf::Media => "Media",
            Tnf::AbsoluteUri => "AbsoluteUri",
            Tnf::External => "External",
            Tnf::Unknown => "Unknown",
            Tnf::Unchanged => "Unchanged",
        }
    }
}

/// The number on the wire and the name, as `1 WellKnown`.
impl fmt::Display for Tnf {
    fn fmt(&self, f: &mut fmt::Formatter<'_>) -> fmt::Result {
        let number = self.code();
        let name = self.name();
        write!(f, "{number} {name}")
    }
}

/// The number of no type name format: 7 is reserved, and the field has three bits.
#[derive(Clone, Copy, Debug, PartialEq, Eq, Hash)]
pub struct TnfError(pub u8);

impl core::fmt::Display for TnfError {
    fn fmt(&self, f: &mut core::fmt::Formatter<'_>) -> core::fmt::Result {
        match self {
            TnfError(_0) => write!(f, "no type name format has the number {_0}"),
        }
    }
}

impl core::error::Error for TnfError {}

/// The type name format of a number on the wire, 0 to 6; else `TnfError` with the number.
impl TryFrom<u8> for Tnf {
    type Error = TnfError;

    fn try_from(number: u8) -> Result<Tnf, TnfError> {
        match number {
            0 => Ok(Tnf::Empty),
            1 => Ok(Tnf::WellKnown),
            2 => Ok(Tnf::Media),
            3 => Ok(Tnf::AbsoluteUri),
            4 => Ok(Tnf::External),
            5 => Ok(Tnf::Unknown),
            6 => Ok(Tnf::Unchanged),
            _ => Err(TnfError(number)),
        }
    }
}
