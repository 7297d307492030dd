// Written by ports/erase of crates/ndef_types/src/uri.rt, which has the contracts: do not edit.
//! URIs.

use crate::proved::ndef_lang::{Kind, Leaf};
use crate::proved::ndef_types::accepting::accept;
use crate::proved::ndef_value::{Profile, Refusal};

/// The payload of a URI record, whose rest is a slice of it (RTD URI 1.0). Contracts see its octets.
#[derive(Clone, Debug)]
pub struct UriParts<'a> {
    payload: &'a [u8],
}

impl<'a> UriParts<'a> {
    /// The parts of a payload that is known to be that of a URI, for either profile.
    pub fn new(payload: &'a [u8]) -> UriParts<'a> {
        UriParts { payload }
    }

    /// The parts of a payload as a reader of the profile takes it. It is refused where it isn't in the set of
    /// its type or is longer than a payload may be.
    pub fn parse(payload: &'a [u8], profile: Profile) -> Result<UriParts<'a>, Refusal> {
        match accept::<Leaf>(Kind::Uri, profile, payload) {
            Ok(()) => Ok(UriParts { payload }),
            Err(refusal) => Err(refusal),
        }
    }

    /// The code of the prefix, which `prefix` gives.
    pub fn code(&self) -> u8 {
        self.payload[0]
    }

    /// The rest of the URI, after the prefix.
    pub fn rest(&self) -> &'a str {
        // What is after the code of a URI is UTF-8.
        core::str::from_utf8(&self.payload[1..]).unwrap()
    }
}
