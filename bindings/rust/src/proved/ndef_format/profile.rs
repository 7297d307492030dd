// Written by ports/erase of crates/ndef_format/src/profile.rt, which has the contracts: do not edit.
//! The two ways to read reserved values.

/// The way in which a reader takes the type name format 7 and the URI codes above 23 (hexadecimal), which NDEF 1.0
/// and RTD URI 1.0 reserve. Other reserved values are the same in both: bit 6 of a text's status octet
/// is refused; actions, error reasons and carrier formats are accepted.
#[derive(Clone, Copy, Debug, PartialEq, Eq, Hash)]
pub enum Profile {
    /// Both are refused, though the standards say that readers accept them.
    Strict,
    /// The type name format 7 is read as Unknown (with a type it is refused), and a reserved URI code as code 0.
    Standard,
}

/// `Strict`.
impl Default for Profile {
    fn default() -> Profile {
        Profile::Strict
    }
}
