// Written by ports/erase of crates/ndef_types/src/power.rt, which has the contracts: do not edit.
//! The power state of a carrier.

/// The power state of a carrier (Connection Handover 1.2, Alternative Carrier record).
#[derive(Clone, Copy, Debug, PartialEq, Eq, Hash)]
pub enum Power {
    /// 0: the carrier is off.
    Inactive,
    /// 1: the carrier is on.
    Active,
    /// 2: the carrier is being turned on.
    Activating,
    /// 3: the state isn't known.
    Unknown,
}

impl Power {
    /// The state in bits 1 to 0 of an octet.
    pub(crate) fn of(octet: u8) -> Power {
        match octet % 4 {
            0 => Power::Inactive,
            1 => Power::Active,
            2 => Power::Activating,
            _ => Power::Unknown,
        }
    }

    /// The octet of a state, 0 to 3.
    pub fn code(self) -> u8 {
        match self {
            Power::Inactive => 0,
            Power::Active => 1,
            Power::Activating => 2,
            Power::Unknown => 3,
        }
    }
}
