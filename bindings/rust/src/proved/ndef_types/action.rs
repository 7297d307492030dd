// Written by ports/erase of crates/ndef_types/src/action.rt, which has the contracts: do not edit.
//! The recommended action of a smart poster.

/// The action that a smart poster recommends for its URI (RTD Smart Poster 1.0, recommended action record).
#[derive(Clone, Copy, Debug, PartialEq, Eq, Hash)]
pub enum Action {
    /// 0: do the action, as to open the URI.
    Do,
    /// 1: save for later.
    Save,
    /// 2: open for editing.
    Open,
    /// A reserved action, 3 to 255.
    Other(u8),
}

impl Action {
    /// The action of an octet.
    pub(crate) fn of(octet: u8) -> Action {
        match octet {
            0 => Action::Do,
            1 => Action::Save,
            2 => Action::Open,
            _ => Action::Other(octet),
        }
    }
}
