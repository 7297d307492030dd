// Written by ports/erase of crates/ndef_format/src/table.rt, which has the contracts: do not edit.
//! The types of nested messages.

use crate::proved::ndef_format::{Kind, Tnf};

/// The nested messages, each with the types of its records whose payloads are checked.
#[derive(Clone, Copy, Debug, PartialEq, Eq, Hash)]
pub enum Table {
    /// The message of a smart poster (RTD Smart Poster 1.0).
    SmartPoster,
    /// The message of a handover request (Connection Handover 1.2).
    Request,
    /// The message of a handover select (Connection Handover 1.2).
    Select,
}

impl Table {
    /// The nested message of a kind of payload; a poster where it has none.
    pub fn of(kind: Kind) -> Self {
        kind.table().unwrap_or(Table::SmartPoster)
    }

    /// The kind of a record there, by its type; Other if its payload isn't checked.
    pub fn kind(self, tnf: Tnf, name: &[u8]) -> Kind {
        self.checked(Kind::of(tnf, name))
    }

    /// Whether the payload of a record of this kind is checked there.
    fn checks(self, kind: Kind) -> bool {
        match kind {
            Kind::Uri | Kind::Text | Kind::Action | Kind::Size | Kind::MediaType => {
                matches!(self, Table::SmartPoster)
            }
            Kind::Collision => matches!(self, Table::Request),
            Kind::Alternative => matches!(self, Table::Request | Table::Select),
            Kind::Error => matches!(self, Table::Select),
            Kind::SmartPoster | Kind::Request | Kind::Select | Kind::Carrier | Kind::Other => false,
        }
    }

    /// The kind whose payloads a record there has, by the kind of its type; Other if they aren't checked.
    pub fn checked(self, kind: Kind) -> Kind {
        if self.checks(kind) {
            kind
        } else {
            Kind::Other
        }
    }
}

impl Kind {
    /// The message that a payload of this kind holds (RTD Smart Poster 1.0, Connection Handover 1.2); None for a kind
    /// whose payloads hold none.
    #[inline(always)]
    pub fn table(self) -> Option<Table> {
        match self {
            Kind::SmartPoster => Some(Table::SmartPoster),
            Kind::Request => Some(Table::Request),
            Kind::Select => Some(Table::Select),
            Kind::Other
            | Kind::Text
            | Kind::Uri
            | Kind::Carrier
            | Kind::Action
            | Kind::Size
            | Kind::MediaType
            | Kind::Alternative
            | Kind::Collision
            | Kind::Error => None,
        }
    }
}
