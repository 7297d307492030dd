// Written by ports/erase of crates/ndef_nest/src/demand.rt, which has the contracts: do not edit.
//! The demands on the records to come.

use crate::proved::ndef_lang::Kind;
use crate::proved::ndef_nest::Table;

/// A demand on the records to come.
#[derive(Clone, Copy, Debug)]
pub(crate) enum Demand {
    /// Nothing.
    Anything,
    /// None of them is a URI.
    NoUri,
    /// Exactly one of them is a URI.
    OneUri,
    /// The first of them is a collision resolution.
    Collision,
}

impl Demand {
    /// Returns the demand on a whole message.
    pub(crate) fn first(table: Table) -> Self {
        match table {
            Table::SmartPoster => Demand::OneUri,
            Table::Request => Demand::Collision,
            Table::Select => Demand::Anything,
        }
    }

    /// Whether a record of this kind may come.
    pub(crate) fn allows(self, kind: Kind) -> bool {
        match self {
            Demand::Anything | Demand::OneUri => true,
            Demand::NoUri => kind != Kind::Uri,
            Demand::Collision => kind == Kind::Collision,
        }
    }

    /// Returns the demand on the records after one of this kind.
    pub(crate) fn after(self, kind: Kind) -> Self {
        match (self, kind) {
            (Demand::OneUri, Kind::Uri) => Demand::NoUri,
            (Demand::Collision, _) => Demand::Anything,
            (demand, _) => demand,
        }
    }

    /// Whether the message may end.
    pub(crate) fn is_met(self) -> bool {
        match self {
            Demand::Anything | Demand::NoUri => true,
            Demand::OneUri | Demand::Collision => false,
        }
    }
}
