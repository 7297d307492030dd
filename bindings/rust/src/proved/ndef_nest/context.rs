// Written by ports/erase of crates/ndef_nest/src/context.rt, which has the contracts: do not edit.
//! The state of a nested message, apart from the record that is being read.

use crate::proved::ndef_nest::demand::Demand;
use crate::proved::ndef_nest::Table;
use crate::proved::ndef_piece::Spot;
use crate::proved::ndef_value::Profile;

/// The state that follows from the records before.
#[derive(Clone, Copy, Debug)]
pub(crate) struct Context {
    pub profile: Profile,
    pub table: Table,
    /// The demand on the records from the present one on; after its type, on those after it.
    pub demand: Demand,
    /// The number of records that may still begin.
    pub records: u32,
}

impl Context {
    /// Returns the state after the head of a record: one record fewer may begin.
    pub(crate) fn fewer(self) -> Context {
        Context { records: self.records - 1, ..self }
    }

    /// Returns the spot of the next record.
    pub(crate) fn spot(self, first: bool) -> Spot {
        Spot {
            profile: self.profile,
            first,
            inside: false,
            last_piece: true,
            last_record: self.records == 1,
            room: u32::MAX,
        }
    }
}
