// Written by ports/erase of crates/ndef_nest/src/span.rt, which has the contracts: do not edit.
//! The number of octets that complete a nested message.

use crate::proved::ndef_lang::{Kind, KindReader};
use crate::proved::ndef_nest::demand::Demand;
use crate::proved::ndef_nest::phase::Name;
use crate::proved::ndef_piece::Bounds;
use crate::proved::ndef_value::Tnf;

/// No payload is longer, and no longer list is requested.
const MOST: u64 = 4_294_967_295;

/// The state of the record that is being read, up to its type: the least and the greatest of
/// its lengths.
#[derive(Clone, Copy, Debug)]
pub(crate) struct OpenRecord {
    /// ME.
    pub last: bool,
    /// The number of octets of its head still to come.
    pub head: usize,
    /// The least and the greatest number of octets of its type still to come.
    pub kind: (u8, u8),
    /// The least and the greatest ID_LENGTH.
    pub id: (u8, u8),
    /// The least and the greatest PAYLOAD_LENGTH.
    pub payload: (u64, u64),
    /// The number of octets of its type still to come if it is the demanded one, unless it can't be.
    pub missing: Option<u8>,
}

/// The least number of octets of the records to come.
pub(crate) fn least(demand: Demand) -> u64 {
    match demand {
        Demand::Anything | Demand::NoUri => 3,
        Demand::OneUri => 5,
        Demand::Collision => 7,
    }
}

/// The greatest number of octets of the records to come, with `others` after the next.
pub(crate) fn most(demand: Demand, others: u32) -> u64 {
    match (demand, others) {
        (Demand::Collision, 0) => 266,
        _ => MOST,
    }
}

/// The range of what follows a record, where `records` may still come.
pub(crate) fn tail(last: bool, demand: Demand, records: u32) -> (u64, u64) {
    if !last {
        (least(demand), most(demand, records - 1))
    } else if demand.is_met() {
        (0, 0)
    } else {
        (1, 0)
    }
}

/// Whether one of the numbers of the range is `lo` to `hi`.
pub(crate) fn meets(span: (u64, u64), lo: u64, hi: u64) -> bool {
    span.0.max(lo) <= span.1.min(hi)
}

/// Returns the range if exactly one URI is demanded: a last record is it, another may be it.
fn with_uri(plain: (u64, u64), last: bool, expected: Option<(u64, u64)>) -> (u64, u64) {
    match expected {
        None if last => (1, 0),
        None => plain,
        Some(span) if last => span,
        Some(span) => (span.0.min(plain.0), MOST),
    }
}

/// The octets of a head, a type, an id and a payload.
fn total(head: usize, kind: u8, id: u8, payload: u64) -> u64 {
    head as u64 + u64::from(kind) + u64::from(id) + payload
}

impl OpenRecord {
    /// Returns the range if nothing is demanded of the record.
    fn plain(&self, demand: Demand) -> (u64, u64) {
        let shortest = total(self.head, self.kind.0, self.id.0, self.payload.0);
        if self.last {
            (shortest, total(self.head, self.kind.1, self.id.1, self.payload.1))
        } else {
            (shortest + least(demand), MOST)
        }
    }

    /// Returns the range of a record of the demanded type, with `missing` octets of its type to
    /// come and `low` to `high` octets of payload.
    fn such(&self, low: u64, high: u64, missing: u8) -> (u64, u64) {
        let shortest = total(self.head, missing, self.id.0, self.payload.0.max(low));
        if self.last {
            (shortest, total(self.head, missing, self.id.1, self.payload.1.min(high)))
        } else {
            (shortest + 3, MOST)
        }
    }

    /// Returns the range of the records of the demanded type, with `low` to `high` octets of
    /// payload, if there are any.
    fn expected(&self, low: u64, high: u64) -> Option<(u64, u64)> {
        let missing = self.missing?;
        if self.kind.0 <= missing && missing <= self.kind.1 && self.payload.0.max(low) <= self.payload.1.min(high) {
            Some(self.such(low, high, missing))
        } else {
            None
        }
    }

    /// The least and the greatest number of octets that complete the message: none do where the
    /// second is less.
    pub(crate) fn span(&self, demand: Demand) -> (u64, u64) {
        match demand {
            Demand::Anything | Demand::NoUri => self.plain(demand),
            Demand::OneUri => with_uri(self.plain(demand), self.last, self.expected(1, MOST)),
            Demand::Collision => self.expected(2, 2).unwrap_or((1, 0)),
        }
    }

    /// Within a head.
    #[inline(always)]
    pub(crate) fn of_head(demand: Demand, bounds: &Bounds) -> Self {
        let missing = match (demand, bounds.tnf) {
            (Demand::OneUri, Tnf::WellKnown) => Some(1),
            (Demand::Collision, Tnf::WellKnown) => Some(2),
            _ => None,
        };
        OpenRecord {
            last: bounds.last,
            head: bounds.left,
            kind: bounds.kind,
            id: bounds.id,
            payload: bounds.payload,
            missing,
        }
    }

    /// Within a type.
    #[inline(always)]
    pub(crate) fn of_name(demand: Demand, name: Name) -> Self {
        let payload = u64::from(name.payload);
        let left = name.names.missing();
        OpenRecord {
            last: name.last,
            head: 0,
            kind: (left, left),
            id: (name.id, name.id),
            payload: (payload, payload),
            missing: missing(demand, name.names),
        }
    }
}

/// Returns the number of octets of a half-read type still to come if it is the demanded one.
fn missing(demand: Demand, names: KindReader) -> Option<u8> {
    let left = names.missing();
    let mut names = names;
    let found = match (demand, left) {
        (Demand::OneUri, 1) => {
            names.step(b'U');
            matches!(names.kind(), Kind::Uri)
        }
        (Demand::Collision, 1) => {
            names.step(b'r');
            matches!(names.kind(), Kind::Collision)
        }
        (Demand::Collision, 2) => {
            names.step(b'c');
            names.step(b'r');
            matches!(names.kind(), Kind::Collision)
        }
        _ => false,
    };
    if found {
        Some(left)
    } else {
        None
    }
}
