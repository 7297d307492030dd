// Written by ports/erase of crates/ndef_nest/src/nest.rt, which has the contracts: do not edit.
//! A nested message: whole heads with their types, ids and payloads at once, else octet by octet.

use crate::proved::ndef_lang::{Kind, Language};
use crate::proved::ndef_nest::context::Context;
use crate::proved::ndef_nest::demand::Demand;
use crate::proved::ndef_nest::member::is_nested;
use crate::proved::ndef_nest::phase::{headed, records_span, NestPhase};
use crate::proved::ndef_nest::span::{meets, OpenRecord};
use crate::proved::ndef_nest::whole::after_head;
use crate::proved::ndef_nest::Table;
use crate::proved::ndef_piece::{Bounds, Head, HeadReader, Step};
use crate::proved::ndef_value::{Profile, Reason, Tnf};

/// The payload of a record that holds a message: a smart poster (RTD Smart Poster 1.0), or a handover
/// request or select (Connection Handover 1.2) with its version octet.
#[derive(Clone, Debug)]
pub struct Nest {
    context: Context,
    reader: HeadReader,
    phase: NestPhase,
    /// The reason why the octet taken last is refused, if it is.
    reason: Reason,
}

/// Returns the phase after an octet in the place of the version octet.
fn after_version(byte: u8) -> (NestPhase, Reason) {
    if byte / 16 == 1 {
        (NestPhase::Start, Reason::DoesNotFit)
    } else {
        (NestPhase::Refused, Reason::Version)
    }
}

/// Whether the type may be a well-known one of `length` octets.
fn may_have(bounds: &Bounds, length: u8) -> bool {
    matches!(bounds.tnf, Tnf::WellKnown) && bounds.kind.0 <= length && length <= bounds.kind.1
}

/// The reason why an octet is refused with which a head continues, if it is.
fn reason_at_head(demand: Demand, bounds: &Bounds) -> Reason {
    match demand {
        Demand::OneUri if bounds.last && !may_have(bounds, 1) => Reason::UriMissing,
        Demand::Collision if !may_have(bounds, 2) => Reason::CollisionMissing,
        _ => Reason::DoesNotFit,
    }
}

/// Whether some `lo` to `hi` octets complete a message that has not begun.
fn start_fits(context: &Context, lo: u64, hi: u64) -> bool {
    let may_be_empty = matches!(context.table, Table::Select);
    may_be_empty && lo == 0 || meets(records_span(context), lo, hi)
}

impl Nest {
    /// Returns the state before the first octet of the payload; its message has at most `records` records, 1 to 65535.
    pub fn new(table: Table, records: u32, profile: Profile) -> Self {
        let context = Context { profile, table, demand: Demand::first(table), records };
        Nest {
            context,
            reader: HeadReader::new(context.spot(true)),
            phase: NestPhase::first(table),
            reason: Reason::DoesNotFit,
        }
    }

    /// The least and the greatest number of octets that complete the message, once it has begun:
    /// none do where the second is less.
    fn span(&self) -> (u64, u64) {
        match self.phase {
            NestPhase::Head => self.head_span(),
            phase => phase.span(&self.context),
        }
    }

    /// The same in a head of which these are the bounds.
    fn bounded_span(&self, bounds: &Bounds) -> (u64, u64) {
        OpenRecord::of_head(self.context.demand, bounds).span(self.context.demand)
    }

    /// The same in a head.
    #[inline(always)]
    fn head_span(&self) -> (u64, u64) {
        match self.reader.bounds() {
            Some(bounds) => self.bounded_span(&bounds),
            None => records_span(&self.context),
        }
    }

    /// Whether some `lo` to `hi` octets complete the message. Bounds are those of the head in which it is.
    fn fits_bounds(&self, bounds: Option<Bounds>, lo: u64, hi: u64) -> bool {
        match bounds {
            Some(bounds) => meets(self.bounded_span(&bounds), lo, hi),
            None => self.fits(lo, hi),
        }
    }

    /// The head at the front of the bytes, and its number of octets, where a record may begin and it is clear at once
    /// that this one does.
    fn whole_head(&self, bytes: &[u8]) -> Option<(Head, usize)> {
        match self.phase {
            NestPhase::Start => HeadReader::new(self.context.spot(true)).whole_head(bytes),
            NestPhase::Head => self.reader.whole_head(bytes),
            _ => None,
        }
    }

    /// Returns the state after the whole head at the front of the bytes, and as much of its record as follows, if that
    /// is all of it or its type, and it is clear at once that they may occur there, continued by `lo` to `hi` octets:
    /// the context, the position of the next octet, and the number of octets taken.
    fn after_whole(&self, bytes: &[u8], lo: u64, hi: u64) -> Option<(Context, NestPhase, usize)> {
        let (head, count) = self.whole_head(bytes)?;
        let context = self.context.fewer();
        let before = count as u64;
        let (demand, phase, more) = after_head(&context, &head, &bytes[count..], lo - before, hi - before)?;
        Some((Context { demand, ..context }, phase, count + more))
    }

    /// Takes the next octet, or more where they are a whole head, with its type, or of one nested id or payload, up to
    /// the first that is refused. Returns the number of octets looked at, and the number that come before the refused
    /// one.
    fn step_some(&mut self, bytes: &[u8], lo: u64, hi: u64) -> (usize, usize) {
        if let NestPhase::Body(body) = self.phase {
            if body.id == 0 {
                let most = bytes.len().min(body.payload as usize);
                let (phase, reason, count) = body.step_all(&self.context, &bytes[..most]);
                self.phase = phase;
                self.reason = reason;
                return (most, count);
            }
            let few = bytes.len().min(body.id as usize);
            self.phase = body.pass_id(&self.context, &bytes[..few]);
            return (few, few);
        }
        if let Some((context, phase, count)) = self.after_whole(bytes, lo, hi) {
            self.context = context;
            self.reader = HeadReader::new(context.spot(false));
            self.phase = phase;
            return (count, count);
        }
        let bounds = self.stepped(bytes[0]);
        if self.fits_bounds(bounds, lo - 1, hi - 1) {
            (1, 1)
        } else {
            (1, 0)
        }
    }

    /// Takes an octet of a head. Returns the bounds of the head where it goes on.
    #[inline(always)]
    fn at_head(&mut self, byte: u8) -> Option<Bounds> {
        match self.reader.step(byte) {
            Step::More => {
                let bounds = self.reader.bounds();
                if let Some(bounds) = bounds {
                    self.reason = reason_at_head(self.context.demand, &bounds);
                }
                bounds
            }
            Step::Head(head) => {
                self.context.records -= 1;
                self.reader = HeadReader::new(self.context.spot(false));
                let (demand, phase) = headed(&self.context, &head);
                self.context.demand = demand;
                self.phase = phase;
                self.reason = Reason::DoesNotFit;
                None
            }
            Step::Refused(reason) => {
                self.reader = HeadReader::new(self.context.spot(false));
                self.phase = NestPhase::Refused;
                self.reason = reason;
                None
            }
        }
    }

    /// Takes an octet. Returns the bounds of the head where that goes on.
    #[inline(always)]
    fn stepped(&mut self, byte: u8) -> Option<Bounds> {
        match self.phase {
            NestPhase::Version => {
                let (phase, reason) = after_version(byte);
                self.phase = phase;
                self.reason = reason;
                None
            }
            NestPhase::Start => {
                self.reader = HeadReader::new(self.context.spot(true));
                self.phase = NestPhase::Head;
                self.at_head(byte)
            }
            NestPhase::Head => self.at_head(byte),
            NestPhase::Name(name) => {
                self.reason = name.reason(self.context.demand, byte);
                let (demand, phase) = name.step(&self.context, byte);
                self.context.demand = demand;
                self.phase = phase;
                None
            }
            NestPhase::Body(body) => {
                let (phase, reason) = body.step(&self.context, byte);
                self.phase = phase;
                self.reason = reason;
                None
            }
            NestPhase::Ended | NestPhase::Refused => {
                self.phase = NestPhase::Refused;
                self.reason = Reason::DoesNotFit;
                None
            }
        }
    }
}

impl Language for Nest {
    #[inline(always)]
    fn has(kind: Kind, records: u32, profile: Profile, payload: &[u8]) -> bool {
        is_nested(Table::of(kind), records, profile, payload)
    }

    fn start(kind: Kind, records: u32, profile: Profile) -> Self {
        Nest::new(Table::of(kind), records, profile)
    }

    fn step(&mut self, byte: u8) {
        self.stepped(byte);
    }

    // Not inlined, so that payloads without a message are read fast.
    #[inline(never)]
    fn step_all(&mut self, bytes: &[u8], lo: u64, hi: u64) -> usize {
        let mut at = 0;
        while at < bytes.len() {
            let before = at as u64;
            let (looked, count) = self.step_some(&bytes[at..], lo - before, hi - before);
            if count < looked {
                return at + count;
            }
            at += looked;
        }
        at
    }

    fn fits(&self, lo: u64, hi: u64) -> bool {
        match self.phase {
            NestPhase::Version => hi > 0 && start_fits(&self.context, lo.max(1) - 1, hi - 1),
            NestPhase::Start => start_fits(&self.context, lo, hi),
            _ => meets(self.span(), lo, hi),
        }
    }

    fn reason(&self) -> Reason {
        self.reason
    }
}
