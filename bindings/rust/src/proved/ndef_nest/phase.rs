// Written by ports/erase of crates/ndef_nest/src/phase.rt, which has the contracts: do not edit.
//! The position of the next octet in a nested message.

use crate::proved::ndef_lang::{Kind, KindReader, Language, Leaf};
use crate::proved::ndef_nest::context::Context;
use crate::proved::ndef_nest::demand::Demand;
use crate::proved::ndef_nest::span::{least, most, tail, OpenRecord};
use crate::proved::ndef_nest::Table;
use crate::proved::ndef_piece::Head;
use crate::proved::ndef_value::Reason;

/// A record whose type is being read.
#[derive(Clone, Copy, Debug)]
pub(crate) struct Name {
    pub names: KindReader,
    /// ME.
    pub last: bool,
    /// ID_LENGTH.
    pub id: u8,
    /// PAYLOAD_LENGTH.
    pub payload: u32,
}

/// A record whose id or payload is being read.
#[derive(Clone, Copy, Debug)]
pub(crate) struct Body {
    pub leaf: Leaf,
    /// ME.
    pub last: bool,
    /// The number of octets of the id still to come.
    pub id: u8,
    /// The number of octets of the payload still to come.
    pub payload: u32,
}

/// The place of the next octet.
#[derive(Clone, Copy, Debug)]
pub(crate) enum NestPhase {
    /// The version octet of a handover.
    Version,
    /// The first octet of the message. A select may have none.
    Start,
    /// The head of a record.
    Head,
    /// Its type.
    Name(Name),
    /// Its id or its payload.
    Body(Body),
    /// The message has ended.
    Ended,
    /// An octet was refused.
    Refused,
}

impl NestPhase {
    /// Returns the phase before the first octet of the payload.
    pub(crate) fn first(table: Table) -> Self {
        match table {
            Table::SmartPoster => NestPhase::Start,
            Table::Request | Table::Select => NestPhase::Version,
        }
    }

    /// The least and the greatest number of octets that complete the message, once it has begun, where no octet of a
    /// head has come: none do where the second is less.
    #[inline(always)]
    pub(crate) fn span(self, context: &Context) -> (u64, u64) {
        match self {
            NestPhase::Version | NestPhase::Start | NestPhase::Refused => (1, 0),
            NestPhase::Head => records_span(context),
            NestPhase::Name(name) => OpenRecord::of_name(context.demand, name).span(context.demand),
            NestPhase::Body(body) => body.span(context),
            NestPhase::Ended => (0, 0),
        }
    }
}

/// The least and the greatest number of octets of the records to come.
pub(crate) fn records_span(context: &Context) -> (u64, u64) {
    (least(context.demand), most(context.demand, context.records - 1))
}

/// Returns the phase after a head.
pub(crate) fn headed(context: &Context, head: &Head) -> (Demand, NestPhase) {
    Name::new(head).settled(context)
}

/// Returns the phase after a head and its type.
pub(crate) fn typed(context: &Context, head: &Head, name: &[u8]) -> (Demand, NestPhase) {
    let kind = context.table.checked(Kind::of(head.tnf, name));
    Name::new(head).entered(context, kind)
}

/// The octet of `cr` that comes when `left` octets of a type are still to come.
fn collision_octet(left: u8) -> u8 {
    if left == 2 {
        b'c'
    } else {
        b'r'
    }
}

impl Name {
    /// Returns the phase before the first octet of the type, after this head.
    fn new(head: &Head) -> Self {
        Name {
            names: KindReader::new(head.tnf, head.kind_length),
            last: head.last,
            id: head.id_length.unwrap_or(0),
            payload: head.payload_length,
        }
    }

    /// Returns the position of the next octet: in the type, or after it.
    fn settled(self, context: &Context) -> (Demand, NestPhase) {
        if self.names.missing() > 0 {
            return (context.demand, NestPhase::Name(self));
        }
        let kind = context.table.checked(self.names.kind());
        self.entered(context, kind)
    }

    /// Returns the phase after a type of this kind.
    fn entered(self, context: &Context, kind: Kind) -> (Demand, NestPhase) {
        if !context.demand.allows(kind) {
            return (context.demand, NestPhase::Refused);
        }
        let demand = context.demand.after(kind);
        let next = Context { demand, ..*context };
        let body =
            Body { leaf: Leaf::start(kind, 1, context.profile), last: self.last, id: self.id, payload: self.payload };
        (demand, body.settled(&next))
    }

    /// Returns the phase after the next octet of the type.
    pub(crate) fn step(self, context: &Context, byte: u8) -> (Demand, NestPhase) {
        let mut names = self.names;
        names.step(byte);
        let next = Name { names, ..self };
        next.settled(context)
    }

    /// The reason why the next octet of the type is refused, if it is.
    pub(crate) fn reason(self, demand: Demand, byte: u8) -> Reason {
        let missing = self.names.missing();
        let mut names = self.names;
        names.step(byte);
        match demand {
            Demand::OneUri if self.last && byte != b'U' => Reason::UriMissing,
            Demand::NoUri if matches!(names.kind(), Kind::Uri) => Reason::UriAgain,
            Demand::Collision if byte != collision_octet(missing) => Reason::CollisionMissing,
            _ => Reason::DoesNotFit,
        }
    }
}

/// Returns the position of the next octet after the last one of a record.
pub(crate) fn after_record(context: &Context, last: bool) -> NestPhase {
    if !last {
        NestPhase::Head
    } else if context.demand.is_met() {
        NestPhase::Ended
    } else {
        NestPhase::Refused
    }
}

impl Body {
    /// Returns the position of the next octet: in the id or the payload, or after the record.
    fn settled(self, context: &Context) -> NestPhase {
        let left = u64::from(self.id) + u64::from(self.payload);
        if left > 0 {
            NestPhase::Body(self)
        } else if !self.leaf.fits(0, 0) {
            NestPhase::Refused
        } else {
            after_record(context, self.last)
        }
    }

    /// Returns the phase after the next octet of the id or the payload, and the reason why that is refused, if it is.
    pub(crate) fn step(self, context: &Context, byte: u8) -> (NestPhase, Reason) {
        if self.id > 0 {
            let id = self.id - 1;
            let next = Body { id, ..self };
            return (next.settled(context), Reason::DoesNotFit);
        }
        let mut leaf = self.leaf;
        leaf.step(byte);
        let payload = self.payload - 1;
        let next = Body { leaf, payload, ..self };
        (next.settled(context), leaf.reason())
    }

    /// Returns the phase after octets of the id, no more than it still has. None of them is refused.
    pub(crate) fn pass_id(self, context: &Context, octets: &[u8]) -> NestPhase {
        let id = self.id - octets.len() as u8;
        let next = Body { id, ..self };
        next.settled(context)
    }

    /// Returns the phase after octets of the payload, no more than it still has, up to the first that is refused; the
    /// reason for that one; and the number of octets before it.
    pub(crate) fn step_all(self, context: &Context, bytes: &[u8]) -> (NestPhase, Reason, usize) {
        let length = u64::from(self.payload);
        let mut leaf = self.leaf;
        let count = leaf.step_all(bytes, length, length);
        let taken = bytes.len().min(count + 1);
        let payload = self.payload - taken as u32;
        let next = Body { leaf, payload, ..self };
        (next.settled(context), leaf.reason(), count)
    }

    /// The least and the greatest number of octets that complete the message.
    pub(crate) fn span(self, context: &Context) -> (u64, u64) {
        let length = u64::from(self.payload);
        if !self.leaf.fits(length, length) {
            return (1, 0);
        }
        let left = u64::from(self.id) + length;
        let span = tail(self.last, context.demand, context.records);
        (left + span.0, left + span.1)
    }
}
