//! The values of payloads.
use crate::bytes::Bytes;
use crate::proved::ndef_format::{Kind, Table};
use crate::proved::ndef_lang::Leaf;
use crate::proved::ndef_nest::Nest;
use crate::proved::ndef_types::accept;
use crate::{HandoverCarrier, HandoverRequest, HandoverSelect, Profile, Refusal, SmartPoster, Text, Tnf, Uri};

/// What the payload of a record is, as its type says.
#[derive(Clone, Copy, Debug, PartialEq, Eq, Hash, PartialOrd, Ord)]
#[non_exhaustive]
#[repr(u32)]
pub enum PayloadKind {
    /// A type that the standards read here do not define in that message.
    Other = 0,
    /// A text (`T`).
    Text = 1,
    /// A URI (`U`).
    Uri = 2,
    /// A smart poster (`Sp`).
    SmartPoster = 3,
    /// A handover request (`Hr`).
    HandoverRequest = 4,
    /// A handover select (`Hs`).
    HandoverSelect = 5,
    /// A handover carrier (`Hc`).
    HandoverCarrier = 6,
    /// An action (`act`) of a smart poster.
    Action = 7,
    /// A size (`s`) of a smart poster.
    Size = 8,
    /// A media type (`t`) of a smart poster.
    MediaType = 9,
    /// An alternative carrier (`ac`) of a handover.
    AlternativeCarrier = 10,
    /// A collision resolution (`cr`) of a handover request.
    Collision = 11,
    /// An error (`err`) of a handover select.
    HandoverError = 12,
}

impl PayloadKind {
    /// The kinds, in the order of their numbers.
    pub const ALL: &'static [PayloadKind] = &[
        Self::Other,
        Self::Text,
        Self::Uri,
        Self::SmartPoster,
        Self::HandoverRequest,
        Self::HandoverSelect,
        Self::HandoverCarrier,
        Self::Action,
        Self::Size,
        Self::MediaType,
        Self::AlternativeCarrier,
        Self::Collision,
        Self::HandoverError,
    ];

    /// The kind of a record of this type, by the kind of payload that holds its message.
    pub(crate) fn of(tnf: Tnf, name: &[u8], within: Self) -> Self {
        let kind = Kind::of(tnf.proved(), name);
        let kind = match within {
            Self::Other => kind.outer(),
            Self::SmartPoster => Table::SmartPoster.checked(kind),
            Self::HandoverRequest => Table::Request.checked(kind),
            Self::HandoverSelect => Table::Select.checked(kind),
            _ => Kind::Other,
        };
        Self::ALL[kind as usize]
    }

    /// Its number.
    #[must_use]
    pub const fn number(self) -> u32 {
        self as u32
    }
}

/// Looks whether a payload is one of its kind.
pub(crate) fn check_payload(kind: Kind, profile: Profile, payload: &[u8]) -> Result<(), Refusal> {
    match kind.table() {
        Some(_) => accept::<Nest>(kind, profile.proved(), payload),
        None => accept::<Leaf>(kind, profile.proved(), payload),
    }
    .map_err(Refusal::of)
}

/// The value of a payload, by the type of its record.
#[derive(Clone, Debug)]
#[cfg_attr(feature = "alloc", derive(PartialEq, Eq, Hash))]
#[non_exhaustive]
pub enum Payload<'a> {
    /// A text (`T`).
    Text(Text<'a>),
    /// A URI (`U`).
    Uri(Uri<'a>),
    /// A smart poster (`Sp`).
    SmartPoster(SmartPoster<'a>),
    /// A handover request (`Hr`).
    HandoverRequest(HandoverRequest<'a>),
    /// A handover select (`Hs`).
    HandoverSelect(HandoverSelect<'a>),
    /// A handover carrier (`Hc`).
    HandoverCarrier(HandoverCarrier<'a>),
    /// The record has another type.
    Other,
}

impl<'a> Payload<'a> {
    /// The value of the whole payload of a record with this type.
    ///
    /// # Errors
    ///
    /// The payload is not one of its type. The offset counts from its first byte.
    pub fn parse(tnf: Tnf, kind: &[u8], payload: &'a [u8], profile: Profile) -> Result<Self, Refusal> {
        Self::of(Kind::of(tnf.proved(), kind), payload.into(), profile)
    }

    pub(crate) fn of(kind: Kind, payload: Bytes<'a>, profile: Profile) -> Result<Self, Refusal> {
        if kind.outer() != Kind::Other {
            check_payload(kind, profile, &payload)?;
        }
        Ok(Self::known(kind, payload, profile))
    }

    /// The value of a payload that is known to be of its kind.
    pub(crate) fn known(kind: Kind, payload: Bytes<'a>, profile: Profile) -> Self {
        match kind {
            Kind::Text => Self::Text(Text::known(payload)),
            Kind::Uri => Self::Uri(Uri::known(payload)),
            Kind::SmartPoster => Self::SmartPoster(SmartPoster::known(payload, profile)),
            Kind::Request => Self::HandoverRequest(HandoverRequest::known(payload, profile)),
            Kind::Select => Self::HandoverSelect(HandoverSelect::known(payload, profile)),
            Kind::Carrier => Self::HandoverCarrier(HandoverCarrier::known(payload)),
            _ => Self::Other,
        }
    }
}
