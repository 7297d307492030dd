// Written by ports/erase of crates/ndef_fields/src/name.rt, which has the contracts: do not edit.
//! The names of fields.

/// The name of a field, with its number.
#[derive(Clone, Copy, Debug, PartialEq, Eq, Hash)]
pub enum FieldName {
    /// The header octet: MB, ME, CF, SR, IL and TNF (NDEF 1.0, record layout).
    Header = 1,
    /// TYPE_LENGTH, one octet.
    KindLength = 2,
    /// PAYLOAD_LENGTH, one octet in a short record, else four.
    PayloadLength = 3,
    /// ID_LENGTH, one octet, there exactly if IL is set.
    IdLength = 4,
    /// TYPE.
    Kind = 5,
    /// ID.
    Id = 6,
    /// PAYLOAD, where the standards define no fields of it, or it comes in several pieces.
    Payload = 7,
    /// The status octet of a text (RTD Text 1.0).
    Status = 8,
    /// The language code of a text.
    Language = 9,
    /// The byte order mark of a text in UTF-16 (RFC 2781).
    Mark = 10,
    /// A text (RTD Text 1.0).
    Text = 11,
    /// The identifier code of a URI (RTD URI 1.0).
    UriCode = 12,
    /// The rest of a URI, after the prefix that the code denotes.
    UriRest = 13,
    /// The recommended action of a smart poster (RTD Smart Poster 1.0).
    Action = 14,
    /// The size of the object to which a smart poster refers.
    Size = 15,
    /// The media type of the object to which a smart poster refers.
    MediaType = 16,
    /// The version octet of a handover (Connection Handover 1.2).
    Version = 17,
    /// The random number of a collision resolution.
    Collision = 18,
    /// The octet with the carrier power state (Connection Handover 1.2, Alternative Carrier record).
    Power = 19,
    /// The length of a carrier data reference.
    ReferenceLength = 20,
    /// A carrier data reference.
    Reference = 21,
    /// The number of auxiliary data references that follow.
    AuxiliaryCount = 22,
    /// The length of an auxiliary data reference.
    AuxiliaryLength = 23,
    /// An auxiliary data reference.
    Auxiliary = 24,
    /// The reserved octets after the auxiliary data references.
    AfterAuxiliary = 25,
    /// The reason of a handover error.
    ErrorReason = 26,
    /// The data of a handover error.
    ErrorData = 27,
    /// The octet with the carrier type format (Connection Handover 1.2, Handover Carrier record).
    CarrierFormat = 28,
    /// The length of a carrier type.
    CarrierKindLength = 29,
    /// A carrier type.
    CarrierKind = 30,
    /// Carrier data.
    CarrierData = 31,
}

impl FieldName {
    /// The name as it is printed: ASCII, at most 31 bytes.
    pub fn text(self) -> &'static [u8] {
        match self {
            FieldName::Header => b"header",
            FieldName::KindLength => b"TYPE_LENGTH",
            FieldName::PayloadLength => b"PAYLOAD_LENGTH",
            FieldName::IdLength => b"ID_LENGTH",
            FieldName::Kind => b"TYPE",
            FieldName::Id => b"ID",
            FieldName::Payload => b"PAYLOAD",
            FieldName::Status => b"status",
            FieldName::Language => b"language code",
            FieldName::Mark => b"byte order mark",
            FieldName::Text => b"text",
            FieldName::UriCode => b"identifier code",
            FieldName::UriRest => b"URI",
            FieldName::Action => b"action",
            FieldName::Size => b"size",
            FieldName::MediaType => b"media type",
            FieldName::Version => b"version",
            FieldName::Collision => b"random number",
            FieldName::Power => b"carrier power state",
            FieldName::ReferenceLength => b"carrier data reference length",
            FieldName::Reference => b"carrier data reference",
            FieldName::AuxiliaryCount => b"auxiliary data reference count",
            FieldName::AuxiliaryLength => b"auxiliary data reference length",
            FieldName::Auxiliary => b"auxiliary data reference",
            FieldName::AfterAuxiliary => b"reserved",
            FieldName::ErrorReason => b"error reason",
            FieldName::ErrorData => b"error data",
            FieldName::CarrierFormat => b"carrier type format",
            FieldName::CarrierKindLength => b"carrier type length",
            FieldName::CarrierKind => b"carrier type",
            FieldName::CarrierData => b"carrier data",
        }
    }
}
