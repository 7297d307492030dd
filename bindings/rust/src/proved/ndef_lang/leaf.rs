// Written by ports/erase of crates/ndef_lang/src/leaf.rt, which has the contracts: do not edit.
//! The payloads of each kind, field by field.

use super::ascii::is_ascii;
use super::language::Language;
use super::lengths::Lengths;
use super::member::is_leaf_payload;
use super::record_language::RecordLanguage;
use super::utf16::Utf16State;
use super::utf8::Utf8Lang;
use crate::proved::ndef_format::{Kind, Tnf};
use crate::proved::ndef_value::{Profile, Reason};

/// The octets that a field may have.
#[derive(Clone, Copy, Debug, PartialEq, Eq)]
pub enum Class {
    /// Any.
    Any,
    /// Those of a language code.
    Code,
}

/// The layout after a field of known length.
#[derive(Clone, Copy, Debug, PartialEq, Eq)]
pub enum Stage {
    /// Nothing.
    End,
    /// Any octets.
    Any,
    /// A UTF-8 text.
    Utf8,
    /// A UTF-16 text.
    Utf16,
    /// The status octet of a text, a language code and a text.
    Status,
    /// The code of a URI and a text.
    UriCode(Profile),
    /// The reason of a handover error and its data.
    ErrorReason,
    /// The length of a carrier type, the type and any octets.
    CarrierKindLength,
    /// The length of a carrier reference, the reference and auxiliary references.
    ReferenceLength,
    /// The number of auxiliary references, these and any octets.
    AuxiliaryCount,
    /// That many references, each after its length, and any octets.
    References(u8),
}

/// A payload, as the octets that complete it.
#[derive(Clone, Copy, Debug, PartialEq, Eq)]
pub enum Leaf {
    /// `left` octets of the class, and then the stage.
    Field { left: u32, class: Class, next: Stage },
    /// The rest of a UTF-8 text.
    Utf8(Utf8Lang),
    /// The rest of a UTF-16 text.
    Utf16(Utf16State),
    /// Nothing.
    Refused(Reason),
}

/// `left` octets, and then the stage.
#[inline(always)]
fn field(left: u8, next: Stage) -> Leaf {
    Leaf::Field { left: u32::from(left), class: Class::Any, next }
}

/// A text.
fn text(wide: bool) -> Stage {
    if wide {
        Stage::Utf16
    } else {
        Stage::Utf8
    }
}

/// Whether the profile refuses the code.
fn is_reserved(profile: Profile, code: u8) -> bool {
    match profile {
        Profile::Strict => code > 0x23,
        Profile::Standard => false,
    }
}

impl Stage {
    /// The field that the first octet leaves, where it isn't refused: the number of its octets, their class,
    /// and the stage after it. A field that goes to the end leaves itself.
    pub fn field_after(self, octet: u8) -> Leaf {
        match self {
            Stage::End | Stage::Any | Stage::Utf8 | Stage::Utf16 => field(0, self),
            Stage::Status => Leaf::Field { left: u32::from(octet % 64), class: Class::Code, next: text(octet >= 128) },
            Stage::UriCode(_) => field(0, Stage::Utf8),
            Stage::ErrorReason => match octet {
                1 | 3 => field(1, Stage::End),
                2 => field(4, Stage::End),
                _ => field(0, Stage::Any),
            },
            Stage::CarrierKindLength => field(octet, Stage::Any),
            Stage::ReferenceLength => field(octet, Stage::AuxiliaryCount),
            Stage::AuxiliaryCount => field(0, Stage::References(octet)),
            Stage::References(count) => {
                if count == 0 {
                    field(0, Stage::Any)
                } else {
                    field(octet, Stage::References(count - 1))
                }
            }
        }
    }

    /// Returns the state after its first octet.
    #[inline(always)]
    fn after(self, byte: u8) -> Leaf {
        match self {
            Stage::End => Leaf::Refused(Reason::DoesNotFit),
            Stage::Utf8 => Leaf::Utf8(Utf8Lang::Whole.after(byte)),
            Stage::Utf16 => Leaf::Utf16(Utf16State::Start.after(byte)),
            Stage::Status => {
                if byte % 128 >= 64 {
                    Leaf::Refused(Reason::TextBit)
                } else {
                    self.field_after(byte)
                }
            }
            Stage::UriCode(profile) => {
                if is_reserved(profile, byte) {
                    Leaf::Refused(Reason::UriCode)
                } else {
                    self.field_after(byte)
                }
            }
            _ => self.field_after(byte),
        }
    }
}

impl Class {
    /// Whether the octet is in it.
    fn has(self, byte: u8) -> bool {
        match self {
            Class::Any => true,
            Class::Code => byte <= 0x7f,
        }
    }

    /// Whether they all are.
    fn has_all(self, bytes: &[u8]) -> bool {
        match self {
            Class::Any => true,
            Class::Code => is_ascii(bytes),
        }
    }
}

impl Leaf {
    /// Returns the state before the first octet of a payload of the kind.
    #[inline(always)]
    pub fn of(kind: Kind, profile: Profile) -> Leaf {
        match kind {
            Kind::Text => field(0, Stage::Status),
            Kind::Uri => field(0, Stage::UriCode(profile)),
            Kind::MediaType => field(0, Stage::Utf8),
            Kind::Action => field(1, Stage::End),
            Kind::Size => field(4, Stage::End),
            Kind::Collision => field(2, Stage::End),
            Kind::Alternative => field(1, Stage::ReferenceLength),
            Kind::Error => field(0, Stage::ErrorReason),
            Kind::Carrier => field(1, Stage::CarrierKindLength),
            Kind::Other | Kind::SmartPoster | Kind::Request | Kind::Select => field(0, Stage::Any),
        }
    }

    /// Returns the state after an octet.
    #[inline(always)]
    pub(crate) fn after(self, byte: u8) -> Leaf {
        match self {
            Leaf::Field { left, class, next } => {
                if left == 0 {
                    next.after(byte)
                } else if class.has(byte) {
                    Leaf::Field { left: left - 1, class, next }
                } else {
                    Leaf::Refused(Reason::Language)
                }
            }
            Leaf::Utf8(text) => Leaf::Utf8(text.after(byte)),
            Leaf::Utf16(text) => Leaf::Utf16(text.after(byte)),
            Leaf::Refused(reason) => Leaf::Refused(reason),
        }
    }

    /// The numbers of octets that complete a payload.
    #[inline(always)]
    pub fn lengths(self) -> Lengths {
        match self {
            Leaf::Field { left, next, .. } => {
                let left = u64::from(left);
                match next {
                    Stage::End => Lengths::Exactly(left),
                    Stage::Any | Stage::Utf8 => Lengths::From(left),
                    Stage::Utf16 => Lengths::PairsFrom(left),
                    Stage::Status
                    | Stage::UriCode(_)
                    | Stage::ErrorReason
                    | Stage::CarrierKindLength
                    | Stage::AuxiliaryCount => Lengths::From(left + 1),
                    Stage::ReferenceLength => Lengths::From(left + 2),
                    Stage::References(count) => Lengths::From(left + u64::from(count)),
                }
            }
            Leaf::Utf8(text) => text.lengths(),
            Leaf::Utf16(text) => text.lengths(),
            Leaf::Refused(_) => Lengths::Never,
        }
    }

    /// The reason of the octet taken last.
    pub(crate) fn refusal_reason(self) -> Reason {
        match self {
            Leaf::Field { .. } => Reason::DoesNotFit,
            Leaf::Utf8(text) => text.refusal_reason(),
            Leaf::Utf16(text) => text.refusal_reason(),
            Leaf::Refused(reason) => reason,
        }
    }
}

/// Returns the state after the status octet and the language code of a text in UTF-8, where nothing can refuse them,
/// and the number of these octets.
#[inline(always)]
fn after_code(bytes: &[u8]) -> Option<(Leaf, usize)> {
    let [status, rest @ ..] = bytes else {
        return None;
    };
    let length = usize::from(*status % 64);
    if *status >= 64 || rest.len() < length || !is_ascii(&rest[..length]) {
        return None;
    }
    let text = Leaf::Field { left: 0, class: Class::Code, next: Stage::Utf8 };
    Some((text, length + 1))
}

impl Leaf {
    /// Takes octets at the front at once, where nothing can refuse them; answers their number.
    fn take_front(&mut self, bytes: &[u8]) -> usize {
        match *self {
            Leaf::Field { left, class, next } => {
                if left == 0 {
                    match next {
                        Stage::Any => bytes.len(),
                        Stage::Status => {
                            let Some((text, count)) = after_code(bytes) else {
                                return 0;
                            };
                            *self = text;
                            count
                        }
                        _ => 0,
                    }
                } else {
                    let count = bytes.len().min(left as usize);
                    if !class.has_all(&bytes[..count]) {
                        return 0;
                    }
                    *self = Leaf::Field { left: left - count as u32, class, next };
                    count
                }
            }
            Leaf::Utf16(mut text) => {
                let count = text.take_front(bytes);
                *self = Leaf::Utf16(text);
                count
            }
            _ => 0,
        }
    }
}

impl Leaf {
    /// The UTF-8 text that goes on from here, if one does.
    fn text(self) -> Option<Utf8Lang> {
        match self {
            Leaf::Utf8(text) => Some(text),
            Leaf::Field { left: 0, next: Stage::Utf8, .. } => Some(Utf8Lang::Whole),
            _ => None,
        }
    }

    /// Takes an octet, and returns 1, if what is still to come, `lo` to `hi` octets before it, can complete the payload
    /// then, else 0.
    #[inline(always)]
    fn take_octet(&mut self, bytes: &[u8], lo: u64, hi: u64) -> usize {
        *self = self.after(bytes[0]);
        if !self.lengths().meet(lo - 1, hi - 1) {
            return 0;
        }
        1
    }

    /// Takes octets while what is still to come, `lo` to `hi` octets before the first of them, can complete the
    /// payload; returns their number. Where that is fewer than all, it has taken one more.
    pub(crate) fn take(&mut self, bytes: &[u8], lo: u64, hi: u64) -> usize {
        if bytes.len() == 1 {
            return self.take_octet(bytes, lo, hi);
        }
        let mut at = 0;
        while at < bytes.len() {
            at += self.take_front(&bytes[at..]);
            if at == bytes.len() {
                return at;
            }
            if let Some(mut text) = self.text() {
                let before = at as u64;
                let more = text.take(&bytes[at..], lo - before, hi - before);
                *self = Leaf::Utf8(text);
                return at + more;
            }
            *self = self.after(bytes[at]);
            let taken = at as u64 + 1;
            if !self.lengths().meet(lo - taken, hi - taken) {
                return at;
            }
            at += 1;
        }
        at
    }
}

impl Language for Leaf {
    #[inline(always)]
    fn has(kind: Kind, _records: u32, profile: Profile, payload: &[u8]) -> bool {
        is_leaf_payload(kind, profile, payload)
    }

    #[inline(always)]
    fn start(kind: Kind, _records: u32, profile: Profile) -> Self {
        Leaf::of(kind, profile)
    }

    fn step(&mut self, byte: u8) {
        *self = self.after(byte);
    }

    fn step_all(&mut self, bytes: &[u8], lo: u64, hi: u64) -> usize {
        self.take(bytes, lo, hi)
    }

    fn fits(&self, lo: u64, hi: u64) -> bool {
        self.lengths().meet(lo, hi)
    }

    fn reason(&self) -> Reason {
        self.refusal_reason()
    }
}

impl Leaf {
    /// Whether it is clear at once that any octets are a payload of the kind.
    pub fn takes_any(kind: Kind) -> bool {
        matches!(kind, Kind::Other | Kind::SmartPoster | Kind::Request | Kind::Select)
    }

    /// Whether it is clear at once that any octets complete the payload, and leave what can follow as it is.
    pub fn is_any(self) -> bool {
        matches!(self, Leaf::Field { left: 0, next: Stage::Any, .. })
    }
}

/// The language by the kinds of the types.
impl RecordLanguage for Leaf {
    #[inline(always)]
    fn has(tnf: Tnf, name: &[u8], _records: u32, profile: Profile, payload: &[u8]) -> bool {
        is_leaf_payload(Kind::of(tnf, name), profile, payload)
    }

    fn takes_all(tnf: Tnf, name: &[u8]) -> bool {
        Leaf::takes_any(Kind::of(tnf, name))
    }

    fn start(tnf: Tnf, name: &[u8], _records: u32, profile: Profile) -> Self {
        Leaf::of(Kind::of(tnf, name), profile)
    }

    fn step(&mut self, byte: u8) {
        Language::step(self, byte);
    }

    fn step_all(&mut self, bytes: &[u8], lo: u64, hi: u64) -> usize {
        Language::step_all(self, bytes, lo, hi)
    }

    fn fits(&self, lo: u64, hi: u64) -> bool {
        self.lengths().meet(lo, hi)
    }

    fn is_open(&self) -> bool {
        self.is_any()
    }

    fn reason(&self) -> Reason {
        self.refusal_reason()
    }
}
