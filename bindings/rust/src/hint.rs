//! What may help where bytes are refused, to a program.
use crate::proved::ndef_diagnostics::{hint_at, DumpText, Hint, Wrapping};
use crate::proved::ndef_message::view;
use crate::proved::ndef_nest::Typed;
use crate::proved::ndef_value::Refusal;
use crate::Limits;
use core::fmt;

macro_rules! kinds {
    ($($number:literal $name:ident $text:literal,)*) => {
        /// What a hint is about.
        #[derive(Clone, Copy, Debug, PartialEq, Eq, Hash, PartialOrd, Ord)]
        #[non_exhaustive]
        #[repr(u32)]
        pub enum HintKind {
            $(#[doc = $text] $name = $number,)*
        }

        impl HintKind {
            /// The kinds, in the order of their numbers.
            pub const ALL: &'static [HintKind] = &[$(HintKind::$name),*];

            /// The kind with a number, as `ndef_hint_number` of `include/ndef.h` has them.
            #[must_use]
            pub const fn from_number(number: u32) -> Option<Self> {
                match number {
                    $($number => Some(Self::$name),)*
                    _ => None,
                }
            }
        }
    };
}

kinds! {
    1 Tlv "An NDEF message TLV of a tag has bytes for a message, or none.",
    2 Attributes "A message comes after the attribute block of a Type 3 Tag.",
    3 File "A message comes after its length, as in a file of a Type 4 Tag.",
    4 Message "A message begins after other bytes.",
    5 Terminator "The terminator of a tag's TLV blocks is in place of a message.",
    6 Digits "The bytes are digits.",
    7 Xxd "The bytes are a dump by `xxd`.",
    8 Hexdump "The bytes are a dump by `hexdump -C`.",
    9 Words "The bytes are a dump by `od` or `hexdump` of numbers of more than one byte.",
    10 Flipper "The bytes are an NFC file of a Flipper.",
    11 Proxmark "The bytes are what the client of a Proxmark prints.",
    12 Base64 "The bytes may be base64.",
    13 Code "The identifier code of a URI may be missing.",
    14 Standard "A reader of the standard profile accepts the bytes.",
    15 Interrupted "Reserved areas of a tag may lie before the end of an NDEF message TLV.",
    16 Unfinished "A Type 3 Tag is being written: its message is not whole yet.",
    17 Od "The bytes are a dump by `od -tx1`.",
}

impl HintKind {
    fn of(hint: Hint) -> Self {
        match hint {
            Hint::InTag(found) => match found.wrapping {
                Wrapping::Block => Self::Tlv,
                Wrapping::Attributes => Self::Attributes,
                Wrapping::File => Self::File,
                Wrapping::Interrupted => Self::Interrupted,
                Wrapping::Unfinished => Self::Unfinished,
            },
            Hint::MessageAt(_) => Self::Message,
            Hint::AfterBlocks => Self::Terminator,
            Hint::Text(text) => Self::of_text(text),
            Hint::CodeLeftOut => Self::Code,
            Hint::StandardProfile => Self::Standard,
        }
    }

    fn of_text(text: DumpText) -> Self {
        match text {
            DumpText::Digits => Self::Digits,
            DumpText::Xxd => Self::Xxd,
            DumpText::Hexdump => Self::Hexdump,
            DumpText::Od | DumpText::Suppressed => Self::Od,
            DumpText::Words => Self::Words,
            DumpText::Flipper => Self::Flipper,
            DumpText::Proxmark => Self::Proxmark,
            DumpText::Base64 => Self::Base64,
        }
    }
}

/// What may help where bytes are refused. `Display` writes a sentence of English, which names what a program in Rust calls.
#[derive(Clone, Copy, Debug, PartialEq, Eq, Hash)]
#[non_exhaustive]
pub struct FoundHint {
    /// What the hint is about.
    pub kind: HintKind,
    /// The offset at which a message may begin, counted from 0; 0 where the hint names none.
    pub place: usize,
    /// The number of bytes that a tag has for that message; 0 where the hint names none. A part of the tag's memory may have
    /// fewer of them.
    pub length: usize,
    /// The number of bytes that were given.
    given: usize,
}

impl FoundHint {
    /// Writes the sentence for what a tag has for a message, with what surrounds it there.
    fn write_tag(&self, to: &mut fmt::Formatter<'_>, around: &str) -> fmt::Result {
        let (place, length) = (self.place, self.length);
        if length == 0 {
            return to.write_str("This tag is empty: it has no bytes for a message.");
        }
        let (from, end) = (place.min(self.given), place.saturating_add(length).min(self.given));
        write!(to, "A message of length {length} may begin at byte {place}, {around}: read `&bytes[{from}..{end}]`.")
    }
}

impl fmt::Display for FoundHint {
    fn fmt(&self, to: &mut fmt::Formatter<'_>) -> fmt::Result {
        to.write_str(match self.kind {
            HintKind::Tlv => return self.write_tag(to, "in an NDEF TLV of a tag"),
            HintKind::Attributes => return self.write_tag(to, "after the attribute block of a Type 3 Tag"),
            HintKind::File => return self.write_tag(to, "after its length, as in a file of a Type 4 Tag"),
            HintKind::Message => {
                to.write_str("The bytes may begin with what surrounds a message on a tag; a message begins at byte ")?;
                return write!(to, "{0}: read `&bytes[{0}..]`.", self.place);
            }
            HintKind::Terminator => "FE (hexadecimal) ends the TLV blocks of a tag.",
            HintKind::Digits => "These are hexadecimal digits, not the bytes that they spell: decode them first.",
            HintKind::Xxd => "This is a dump by xxd, not the bytes that it spells: decode its digits first.",
            HintKind::Hexdump => "This is a dump by hexdump, not the bytes that it spells: decode its digits first.",
            HintKind::Od => "This is a dump by od, not the bytes that it spells: decode its digits first.",
            HintKind::Words => {
                "This dump by od or hexdump may show numbers of two bytes, not bytes: decode a dump of single bytes."
            }
            HintKind::Flipper => "This is a file of a Flipper, not the bytes: decode the digits of its pages first.",
            HintKind::Proxmark => {
                "This is what a Proxmark prints, not the bytes: decode the digits of its blocks first."
            }
            HintKind::Base64 => "This may be base64, not the bytes that it spells: decode it first.",
            HintKind::Code => "68 (hexadecimal) is the letter h: was the identifier code left out?",
            HintKind::Standard => {
                "The standard profile reads this: give `with_profile(Profile::Standard)` of the limits."
            }
            HintKind::Interrupted => {
                write!(to, "A message may begin at byte {}, in an NDEF TLV of a tag, but ", self.place)?;
                return to.write_str("reserved areas may lie before its end: use a reader that skips them.");
            }
            HintKind::Unfinished => {
                "This Type 3 Tag is being written: its attribute block says that the message is not whole yet."
            }
        })
    }
}

/// Where and why the bytes are refused, their payloads being validated.
pub(crate) fn refusal_of(bytes: &[u8], limits: &Limits) -> Option<Refusal> {
    view::<Typed>(bytes, limits.proved()).err()
}

/// The hint that applies where the bytes are refused.
pub(crate) fn hint_of(bytes: &[u8], limits: &Limits) -> Option<Hint> {
    hint_at(bytes, limits.proved(), refusal_of(bytes, limits)?)
}

/// What may help where the bytes are refused, by its kind and the place of a message. `None`: nothing is known to help, or
/// they begin with a message. The rest is as for `hint`, which writes a sentence that names commands.
///
/// ```
/// use simbegyor_ndef::{check, find_hint, HintKind, Limits};
///
/// let memory = b"\xE1\x10\x12\0\x03\x0C\xD1\x01\x08T\x02enHello\xFE";
/// let found = find_hint(memory, &Limits::new()).unwrap();
/// assert_eq!((found.kind, found.place, found.length), (HintKind::Tlv, 6, 12));
/// assert!(found.to_string().ends_with(": read `&bytes[6..18]`."));
/// assert!(check(&memory[6..18], &Limits::new()).is_ok());
/// ```
#[must_use]
pub fn find_hint(bytes: &[u8], limits: &Limits) -> Option<FoundHint> {
    let hint = hint_of(bytes, limits)?;
    let (place, length) = (hint.place() as usize, hint.length() as usize);
    Some(FoundHint { kind: HintKind::of(hint), place, length, given: bytes.len() })
}
