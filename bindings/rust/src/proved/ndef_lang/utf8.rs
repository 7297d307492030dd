// Written by ports/erase of crates/ndef_lang/src/utf8.rt, which has the contracts: do not edit.
//! UTF-8 texts.

use super::language::Language;
use super::lengths::Lengths;
use crate::proved::ndef_format::Kind;
use crate::proved::ndef_value::{Profile, Reason};

/// UTF-8 texts (RFC 3629), as the octets that complete the character that is open.
///
/// A leading U+FEFF is text; overlong forms, surrogates and code points above U+10FFFF are refused.
#[derive(Clone, Copy, Debug, PartialEq, Eq)]
pub enum Utf8Lang {
    /// No character is open.
    Whole,
    /// One more octet of 80 to BF is to come.
    OneMore,
    /// Two more octets of 80 to BF are to come.
    TwoMore,
    /// Three more octets of 80 to BF are to come.
    ThreeMore,
    /// An octet of A0 to BF is to come, and one of 80 to BF.
    AfterE0,
    /// An octet of 80 to 9F is to come, and one of 80 to BF.
    AfterEd,
    /// An octet of 90 to BF is to come, and two of 80 to BF.
    AfterF0,
    /// An octet of 80 to 8F is to come, and two of 80 to BF.
    AfterF4,
    /// Nothing completes the octets so far.
    Refused,
}

/// Returns the state after the first octet of a character.
fn lead(byte: u8) -> Utf8Lang {
    match byte {
        0x00..=0x7f => Utf8Lang::Whole,
        0xc2..=0xdf => Utf8Lang::OneMore,
        0xe0 => Utf8Lang::AfterE0,
        0xed => Utf8Lang::AfterEd,
        0xe1..=0xef => Utf8Lang::TwoMore,
        0xf0 => Utf8Lang::AfterF0,
        0xf4 => Utf8Lang::AfterF4,
        0xf1..=0xf3 => Utf8Lang::ThreeMore,
        0x80..=0xc1 => Utf8Lang::Refused,
        0xf5..=0xff => Utf8Lang::Refused,
    }
}

/// Returns the state after an octet that has to be `least` to `most`.
fn within(byte: u8, least: u8, most: u8, next: Utf8Lang) -> Utf8Lang {
    if least <= byte && byte <= most {
        next
    } else {
        Utf8Lang::Refused
    }
}

/// The most octets that are tested at once: a test that fails doesn't say where.
const BLOCK: usize = 4096;

/// Fewer octets are tested once, by the test that returns where it fails: the one that doesn't is no faster for them.
const FEW: usize = 64;

/// The number of octets to test next: up to the last character that may continue after them, or the last few.
fn block_length(bytes: &[u8]) -> usize {
    let most = bytes.len().min(BLOCK);
    if most > 3 {
        for back in 1..4 {
            let byte = bytes[most - back];
            if byte >= 0xc0 {
                return most - back;
            }
            if byte < 0x80 {
                return most;
            }
        }
    }
    most
}

/// The number of octets of a block that are whole characters, up to the first that isn't one.
fn valid_front(block: &[u8]) -> usize {
    match crate::proved::shim::simdutf8::compat::from_utf8(block) {
        Ok(_) => block.len(),
        Err(error) => error.valid_up_to(),
    }
}

/// Whether the octets are a UTF-8 text. Fewer than 64 are looked at one by one, which is faster than to fill
/// a vector with them.
pub(crate) fn is_utf8(bytes: &[u8]) -> bool {
    crate::proved::shim::simdutf8::basic::from_utf8(bytes).is_ok()
}

/// The number of octets at the front that are whole characters, up to the first that isn't one.
fn whole_front(bytes: &[u8]) -> usize {
    if bytes.len() < FEW {
        return valid_front(bytes);
    }
    let mut at = 0;
    while at < bytes.len() {
        let end = at + block_length(&bytes[at..]);
        let block = &bytes[at..end];
        if !is_utf8(block) {
            return at + valid_front(block);
        }
        at = end;
    }
    at
}

impl Utf8Lang {
    /// Returns the state after an octet.
    pub(crate) fn after(self, byte: u8) -> Utf8Lang {
        match self {
            Utf8Lang::Whole => lead(byte),
            Utf8Lang::OneMore => within(byte, 0x80, 0xbf, Utf8Lang::Whole),
            Utf8Lang::TwoMore => within(byte, 0x80, 0xbf, Utf8Lang::OneMore),
            Utf8Lang::ThreeMore => within(byte, 0x80, 0xbf, Utf8Lang::TwoMore),
            Utf8Lang::AfterE0 => within(byte, 0xa0, 0xbf, Utf8Lang::OneMore),
            Utf8Lang::AfterEd => within(byte, 0x80, 0x9f, Utf8Lang::OneMore),
            Utf8Lang::AfterF0 => within(byte, 0x90, 0xbf, Utf8Lang::TwoMore),
            Utf8Lang::AfterF4 => within(byte, 0x80, 0x8f, Utf8Lang::TwoMore),
            Utf8Lang::Refused => Utf8Lang::Refused,
        }
    }

    /// The number of octets that the open character still has.
    fn missing(self) -> usize {
        match self {
            Utf8Lang::Whole | Utf8Lang::Refused => 0,
            Utf8Lang::OneMore => 1,
            Utf8Lang::TwoMore | Utf8Lang::AfterE0 | Utf8Lang::AfterEd => 2,
            Utf8Lang::ThreeMore | Utf8Lang::AfterF0 | Utf8Lang::AfterF4 => 3,
        }
    }

    /// Takes octets one by one while what is still to come can complete a text, and one more.
    #[inline(always)]
    fn take_each(&mut self, bytes: &[u8], lo: u64, hi: u64) -> usize {
        for (at, byte) in bytes.iter().enumerate() {
            *self = self.after(*byte);
            let taken = at as u64 + 1;
            if !self.lengths().meet(lo - taken, hi - taken) {
                return at;
            }
        }
        bytes.len()
    }

    /// The same, the whole characters at once.
    pub(crate) fn take(&mut self, bytes: &[u8], lo: u64, hi: u64) -> usize {
        let begun = bytes.len().min(self.missing());
        let taken = self.take_each(&bytes[..begun], lo, hi);
        if taken < begun {
            return taken;
        }
        let front = match *self {
            Utf8Lang::Whole => whole_front(&bytes[begun..]),
            _ => 0,
        };
        let at = begun + front;
        at + self.take_each(&bytes[at..], lo - at as u64, hi - at as u64)
    }

    /// The numbers of octets that complete a text.
    #[inline(always)]
    pub(crate) fn lengths(self) -> Lengths {
        match self {
            Utf8Lang::Whole => Lengths::From(0),
            Utf8Lang::OneMore => Lengths::From(1),
            Utf8Lang::TwoMore | Utf8Lang::AfterE0 | Utf8Lang::AfterEd => Lengths::From(2),
            Utf8Lang::ThreeMore | Utf8Lang::AfterF0 | Utf8Lang::AfterF4 => Lengths::From(3),
            Utf8Lang::Refused => Lengths::Never,
        }
    }

    /// The reason of the octet taken last.
    pub(crate) fn refusal_reason(self) -> Reason {
        match self {
            Utf8Lang::Refused => Reason::Utf8,
            _ => Reason::DoesNotFit,
        }
    }
}

impl Language for Utf8Lang {
    fn start(_kind: Kind, _records: u32, _profile: Profile) -> Self {
        Utf8Lang::Whole
    }

    fn step(&mut self, byte: u8) {
        *self = self.after(byte);
    }

    fn step_all(&mut self, bytes: &[u8], lo: u64, hi: u64) -> usize {
        self.take(bytes, lo, hi)
    }

    fn fits(&self, lo: u64, hi: u64) -> bool {
        self.lengths().meet(lo, hi)
    }

    fn reason(&self) -> Reason {
        self.refusal_reason()
    }
}
