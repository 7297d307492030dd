// Written by ports/erase of crates/ndef_lang/src/utf16.rt, which has the contracts: do not edit.
//! UTF-16 texts.

use super::lengths::Lengths;
use crate::proved::ndef_value::Reason;

/// A UTF-16 text (RFC 2781), as the octets that complete it: big-endian after the octets FE FF, little-endian
/// after FF FE, and big-endian where it begins with neither.
#[derive(Clone, Copy, Debug, PartialEq, Eq)]
pub enum Utf16State {
    /// No octet has come.
    Start,
    /// One octet has come, which may begin a mark.
    First(u8),
    /// Whole units have come; the last is the first of a pair where `paired` is set.
    Whole {
        /// Units are little-endian.
        little: bool,
        /// The second unit of a pair is to come.
        paired: bool,
    },
    /// The same, and one octet of the next unit.
    Half {
        /// Units are little-endian.
        little: bool,
        /// The second unit of a pair is to come.
        paired: bool,
        /// The octet.
        held: u8,
    },
    /// Nothing completes it.
    Refused,
}

/// Whether it is the most significant octet of the second unit of a pair.
fn is_low(byte: u8) -> bool {
    0xdc <= byte && byte < 0xe0
}

/// The same of the first unit.
fn is_high(byte: u8) -> bool {
    0xd8 <= byte && byte < 0xdc
}

/// Whether no unit that may come begins with the octet.
fn is_stray(little: bool, paired: bool, byte: u8) -> bool {
    if little {
        false
    } else if paired {
        !is_low(byte)
    } else {
        is_low(byte)
    }
}

/// Returns the state after a unit, given by its most and its least significant octet.
fn after_unit(little: bool, paired: bool, most: u8, least: u8) -> Utf16State {
    if most >= 0xdc && most < 0xe0 {
        if paired {
            Utf16State::Whole { little, paired: false }
        } else {
            Utf16State::Refused
        }
    } else if paired {
        Utf16State::Refused
    } else if most >= 0xd8 && most < 0xdc {
        Utf16State::Whole { little, paired: true }
    } else {
        Utf16State::Whole { little, paired: false }
    }
}

/// Whether a pair is open after the two octets of a unit; None if nothing completes the text.
fn after_octets(little: bool, paired: bool, first: u8, second: u8) -> Option<bool> {
    let after =
        if little { after_unit(little, paired, second, first) } else { after_unit(little, paired, first, second) };
    match after {
        Utf16State::Whole { paired, .. } => Some(paired),
        _ => None,
    }
}

/// Takes whole characters at the front, unit by unit, after whole units; returns the rest of a
/// pair, and the number of octets.
fn whole_front(little: bool, paired: bool, bytes: &[u8]) -> (bool, usize) {
    let mut front = (paired, 0);
    let mut open = paired;
    let mut at = 0;
    while bytes.len() - at >= 2 {
        let Some(next) = after_octets(little, open, bytes[at], bytes[at + 1]) else {
            return front;
        };
        open = next;
        at += 2;
        if !open {
            front = (false, at);
        }
    }
    front
}

/// Returns the state after the two octets with which a text begins.
fn after_two(first: u8, byte: u8) -> Utf16State {
    if first == 0xfe && byte == 0xff {
        Utf16State::Whole { little: false, paired: false }
    } else if first == 0xff && byte == 0xfe {
        Utf16State::Whole { little: true, paired: false }
    } else {
        after_unit(false, false, first, byte)
    }
}

impl Utf16State {
    /// Returns the state after an octet.
    pub(crate) fn after(self, byte: u8) -> Utf16State {
        match self {
            Utf16State::Start => Utf16State::First(byte),
            Utf16State::First(first) => after_two(first, byte),
            Utf16State::Whole { little, paired } => Utf16State::Half { little, paired, held: byte },
            Utf16State::Half { little, paired, held } => {
                if little {
                    after_unit(little, paired, byte, held)
                } else {
                    after_unit(little, paired, held, byte)
                }
            }
            Utf16State::Refused => Utf16State::Refused,
        }
    }

    /// Takes whole characters at the front, where whole units have come; returns the number of
    /// octets.
    pub(crate) fn take_front(&mut self, bytes: &[u8]) -> usize {
        let Utf16State::Whole { little, paired } = *self else {
            return 0;
        };
        let (paired, count) = whole_front(little, paired, bytes);
        *self = Utf16State::Whole { little, paired };
        count
    }

    /// Whether nothing completes the text.
    fn is_refused(self) -> bool {
        match self {
            Utf16State::Start | Utf16State::Whole { .. } => false,
            Utf16State::First(first) => is_stray(false, false, first),
            Utf16State::Half { little, paired, held } => is_stray(little, paired, held),
            Utf16State::Refused => true,
        }
    }

    /// The least number of octets that complete the text.
    fn missing(self) -> u8 {
        match self {
            Utf16State::Start | Utf16State::Refused => 0,
            Utf16State::First(first) => {
                if is_high(first) {
                    3
                } else {
                    1
                }
            }
            Utf16State::Whole { paired, .. } => {
                if paired {
                    2
                } else {
                    0
                }
            }
            Utf16State::Half { little: false, paired: false, held } => {
                if is_high(held) {
                    3
                } else {
                    1
                }
            }
            Utf16State::Half { .. } => 1,
        }
    }

    /// The numbers of octets that complete the text.
    pub(crate) fn lengths(self) -> Lengths {
        if self.is_refused() {
            Lengths::Never
        } else {
            Lengths::PairsFrom(u64::from(self.missing()))
        }
    }

    /// The reason of the octet taken last.
    pub(crate) fn refusal_reason(self) -> Reason {
        if self.is_refused() {
            Reason::Utf16
        } else {
            Reason::DoesNotFit
        }
    }
}
