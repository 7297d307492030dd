// Written by ports/erase of crates/ndef_lang/src/member.rt, which has the contracts: do not edit.
//! Whole payloads: whether they are in their set. Only a true answer is conclusive.

use super::ascii::is_ascii;
use super::utf8;
use crate::proved::ndef_format::Kind;
use crate::proved::ndef_value::Profile;

/// Whether they are so few octets that a test for ASCII pays before one for UTF-8, and are ASCII.
#[inline(always)]
fn are_short_ascii(bytes: &[u8]) -> bool {
    bytes.len() < 64 && is_ascii(bytes)
}

/// The most octets of a text that are tested at once. A longer one is taken block by block, so that one
/// that is refused at its end isn't tested twice.
const MOST_AT_ONCE: usize = 16384;

/// Whether it is a UTF-8 text, of any characters. It isn't inlined, so that short ASCII is fast.
#[inline(never)]
fn is_long_utf8(bytes: &[u8]) -> bool {
    bytes.len() <= MOST_AT_ONCE && utf8::is_utf8(bytes)
}

/// Whether it is a UTF-8 text.
#[inline(always)]
fn is_utf8(bytes: &[u8]) -> bool {
    are_short_ascii(bytes) || is_long_utf8(bytes)
}

/// Whether it is UTF-16 units, each pair whole.
fn are_units(bytes: &[u8], little: bool) -> bool {
    let mut rest = bytes;
    while let [a, b, more @ ..] = rest {
        let most = if little { *b } else { *a };
        if most < 0xd8 || most >= 0xe0 {
            rest = more;
        } else {
            let [c, d, following @ ..] = more else {
                return false;
            };
            let second = if little { *d } else { *c };
            if most >= 0xdc || second < 0xdc || second >= 0xe0 {
                return false;
            }
            rest = following;
        }
    }
    rest.is_empty()
}

/// Whether it is a UTF-16 text.
fn is_utf16(bytes: &[u8]) -> bool {
    match bytes {
        [0xfe, 0xff, rest @ ..] => are_units(rest, false),
        [0xff, 0xfe, rest @ ..] => are_units(rest, true),
        _ => are_units(bytes, false),
    }
}

/// Whether it is a language code of that length and a text. It isn't inlined, so that short ASCII is fast: the
/// caller has tried that, and here it isn't tried again.
#[inline(never)]
fn is_coded_text(count: usize, wide: bool, bytes: &[u8]) -> bool {
    let (code, text) = bytes.split_at(count);
    is_ascii(code) && if wide { is_utf16(text) } else { is_long_utf8(text) }
}

/// Whether it is the payload of a Text record.
#[inline(always)]
fn is_text(payload: &[u8]) -> bool {
    let [status, rest @ ..] = payload else {
        return false;
    };
    let length = usize::from(status % 64);
    if status % 128 >= 64 || rest.len() < length {
        return false;
    }
    let wide = *status >= 128;
    if !wide && are_short_ascii(rest) {
        return true;
    }
    is_coded_text(length, wide, rest)
}

/// Whether it is the payload of a URI record.
#[inline(always)]
fn is_uri(profile: Profile, payload: &[u8]) -> bool {
    let [code, rest @ ..] = payload else {
        return false;
    };
    (*code <= 0x23 || matches!(profile, Profile::Standard)) && is_utf8(rest)
}

/// Whether the payload has that many octets.
#[inline(always)]
fn has_length(payload: &[u8], count: usize) -> bool {
    if payload.len() != count {
        return false;
    }
    true
}

/// Whether it is the payload of a handover error.
#[inline(always)]
fn is_error(payload: &[u8]) -> bool {
    let [reason, data @ ..] = payload else {
        return false;
    };
    match *reason {
        1 | 3 => has_length(data, 1),
        2 => has_length(data, 4),
        _ => true,
    }
}

/// Whether it is the payload of a handover carrier.
#[inline(always)]
fn is_carrier(payload: &[u8]) -> bool {
    let [_, rest @ ..] = payload else {
        return false;
    };
    let [length, more @ ..] = rest else {
        return false;
    };
    if more.len() < usize::from(*length) {
        return false;
    }
    true
}

/// Whether the octets begin with that many references, each after its length.
#[inline(always)]
fn are_references(count: u8, bytes: &[u8]) -> bool {
    let mut left = count;
    let mut rest = bytes;
    while left > 0 {
        let [octet, more @ ..] = rest else {
            return false;
        };
        let length = usize::from(*octet);
        if more.len() < length {
            return false;
        }
        rest = &more[length..];
        left -= 1;
    }
    true
}

/// Whether it is the payload of an alternative carrier.
#[inline(never)]
fn is_alternative(payload: &[u8]) -> bool {
    let [_, rest @ ..] = payload else {
        return false;
    };
    let [octet, more @ ..] = rest else {
        return false;
    };
    let length = usize::from(*octet);
    if more.len() < length {
        return false;
    }
    let [count, references @ ..] = &more[length..] else {
        return false;
    };
    are_references(*count, references)
}

/// Whether the payload is one of the kind; of a kind whose payloads are messages, any is.
#[inline(always)]
pub(crate) fn is_leaf_payload(kind: Kind, profile: Profile, payload: &[u8]) -> bool {
    match kind {
        Kind::Text => is_text(payload),
        Kind::Uri => is_uri(profile, payload),
        Kind::MediaType => is_utf8(payload),
        Kind::Action => has_length(payload, 1),
        Kind::Size => has_length(payload, 4),
        Kind::Collision => has_length(payload, 2),
        Kind::Alternative => is_alternative(payload),
        Kind::Error => is_error(payload),
        Kind::Carrier => is_carrier(payload),
        Kind::Other | Kind::SmartPoster | Kind::Request | Kind::Select => true,
    }
}
