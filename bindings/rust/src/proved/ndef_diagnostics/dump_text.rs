// Written by ports/erase of crates/ndef_diagnostics/src/dump_text.rt, which has the contracts: do not edit.
//! Texts that spell bytes.

use crate::proved::ndef_diagnostics::begun::after;
use crate::proved::ndef_diagnostics::dump::read_in;
use crate::proved::ndef_diagnostics::dump_form::{are_pairs, form_of, DumpForm};
use crate::proved::ndef_diagnostics::dump_gaps::is_star;
use crate::proved::ndef_diagnostics::dump_words::{before_octet, cut_line, is_blank};

/// A text that spells bytes, given in place of them.
#[derive(Clone, Copy, Debug, PartialEq, Eq, Hash)]
pub enum DumpText {
    /// Digits, with or without what separates them.
    Digits,
    /// A dump by `xxd`.
    Xxd,
    /// A dump by `hexdump -C`.
    Hexdump,
    /// A dump by `od -t x1`.
    Od,
    /// A dump by `od -An -t x1` with `*` in place of lines, and no places that say how many.
    Suppressed,
    /// A dump by `hexdump` or `od` that shows words in place of bytes.
    Words,
    /// An NFC file of a Flipper.
    Flipper,
    /// The output of the client of a Proxmark.
    Proxmark,
    /// Base64 (RFC 4648, section 4).
    Base64,
}

/// The text of a dump of a form.
fn text_by(form: DumpForm) -> DumpText {
    match form {
        DumpForm::Digits | DumpForm::Decimals => DumpText::Digits,
        DumpForm::Xxd => DumpText::Xxd,
        DumpForm::Hexdump => DumpText::Hexdump,
        DumpForm::Od(_) => DumpText::Od,
        DumpForm::Words => DumpText::Words,
        DumpForm::Flipper => DumpText::Flipper,
    }
}

/// Whether the bytes are a dump of a form: it spells a byte or more, or is in words.
fn is_dump(form: DumpForm, bytes: &[u8]) -> bool {
    match form {
        DumpForm::Words => true,
        _ => match read_in(form, bytes, &mut []) {
            Ok(count) => count > 0,
            Err(_) => false,
        },
    }
}

/// Whether a line is as `od -An -t x1` writes it: pairs of digits, or `*` in place of lines.
fn is_od_line(line: &[u8]) -> bool {
    is_star(line) || are_pairs(line)
}

/// Whether each line of a text is as `od -An -t x1` writes it.
fn are_od_lines(text: &[u8]) -> bool {
    let (mut line, mut rest) = cut_line(text);
    while is_od_line(line) {
        let Some(more) = rest else {
            return true;
        };
        (line, rest) = cut_line(more);
    }
    false
}

/// Whether a text has a line `*`.
fn has_star(text: &[u8]) -> bool {
    let (mut line, mut rest) = cut_line(text);
    while !is_star(line) {
        let Some(more) = rest else {
            return false;
        };
        (line, rest) = cut_line(more);
    }
    true
}

/// Whether the bytes are a dump by `od -An -t x1` in which `*` is in place of lines.
fn is_suppressed(bytes: &[u8]) -> bool {
    let first = before_octet(bytes, b'\n');
    !is_blank(first) && are_pairs(first) && has_star(bytes) && are_od_lines(bytes)
}

/// Whether the bytes are what the client of a Proxmark prints.
fn is_of_proxmark(bytes: &[u8]) -> bool {
    bytes.starts_with(b"[=]") || bytes.starts_with(b"[+]") || bytes.starts_with(b"[usb]")
}

/// Whether an octet is a digit of base64.
fn is_base64_digit(octet: u8) -> bool {
    matches!(octet, b'/'..=b'9' | b'A'..=b'Z' | b'a'..=b'z' | b'+')
}

/// The value of a digit of base64; 63 of any other.
fn base64_value(octet: u8) -> u8 {
    match octet {
        b'A'..=b'Z' => octet - 65,
        b'a'..=b'z' => octet - 71,
        b'0'..=b'9' => octet + 4,
        b'+' => 62,
        _ => 63,
    }
}

/// Whether all of the bytes are digits of base64 or line feeds.
fn are_digits(bytes: &[u8]) -> bool {
    bytes.iter().all(|octet| is_base64_digit(*octet) || *octet == 10)
}

/// Whether all of the bytes are padding of base64 or line feeds.
fn are_padding(bytes: &[u8]) -> bool {
    bytes.iter().all(|octet| *octet == b'=' || *octet == 10)
}

/// The number of bytes that are no line feeds.
fn count_digits(bytes: &[u8]) -> usize {
    bytes.iter().filter(|octet| **octet != 10).count()
}

/// The number of bytes that are padding.
fn count_padding(bytes: &[u8]) -> usize {
    bytes.iter().filter(|octet| **octet == b'=').count()
}

/// The last of the bytes that is no line feed; 0 if there is none.
fn last_digit(bytes: &[u8]) -> u8 {
    let mut last = 0;
    for octet in bytes {
        if *octet != 10 {
            last = *octet;
        }
    }
    last
}

/// Whether a digit may be the last before this number of characters of padding.
fn is_last_digit(digit: u8, padding: usize) -> bool {
    match padding {
        0 => true,
        1 => base64_value(digit) % 4 == 0,
        2 => base64_value(digit) % 16 == 0,
        _ => false,
    }
}

/// The bytes from the first padding on.
fn padding_of(bytes: &[u8]) -> &[u8] {
    after(bytes, before_octet(bytes, b'=').len())
}

/// Whether the bytes are base64, which only line feeds separate.
fn is_base64(bytes: &[u8]) -> bool {
    let digits = before_octet(bytes, b'=');
    are_digits(digits)
        && are_padding(padding_of(bytes))
        && count_digits(bytes) % 4 == 0
        && is_last_digit(last_digit(digits), count_padding(bytes))
}

/// Whether a digit of base64 is one with which a message begins.
fn is_first_digit(octet: u8) -> bool {
    matches!(octet, b'g'..=b'z' | b'/'..=b'9' | b'+')
}

/// Whether the bytes are base64, and the first is a digit with which a message begins.
fn may_be_base64(bytes: &[u8]) -> bool {
    match bytes {
        [] => false,
        [octet, ..] => is_first_digit(*octet) && is_base64(bytes),
    }
}

/// The text that the bytes are in place of those that it spells; None if they are none.
pub fn text_of(bytes: &[u8]) -> Option<DumpText> {
    let form = form_of(bytes);
    if is_dump(form, bytes) {
        Some(text_by(form))
    } else if is_suppressed(bytes) {
        Some(DumpText::Suppressed)
    } else if is_of_proxmark(bytes) {
        Some(DumpText::Proxmark)
    } else if may_be_base64(bytes) {
        Some(DumpText::Base64)
    } else {
        None
    }
}
