// Written by ports/erase of crates/ndef_diagnostics/src/dump_digits.rt, which has the contracts: do not edit.
//! The digits of dumps, and the octets that they spell.

use crate::proved::ndef_diagnostics::dump_form::{line_part, DumpForm};
use crate::proved::ndef_diagnostics::dump_words::{cut_word, is_digit, number_in, value_of, without_prefix};

/// The most digits of a dump: those of 16777216 octets.
pub(crate) const MOST_DIGITS: u64 = 33554432;

/// What was read of some digits.
#[derive(Clone, Copy)]
pub(crate) struct Spelled {
    /// Their number: at most one more than a dump may have.
    pub(crate) count: u64,
    /// The value of the last.
    pub(crate) high: u8,
    /// The place of the first that is no digit.
    pub(crate) bad: Option<u64>,
}

/// No digits were read.
pub(crate) const NOTHING: Spelled = Spelled { count: 0, high: 0, bad: None };

/// Writes an octet to a place, if it is one of these.
fn write(out: &mut [u8], place: u64, octet: u8) {
    if place < out.len() as u64 {
        out[place as usize] = octet;
    }
}

/// The place of the first that is no digit, one after others.
fn bad_after(spelled: Spelled, digit: u8) -> Option<u64> {
    match spelled.bad {
        Some(place) => Some(place),
        None if is_digit(digit) => None,
        None => Some(spelled.count),
    }
}

/// Reads one digit more, and writes the octet that it ends.
fn put_digit(spelled: Spelled, digit: u8, out: &mut [u8]) -> Spelled {
    if spelled.count > MOST_DIGITS {
        return spelled;
    }
    let value = value_of(digit);
    if spelled.count % 2 == 1 {
        write(out, spelled.count / 2, 16 * (spelled.high % 16) + value);
    }
    Spelled { count: spelled.count + 1, high: value, bad: bad_after(spelled, digit) }
}

/// Reads these digits too.
fn put_digits(before: Spelled, digits: &[u8], out: &mut [u8]) -> Spelled {
    let mut spelled = before;
    for digit in digits {
        spelled = put_digit(spelled, *digit, out);
    }
    spelled
}

/// Reads the digits of the words of a text too.
fn put_words(before: Spelled, text: &[u8], out: &mut [u8]) -> Spelled {
    let (mut word, mut rest) = cut_word(text);
    let mut spelled = before;
    while let Some(more) = rest {
        spelled = put_digits(spelled, without_prefix(word), out);
        (word, rest) = cut_word(more);
    }
    put_digits(spelled, without_prefix(word), out)
}

/// The hexadecimal digit of a value.
fn digit_of(value: u8) -> u8 {
    if value < 10 {
        value + 0x30
    } else {
        value + 0x57
    }
}

/// The octet that a word of decimal digits spells.
fn octet_of(word: &[u8]) -> u8 {
    match number_in(10, word) {
        Some(number) => (number % 256) as u8,
        None => 0,
    }
}

/// Reads the two digits of the octet that a word spells in decimal.
fn put_octet(before: Spelled, word: &[u8], out: &mut [u8]) -> Spelled {
    if word.is_empty() {
        return before;
    }
    let octet = octet_of(word);
    let spelled = put_digit(before, digit_of(octet / 16), out);
    put_digit(spelled, digit_of(octet % 16), out)
}

/// Reads the digits of the octets that the words of a text spell in decimal.
fn put_decimals(before: Spelled, text: &[u8], out: &mut [u8]) -> Spelled {
    let (mut word, mut rest) = cut_word(text);
    let mut spelled = before;
    while let Some(more) = rest {
        spelled = put_octet(spelled, word, out);
        (word, rest) = cut_word(more);
    }
    put_octet(spelled, word, out)
}

/// Reads the digits of a part of a line too.
fn put_part(before: Spelled, form: DumpForm, part: &[u8], out: &mut [u8]) -> Spelled {
    match form {
        DumpForm::Decimals => put_decimals(before, part, out),
        _ => put_words(before, part, out),
    }
}

/// Reads the digits of a line too.
pub(crate) fn put_line(before: Spelled, form: DumpForm, line: &[u8], out: &mut [u8]) -> Spelled {
    put_part(before, form, line_part(form, line), out)
}

/// Reads the digits of a line too, so often.
pub(crate) fn put_times(before: Spelled, count: u64, form: DumpForm, line: &[u8], out: &mut [u8]) -> Spelled {
    let mut spelled = before;
    let mut left = count;
    while left > 0 {
        spelled = put_line(spelled, form, line, out);
        left -= 1;
    }
    spelled
}
