// Written by ports/erase of crates/ndef_diagnostics/src/dump.rt, which has the contracts: do not edit.
//! Dumps, which are texts that spell bytes.

use crate::proved::ndef_diagnostics::dump_digits::{put_times, Spelled, MOST_DIGITS, NOTHING};
use crate::proved::ndef_diagnostics::dump_form::{form_of, text_part, DumpForm};
use crate::proved::ndef_diagnostics::dump_gaps::{digit_count, gap_of, is_fit, is_star};
use crate::proved::ndef_diagnostics::dump_words::{cut_line, next_line};

/// Why a text spells no bytes.
#[derive(Clone, Copy, Debug, PartialEq, Eq, Hash)]
pub enum DumpFault {
    /// An odd number of digits.
    Odd,
    /// The character at this place among those of the words is no digit.
    BadDigit(u64),
    /// The line of this number has no place and colon, in a dump by `xxd`.
    NoPlace(u64),
    /// The line of this number is `*`, and no line can be repeated in its place.
    Repeated(u64),
    /// It spells more than 16777216 bytes.
    TooLong,
    /// Its numbers are words of more than one byte, or characters.
    Words,
}

/// The fault of the line of a number, between two others.
fn line_fault(form: DumpForm, number: u64, before: &[u8], line: &[u8], next: &[u8]) -> Option<DumpFault> {
    if is_star(line) {
        match gap_of(form, before, next) {
            Some(_) => None,
            None => Some(DumpFault::Repeated(number)),
        }
    } else if is_fit(form, line) {
        None
    } else {
        Some(DumpFault::NoPlace(number))
    }
}

/// The fault of the first line that has one.
fn first_fault(form: DumpForm, text: &[u8]) -> Option<DumpFault> {
    let mut before: &[u8] = &[];
    let (mut line, mut rest) = cut_line(text);
    let mut number = 1;
    loop {
        if let Some(fault) = line_fault(form, number, before, line, next_line(rest)) {
            return Some(fault);
        }
        let more = rest?;
        before = line;
        (line, rest) = cut_line(more);
        number += 1;
    }
}

/// How often which line's digits are in place of a line between two others; None if that is too often.
fn source_of<'a>(form: DumpForm, before: &'a [u8], line: &'a [u8], next: &[u8]) -> Option<(u64, &'a [u8])> {
    if !is_star(line) {
        return Some((1, line));
    }
    match gap_of(form, before, next) {
        Some(gap) if gap > MOST_DIGITS => None,
        Some(gap) => Some((gap / (digit_count(form, before) / 2), before)),
        None => Some((1, line)),
    }
}

/// Reads the digits of the lines of a text; None if they are too many.
fn put_lines(form: DumpForm, text: &[u8], out: &mut [u8]) -> Option<Spelled> {
    let mut before: &[u8] = &[];
    let (mut line, mut rest) = cut_line(text);
    let mut spelled = NOTHING;
    while spelled.count <= MOST_DIGITS {
        let (count, source) = source_of(form, before, line, next_line(rest))?;
        spelled = put_times(spelled, count, form, source, out);
        let Some(more) = rest else {
            return Some(spelled);
        };
        before = line;
        (line, rest) = cut_line(more);
    }
    None
}

/// The number of octets of the digits that were read, or their fault.
fn octet_count(spelled: Spelled) -> Result<u64, DumpFault> {
    if spelled.count > MOST_DIGITS {
        return Err(DumpFault::TooLong);
    }
    if spelled.count % 2 == 1 {
        return Err(DumpFault::Odd);
    }
    match spelled.bad {
        Some(place) => Err(DumpFault::BadDigit(place)),
        None => Ok(spelled.count / 2),
    }
}

/// The fault of a text of a form, in its words or its lines.
fn text_fault(form: DumpForm, text: &[u8]) -> Option<DumpFault> {
    match form {
        DumpForm::Words => Some(DumpFault::Words),
        _ => first_fault(form, text),
    }
}

/// Reads the octets that the digits of a text of a form spell.
fn read_digits(form: DumpForm, text: &[u8], out: &mut [u8]) -> Result<u64, DumpFault> {
    match put_lines(form, text_part(form, text), out) {
        Some(spelled) => octet_count(spelled),
        None => Err(DumpFault::TooLong),
    }
}

/// Reads the octets that a text of a form spells.
pub(crate) fn read_in(form: DumpForm, text: &[u8], out: &mut [u8]) -> Result<u64, DumpFault> {
    match text_fault(form, text) {
        Some(fault) => Err(fault),
        None => read_digits(form, text, out),
    }
}

/// Reads the bytes that a text spells: returns their number, and writes them to the front of `out`, as many as it has
/// space for; the rest of it is unchanged. With a fault what is in `out` is not said.
pub fn read_dump(text: &[u8], out: &mut [u8]) -> Result<u64, DumpFault> {
    read_in(form_of(text), text, out)
}
