// Written by ports/erase of crates/ndef_diagnostics/src/dump_gaps.rt, which has the contracts: do not edit.
//! The lines of dumps that a line `*` repeats, and their places.

use crate::proved::ndef_diagnostics::begun::{after, front_of};
use crate::proved::ndef_diagnostics::dump_digits::{put_line, NOTHING};
use crate::proved::ndef_diagnostics::dump_form::{is_of_xxd, place_length, DumpForm};
use crate::proved::ndef_diagnostics::dump_words::{before_octet, cut_line, is_blank, next_line, number_in};

/// Whether a line has only `*`.
pub(crate) fn is_star(line: &[u8]) -> bool {
    line.starts_with(b"*") && is_blank(after(line, 1))
}

/// The number of octets in place of a line `*`, after a line of this many digits and characters.
fn gap_between(digits: u64, characters: u64, span: u64) -> Option<u64> {
    if 2 <= digits && digits % 2 == 0 && characters / 16 <= digits && digits / 2 < span && span % (digits / 2) == 0 {
        Some(span - digits / 2)
    } else {
        None
    }
}

/// The place with which a line begins, in a base.
fn place_in(base: u8, line: &[u8]) -> Option<u64> {
    let count = place_length(line);
    if count == 0 {
        None
    } else {
        number_in(base, front_of(line, count))
    }
}

/// The number of digits of a line: at most one more than a dump may have.
pub(crate) fn digit_count(form: DumpForm, line: &[u8]) -> u64 {
    put_line(NOTHING, form, line, &mut []).count
}

/// The number of octets in place of a line `*` between two lines, whose places are in this base.
fn gap_in(base: u8, form: DumpForm, before: &[u8], next: &[u8]) -> Option<u64> {
    match (place_in(base, before), place_in(base, next)) {
        (Some(place), Some(end)) => {
            gap_between(digit_count(form, before), before.len() as u64, end.saturating_sub(place))
        }
        _ => None,
    }
}

/// The number of octets in place of a line `*` between two lines.
pub(crate) fn gap_of(form: DumpForm, before: &[u8], next: &[u8]) -> Option<u64> {
    match form {
        DumpForm::Xxd | DumpForm::Hexdump => gap_in(16, form, before, next),
        DumpForm::Od(base) => gap_in(base, form, before, next),
        _ => None,
    }
}

/// Whether a dump of this form may have a line.
pub(crate) fn is_fit(form: DumpForm, line: &[u8]) -> bool {
    match form {
        DumpForm::Xxd => is_of_xxd(line) || is_blank(line),
        _ => true,
    }
}

/// Whether octets of this number lie between two places.
fn lies_after(octets: u64, place: Option<u64>, next: Option<u64>) -> bool {
    match (place, next) {
        (Some(place), Some(next)) => place <= next && next - place == octets,
        _ => false,
    }
}

/// Whether the place of the next line, in this base, is that after a line of `od`, or one of them has none.
fn is_next(base: u8, line: &[u8], next: &[u8]) -> bool {
    is_star(line)
        || is_star(next)
        || is_blank(next)
        || lies_after(digit_count(DumpForm::Od(base), line) / 2, place_in(base, line), place_in(base, next))
}

/// Whether each line of a text has the place after the line before it, in this base.
fn are_in_base(base: u8, text: &[u8]) -> bool {
    let (mut line, mut rest) = cut_line(text);
    while is_next(base, line, next_line(rest)) {
        let Some(more) = rest else {
            return true;
        };
        (line, rest) = cut_line(more);
    }
    false
}

/// The base of the places of `od`.
pub(crate) fn base_of(text: &[u8]) -> u8 {
    if place_length(before_octet(text, b'\n')) == 6 {
        16
    } else if are_in_base(8, text) {
        8
    } else if are_in_base(10, text) {
        10
    } else {
        16
    }
}
