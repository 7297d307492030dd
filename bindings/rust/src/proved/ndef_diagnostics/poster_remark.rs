// Written by ports/erase of crates/ndef_diagnostics/src/poster_remark.rt, which has the contracts: do not edit.
//! Remarks about the records of a smart poster.

use crate::proved::ndef_diagnostics::begun::{after, front_of, octet_at};
use crate::proved::ndef_diagnostics::few::whole_payload;
use crate::proved::ndef_diagnostics::Remark;
use crate::proved::ndef_lang::Kind;
use crate::proved::ndef_message::{Item, View};
use crate::proved::ndef_nest::Table;

/// Whether a record of a smart poster is a title.
fn is_title(item: &Item<'_>) -> bool {
    match Table::SmartPoster.kind(item.tnf(), item.kind()) {
        Kind::Text => true,
        _ => false,
    }
}

/// The language code of a text.
fn language_of(payload: &[u8]) -> &[u8] {
    front_of(after(payload, 1), usize::from(octet_at(payload, 0) % 64))
}

/// Whether a record of a smart poster is a title in a language.
fn is_title_in(item: &Item<'_>, language: &[u8]) -> bool {
    is_title(item) && language_of(whole_payload(item)).eq_ignore_ascii_case(language)
}

/// The number of titles in a language.
fn count_language(poster: &View<'_>, language: &[u8]) -> usize {
    let mut count = 0;
    for item in poster.items() {
        if is_title_in(&item, language) {
            count += 1;
        }
    }
    count
}

/// Whether a record of a smart poster is a title in the language of another.
fn is_title_again(item: &Item<'_>, poster: &View<'_>) -> bool {
    is_title(item) && count_language(poster, language_of(whole_payload(item))) > 1
}

/// Whether two titles have the same language.
fn has_language_twice(poster: &View<'_>) -> bool {
    for item in poster.items() {
        if is_title_again(&item, poster) {
            return true;
        }
    }
    false
}

/// Returns the remark about a smart poster.
pub(crate) fn poster_remark(poster: &View<'_>) -> Option<Remark> {
    if has_language_twice(poster) {
        Some(Remark::SameLanguage)
    } else {
        None
    }
}
