// Written by ports/erase of crates/ndef_diagnostics/src/expecting.rt, which has the contracts: do not edit.
//! The expectation at a refusal, from the bytes up to the refused one.

use crate::proved::ndef_diagnostics::begun::{
    after, before_payload, bytes_before, content_come, head_length, id_length, is_kind_whole, is_length_whole,
    is_lengths_whole, is_payload_begun, is_size_known, kind_come, kind_to_come, least_record, octet_at, payload_length,
    through,
};
use crate::proved::ndef_diagnostics::length_mismatch::{length_mismatch, of_least};
use crate::proved::ndef_diagnostics::poster_heads::of_uri;
use crate::proved::ndef_diagnostics::wholes::whole_pieces;
use crate::proved::ndef_diagnostics::{Expected, Whose};
use crate::proved::ndef_fields::FieldName;
use crate::proved::ndef_format::header::{is_set, width, CHUNK, END, ID_THERE};
use crate::proved::ndef_format::{Reason, Refusal, Table};
use crate::proved::ndef_lang::Kind;
use crate::proved::ndef_piece::header_tnf;

/// Returns the number of octets that are missing of a piece after its first two octets.
fn after_two(octets: &[u8]) -> Expected {
    let size = octets.len();
    let lengths = 2 + width(octet_at(octets, 0));
    if size < lengths {
        return Expected::Missing(FieldName::PayloadLength, (lengths - size) as u64);
    }
    let head = head_length(octets);
    if size < head {
        return Expected::Missing(FieldName::IdLength, 1);
    }
    let kind = head + usize::from(octet_at(octets, 1));
    if size < kind {
        return Expected::Missing(FieldName::Kind, (kind - size) as u64);
    }
    let id = before_payload(octets);
    if size < id {
        return Expected::Missing(FieldName::Id, (id - size) as u64);
    }
    Expected::Missing(FieldName::Payload, least_record(octets).saturating_sub(size as u64))
}

/// Returns what is missing of a piece of which these octets have come, after a chunk or after none.
fn missing(in_chunks: bool, octets: &[u8]) -> Expected {
    match octets {
        [] if in_chunks => Expected::NextChunk,
        [] => Expected::NextRecord,
        [_] => Expected::Missing(FieldName::KindLength, 1),
        [_, _, ..] => after_two(octets),
    }
}

/// Returns what is missing of an input, which ends with these octets of a piece, after a chunk or after none.
fn missing_after(input: &[u8], in_chunks: bool, come: &[u8]) -> Expected {
    match input {
        [] => Expected::Message,
        [_, ..] => missing(in_chunks, come),
    }
}

/// The kind of a payload of which a front has come; Other for a payload in several pieces.
fn kind_begun(octets: &[u8]) -> Kind {
    let header = octet_at(octets, 0);
    if is_set(CHUNK, header) {
        Kind::Other
    } else {
        Kind::of(header_tnf(header), kind_come(octets))
    }
}

/// The length of the shortest payload that holds this message (RTD Smart Poster 1.0, Connection Handover 1.2).
fn least_nest(table: Table) -> u64 {
    match table {
        Table::SmartPoster => 5,
        Table::Request => 8,
        Table::Select => 1,
    }
}

/// A payload of a kind that holds this message has at least its least length; a select is its version alone, or has
/// four octets and more.
fn of_nest(table: Table, kind: Kind, given: u64) -> Expected {
    match table {
        Table::Select if given == 2 || given == 3 => Expected::SelectLength(given),
        Table::SmartPoster | Table::Request | Table::Select => of_least(kind, least_nest(table), given),
    }
}

/// Returns the expectation if a payload of a kind has this length, and begins with these octets.
fn outer_length_mismatch(kind: Kind, given: u64, octets: &[u8]) -> Expected {
    match kind.table() {
        Some(table) => of_nest(table, kind, given),
        None => length_mismatch(kind.outer(), given, octets),
    }
}

/// Returns the expectation after these octets of a piece of the message itself.
fn in_message(octets: &[u8]) -> Expected {
    if is_kind_whole(octets) {
        outer_length_mismatch(kind_begun(octets), payload_length(octets), content_come(octets))
    } else {
        Expected::Nothing
    }
}

/// Whether it is the first record of a request.
fn is_collision(table: Table, number: u64) -> bool {
    matches!(table, Table::Request) && number == 1
}

/// Returns the expectation at the end of a record, which may be a collision record: a last one ends with the payload,
/// another leaves space for a record.
fn of_end(collision: bool, last: bool, size: u64, left: u64) -> Expected {
    if last {
        return if size == left {
            Expected::Nothing
        } else if collision {
            Expected::Size(Whose::LastCollision, size, left)
        } else {
            Expected::Size(Whose::LastRecord, size, left)
        };
    }
    let rest = left.saturating_sub(size);
    if rest >= 3 {
        Expected::Nothing
    } else if collision {
        Expected::Size(Whose::AfterCollision, 3, rest)
    } else {
        Expected::Size(Whose::NextRecord, 3, rest)
    }
}

/// A record, which may be a collision record, of at least this size, which is known to be its size or not.
fn of_size(collision: bool, known: bool, last: bool, size: u64, left: u64) -> Expected {
    if left < size {
        let whose = if collision { Whose::Collision } else { Whose::Record };
        Expected::Size(whose, size, left)
    } else if known {
        of_end(collision, last, size, left)
    } else if !last && left - size < 3 {
        Expected::Size(Whose::AfterShortest, 3, left - size)
    } else {
        Expected::Nothing
    }
}

/// Returns the expectation after these octets of the head of the first record of a request.
fn of_collision(left: u64, octets: &[u8]) -> Expected {
    let given = payload_length(octets);
    if is_length_whole(octets) && given != 2 {
        return Expected::CollisionLength(given);
    }
    let header = octet_at(octets, 0);
    let size = head_length(octets) + 4 + usize::from(id_length(octets));
    let known = !is_set(ID_THERE, header) || is_lengths_whole(octets);
    of_size(true, known, is_set(END, header), size as u64, left)
}

/// Returns the expectation after these octets of a head.
fn of_head(left: u64, octets: &[u8]) -> Expected {
    let last = is_set(END, octet_at(octets, 0));
    let least = least_record(octets) + kind_to_come(octets);
    of_size(false, is_size_known(octets), last, least, left)
}

/// The same in this nested message: a URI has to come in a poster, where nothing else is wanted.
fn or_uri(table: Table, expected: Expected, left: u64, octets: &[u8]) -> Expected {
    match (table, expected) {
        (Table::SmartPoster, Expected::Nothing) => of_uri(left, octets),
        (_, _) => expected,
    }
}

/// Returns the expectation after these octets of a head of a nested message.
fn in_head(table: Table, number: u64, left: u64, octets: &[u8]) -> Expected {
    if is_collision(table, number) {
        return of_collision(left, octets);
    }
    or_uri(table, of_head(left, octets), left, octets)
}

/// Returns the expectation after these octets of a piece of a nested message.
fn in_nested(table: Table, number: u64, left: u64, octets: &[u8]) -> Expected {
    if !is_kind_whole(octets) {
        return in_head(table, number, left, octets);
    }
    let kind = table.kind(header_tnf(octet_at(octets, 0)), kind_come(octets));
    length_mismatch(kind, payload_length(octets), content_come(octets))
}

/// The same, by the reason.
fn nested_expected(reason: Reason, table: Table, number: u64, left: u64, octets: &[u8]) -> Expected {
    match reason {
        Reason::DoesNotFit => in_nested(table, number, left, octets),
        Reason::UriMissing => Expected::UriInPoster(number),
        Reason::UriAgain => Expected::OneUri(number),
        Reason::CollisionMissing => Expected::CollisionFirst,
        _ => Expected::Nothing,
    }
}

/// Returns the expectation after these octets of a piece of the message itself, from the reason.
fn outer_expected(reason: Reason, octets: &[u8]) -> Expected {
    match reason {
        Reason::DoesNotFit => in_message(octets),
        _ => Expected::Nothing,
    }
}

/// The nested message of which octets come next, if a payload holds this message or none, and this number of its octets
/// has come.
fn nest_after(table: Option<Table>, count: usize) -> Option<Table> {
    match table {
        Some(Table::SmartPoster) => table,
        Some(Table::Request | Table::Select) if count >= 1 => table,
        Some(Table::Request | Table::Select) | None => None,
    }
}

/// The same, after these octets of a piece.
fn nest_begun(octets: &[u8]) -> Option<Table> {
    if is_payload_begun(octets) {
        nest_after(kind_begun(octets).table(), content_come(octets).len())
    } else {
        None
    }
}

/// The number of octets of a payload before the message that it holds.
fn version_length(table: Table) -> usize {
    match table {
        Table::SmartPoster => 0,
        Table::Request | Table::Select => 1,
    }
}

/// Returns the expectation in this nested message, if a byte after these octets of a piece is refused.
fn in_nest(table: Table, bytes: &[u8], refusal: Refusal, come: &[u8]) -> Expected {
    let content = content_come(come);
    let whole = whole_pieces(after(content, version_length(table)));
    let left = payload_length(come).saturating_sub(content.len() as u64) + whole.rest.len() as u64;
    let number = whole.count as u64 + 1;
    let octets = through(bytes, refusal.at, whole.rest);
    nested_expected(refusal.reason, table, number, left, octets)
}

/// Returns the expectation if a byte after these octets of a piece is refused.
fn in_piece(bytes: &[u8], refusal: Refusal, come: &[u8]) -> Expected {
    match nest_begun(come) {
        Some(table) => in_nest(table, bytes, refusal, come),
        None => outer_expected(refusal.reason, through(bytes, refusal.at, come)),
    }
}

/// Whether the reason is that the input has ended.
fn is_end(reason: Reason) -> bool {
    matches!(reason, Reason::EndOfInput)
}

/// Returns the expectation if a byte after these octets of a piece is refused, or the input has ended, after a chunk
/// or after none.
fn expected_after(bytes: &[u8], refusal: Refusal, in_chunks: bool, come: &[u8]) -> Expected {
    if is_end(refusal.reason) {
        missing_after(bytes_before(bytes, refusal.at), in_chunks, come)
    } else {
        in_piece(bytes, refusal, come)
    }
}

/// Returns the expectation that these bytes don't meet, from those up to the refused one (NDEF 1.0, RTD Text 1.0, RTD
/// URI 1.0, RTD Smart Poster 1.0, Connection Handover 1.2). If the place is past the last byte, the input ended there.
pub fn expected_at(bytes: &[u8], refusal: Refusal) -> Expected {
    let before = whole_pieces(bytes_before(bytes, refusal.at));
    expected_after(bytes, refusal, before.ends_in_chunk, before.rest)
}
