// Written by ports/erase of crates/ndef_c/src/utf16.rt, which has the contracts: do not edit.
//! Texts in UTF-16 (RFC 2781), read and written.

use crate::proved::ndef_c::out::Out;
use crate::proved::ndef_c::status::{BUFFER_TOO_SMALL, OK};

/// The unit of two octets.
fn unit_of(little: bool, first: u8, second: u8) -> u32 {
    if little {
        u32::from(u16::from_le_bytes([first, second]))
    } else {
        u32::from(u16::from_be_bytes([first, second]))
    }
}

/// The unit with which the octets begin, and those after it.
fn first_unit(little: bool, octets: &[u8]) -> (u32, &[u8]) {
    let [first, second, rest @ ..] = octets else { unreachable!() };
    (unit_of(little, *first, *second), rest)
}

/// The character with a number.
fn character(code: u32) -> char {
    match char::from_u32(code) {
        Some(c) => c,
        None => unreachable!(),
    }
}

/// Whether the unit is half of a pair of surrogates.
fn is_surrogate(unit: u32) -> bool {
    0xd800 <= unit && unit < 0xe000
}

/// The character with which the octets begin, and those after it.
fn first_character(little: bool, octets: &[u8]) -> (char, &[u8]) {
    let (unit, rest) = first_unit(little, octets);
    if !is_surrogate(unit) {
        return (character(unit), rest);
    }
    let (low, following) = first_unit(little, rest);
    let code = 0x10000 + (unit - 0xd800) * 0x400 + (low - 0xdc00);
    (character(code), following)
}

/// Writes the text that the octets spell in UTF-8.
fn put_in_utf8(out: &mut Out<'_>, little: bool, octets: &[u8]) {
    let mut rest = octets;
    while !rest.is_empty() {
        let (c, following) = first_character(little, rest);
        let mut buffer = [0; 4];
        out.put(c.encode_utf8(&mut buffer).as_bytes());
        rest = following;
    }
}

/// Writes the text that the octets spell to the buffer in UTF-8 where it is large enough, sets `count` to its number of
/// bytes, and returns the status.
pub(crate) fn give_in_utf8(little: bool, octets: &[u8], buffer: &mut [u8], count: &mut usize) -> u32 {
    let mut counter = Out::new(&mut [], 0);
    put_in_utf8(&mut counter, little, octets);
    *count = counter.at();
    if buffer.len() < *count {
        return BUFFER_TOO_SMALL;
    }
    put_in_utf8(&mut Out::new(buffer, 0), little, octets);
    OK
}

/// Writes the units of a character, big-endian.
fn put_character(out: &mut Out<'_>, c: char) {
    let mut units = [0; 2];
    for unit in c.encode_utf16(&mut units).iter() {
        out.put(&unit.to_be_bytes());
    }
}

/// Writes the units of a text, big-endian.
pub(crate) fn put_units(out: &mut Out<'_>, text: &str) {
    for c in text.chars() {
        put_character(out, c);
    }
}
