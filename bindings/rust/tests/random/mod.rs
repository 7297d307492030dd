//! Random messages: records of every type that the standards define, with ids and in chunks, and the same with one change.
#![allow(dead_code)]

use crate::suite::Dice;

/// Appends a piece: its flags, its type, its id if it has one, and its payload.
fn put(out: &mut Vec<u8>, flags: u8, kind: &[u8], id: Option<&[u8]>, payload: &[u8], is_short: bool) {
    let is_short = is_short && payload.len() < 256;
    out.push(flags | if is_short { 0x10 } else { 0 } | if id.is_some() { 0x08 } else { 0 });
    out.push(kind.len() as u8);
    match is_short {
        true => out.push(payload.len() as u8),
        false => out.extend_from_slice(&(payload.len() as u32).to_be_bytes()),
    }
    out.extend(id.map(|id| id.len() as u8));
    out.extend_from_slice(kind);
    out.extend_from_slice(id.unwrap_or(&[]));
    out.extend_from_slice(payload);
}

/// Type name format, type and payload of a record.
pub type Content = (u8, &'static [u8], Vec<u8>);

/// A message of these records; the ids are digits, where there are any.
pub fn message_of(contents: &[Content], may_chunk: bool, dice: &mut Dice) -> Vec<u8> {
    let mut out = Vec::new();
    for (index, (tnf, kind, payload)) in contents.iter().enumerate() {
        let begins = if index == 0 { 0x80 } else { 0 };
        let ends = if index + 1 == contents.len() { 0x40 } else { 0 };
        let id = [b'0' + dice.below(4) as u8];
        let id = (*tnf != 0 && dice.below(2) == 0).then_some(&id[..dice.below(2)]);
        let is_short = dice.below(4) > 0;
        if !may_chunk || *tnf == 0 || dice.below(3) > 0 {
            put(&mut out, begins | ends | tnf, kind, id, payload, is_short);
            continue;
        }
        let (first, mut rest) = payload.split_at(dice.below(payload.len() + 1));
        put(&mut out, begins | 0x20 | tnf, kind, id, first, is_short);
        while dice.below(2) == 0 {
            let (part, left) = rest.split_at(dice.below(rest.len() + 1));
            put(&mut out, 0x26, b"", None, part, is_short);
            rest = left;
        }
        put(&mut out, ends | 6, b"", None, rest, is_short);
    }
    out
}

fn text(dice: &mut Dice) -> Vec<u8> {
    let language = dice.one_of(&["", "en", "de-AT"]);
    let text = dice.text();
    let (status, text) = match dice.below(4) {
        0 => (0x80, text.encode_utf16().flat_map(u16::to_be_bytes).collect()),
        1 => (0x80, "\u{feff}".encode_utf16().chain(text.encode_utf16()).flat_map(u16::to_le_bytes).collect()),
        _ => (0, text.into_bytes()),
    };
    [&[status | language.len() as u8], language.as_bytes(), &text].concat()
}

fn uri(dice: &mut Dice) -> Vec<u8> {
    [&[dice.below(0x28) as u8], dice.text().as_bytes()].concat()
}

fn alternative(dice: &mut Dice) -> Vec<u8> {
    let mut out = vec![dice.below(256) as u8];
    let mut reference = |out: &mut Vec<u8>| {
        let reference: Vec<u8> = (0..dice.below(3)).map(|_| b'0' + dice.below(4) as u8).collect();
        out.push(reference.len() as u8);
        out.extend(reference);
    };
    reference(&mut out);
    out.push(2);
    reference(&mut out);
    reference(&mut out);
    out.extend(dice.bytes(2));
    out
}

/// A record that stands within a poster or a handover.
fn inner(dice: &mut Dice) -> Content {
    match dice.below(9) {
        0 => (1, b"T", text(dice)),
        1 => (1, b"act", vec![dice.below(5) as u8]),
        2 => (1, b"s", (dice.below(1 << 32) as u32).to_be_bytes().into()),
        3 => (1, b"t", dice.text().into_bytes()),
        4 | 5 => (1, b"ac", alternative(dice)),
        6 => (1, b"err", dice.one_of(&[vec![1, 7], vec![2, 0, 0, 1, 0], vec![3, 9], vec![4], vec![1, 7, 7]])),
        7 => (1, b"cr", dice.bytes(3)),
        _ => (2, b"a/b", dice.bytes(5)),
    }
}

fn nested(first: Content, dice: &mut Dice) -> Vec<u8> {
    let mut contents: Vec<Content> = (0..dice.below(4)).map(|_| inner(dice)).collect();
    contents.insert(if first.1 == b"U" { dice.below(contents.len() + 1) } else { 0 }, first);
    message_of(&contents, false, dice)
}

pub fn outer(dice: &mut Dice) -> Content {
    match dice.below(10) {
        0 | 1 => (1, b"T", text(dice)),
        2 | 3 => (1, b"U", uri(dice)),
        4 => (1, b"Sp", nested((1, b"U", uri(dice)), dice)),
        5 => (1, b"Hr", [vec![0x12], nested((1, b"cr", dice.bytes(2)), dice)].concat()),
        6 if dice.below(4) == 0 => (1, b"Hs", vec![0x13]),
        6 => (1, b"Hs", [vec![0x13], nested((1, b"ac", alternative(dice)), dice)].concat()),
        7 => (1, b"Hc", [vec![dice.below(256) as u8, 2], dice.bytes(6)].concat()),
        8 => dice.one_of(&[(0, &b""[..], vec![]), (5, b"", vec![1, 2]), (7, b"", vec![3]), (1, b"x", vec![4])]),
        _ => (2, b"text/plain", dice.bytes(300)),
    }
}

/// The same bytes with one change, and where that is.
pub fn changed(mut bytes: Vec<u8>, dice: &mut Dice) -> (Vec<u8>, usize) {
    let at = dice.below(bytes.len());
    match dice.below(6) {
        0..=2 => bytes[at] = dice.below(256) as u8,
        3 => bytes[at] ^= 1 << dice.below(8),
        4 => bytes.truncate(at),
        _ => bytes.insert(at, dice.below(256) as u8),
    }
    (bytes, at)
}
