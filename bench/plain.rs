//! `plain FOLDER MILLISECONDS`: times a checker of NDEF messages as one writes it by hand: whole messages in a slice, chunks
//! joined where the payload is checked, the standard library's check of UTF-8, no places of errors and no limits.

include!("clock.rs");

#[derive(Debug)]
enum Bad {
    End,
    Head,
    Shape,
    Payload,
}

fn utf8(bytes: &[u8]) -> Result<(), Bad> {
    std::str::from_utf8(bytes).map(|_| ()).map_err(|_| Bad::Payload)
}

fn utf16(bytes: &[u8]) -> Result<(), Bad> {
    let mut units = bytes.chunks(2).map(|pair| u16::from_be_bytes([pair[0], pair[pair.len() - 1]]));
    let is_text = bytes.len() % 2 == 0 && char::decode_utf16(&mut units).all(|letter| letter.is_ok());
    if is_text { Ok(()) } else { Err(Bad::Payload) }
}

fn text(payload: &[u8]) -> Result<(), Bad> {
    let (&status, rest) = payload.split_first().ok_or(Bad::Payload)?;
    let count = usize::from(status & 63);
    if status & 64 != 0 || rest.len() < count || !rest[..count].is_ascii() {
        return Err(Bad::Payload);
    }
    if status & 128 == 0 { utf8(&rest[count..]) } else { utf16(&rest[count..]) }
}

fn payload(tnf: u8, kind: &[u8], payload: &[u8], is_nested: bool) -> Result<(), Bad> {
    let has = |count: usize| if payload.len() == count { Ok(()) } else { Err(Bad::Payload) };
    match (tnf, kind, is_nested) {
        (1, b"T", _) => text(payload),
        (1, b"U", _) => match payload.split_first() {
            Some((&code, rest)) if code <= 0x23 => utf8(rest),
            _ => Err(Bad::Payload),
        },
        (1, b"act", true) => has(1),
        (1, b"s", true) => has(4),
        (1, b"Sp", false) => has(check(payload, true)?.0),
        _ => Ok(()),
    }
}

/// The length of the message with which the bytes begin, and its records.
fn check(bytes: &[u8], is_nested: bool) -> Result<(usize, usize), Bad> {
    let (mut at, mut records, mut is_first) = (0, 0, true);
    let mut open: Option<(u8, &[u8], Vec<u8>)> = None;
    loop {
        let &[header, kind_length] = bytes.get(at..at + 2).ok_or(Bad::End)? else { return Err(Bad::End) };
        at += 2;
        let length = if header & 16 != 0 {
            at += 1;
            usize::from(*bytes.get(at - 1).ok_or(Bad::End)?)
        } else {
            at += 4;
            let octets = bytes.get(at - 4..at).ok_or(Bad::End)?;
            u32::from_be_bytes([octets[0], octets[1], octets[2], octets[3]]) as usize
        };
        let mut id_length = 0;
        if header & 8 != 0 {
            id_length = usize::from(*bytes.get(at).ok_or(Bad::End)?);
            at += 1;
        }
        let (tnf, kind_length) = (header & 7, usize::from(kind_length));
        if (header & 128 != 0) != is_first || tnf == 7 || header & 96 == 96 {
            return Err(Bad::Head);
        }
        match (tnf, open.is_some()) {
            (6, true) if kind_length == 0 && header & 8 == 0 => {}
            (0, false) if kind_length + length + id_length == 0 && header & 32 == 0 => {}
            (5, false) if kind_length == 0 => {}
            (1..=4, false) if kind_length > 0 => {}
            _ => return Err(Bad::Shape),
        }
        is_first = false;
        let kind = bytes.get(at..at + kind_length).ok_or(Bad::End)?;
        at += kind_length + id_length;
        let data = bytes.get(at..at + length).ok_or(Bad::End)?;
        at += length;
        if header & 32 != 0 {
            if is_nested {
                return Err(Bad::Shape);
            }
            match &mut open {
                None => open = Some((tnf, kind, data.to_vec())),
                Some(begun) => begun.2.extend_from_slice(data),
            }
            continue;
        }
        match open.take() {
            None => payload(tnf, kind, data, is_nested)?,
            Some((tnf, kind, mut joined)) => {
                joined.extend_from_slice(data);
                payload(tnf, kind, &joined, is_nested)?;
            }
        }
        records += 1;
        if header & 64 != 0 {
            return Ok((at, records));
        }
    }
}

fn main() {
    let (folder, milliseconds) = words();
    let names = ["hello", "umlauts", "uri", "poster", "records-1000", "opaque-1M", "ascii-1M", "wide-1M", "chunks-4000"];
    for name in names.iter().chain(&["records-100", "records-10000", "records-60000"]) {
        let bytes = message(&folder, name);
        assert_eq!(check(&bytes, false).expect("a message").0, bytes.len());
        time("check", name, milliseconds, || drop(std::hint::black_box(check(std::hint::black_box(&bytes), false))));
    }
}
