// A parser of messages as one writes it by hand in Rust: it joins chunks, checks flags, type name formats and lengths, and reads texts and URIs where they
// are asked for. It checks no payload.

use std::borrow::Cow;

struct HandRecord<'a> {
    kind: &'a [u8],
    #[allow(dead_code)]
    id: &'a [u8],
    payload: Cow<'a, [u8]>,
}

const PREFIXES: [&str; 7] = ["", "http://www.", "https://www.", "http://", "https://", "tel:", "mailto:"];

impl HandRecord<'_> {
    fn text(&self) -> Option<String> {
        let from = 1 + usize::from(self.payload.first()? & 63);
        Some(std::str::from_utf8(self.payload.get(from..)?).ok()?.to_owned())
    }

    fn uri(&self) -> Option<String> {
        let prefix = PREFIXES.get(usize::from(*self.payload.first()?))?;
        Some([prefix, std::str::from_utf8(&self.payload[1..]).ok()?].concat())
    }
}

/// Takes a part from the front of the bytes.
fn take<'a>(bytes: &mut &'a [u8], size: usize) -> Option<&'a [u8]> {
    let (part, rest) = bytes.split_at_checked(size)?;
    *bytes = rest;
    Some(part)
}

fn octet(bytes: &mut &[u8]) -> Option<usize> {
    take(bytes, 1).map(|part| usize::from(part[0]))
}

fn parse(mut bytes: &[u8]) -> Option<Vec<HandRecord<'_>>> {
    let (mut records, mut is_first, mut is_open) = (Vec::new(), true, false);
    loop {
        let head = octet(&mut bytes)?;
        let (tnf, kind_size) = (head & 7, octet(&mut bytes)?);
        let size = match head & 16 {
            0 => take(&mut bytes, 4)?.iter().fold(0, |size, octet| size << 8 | usize::from(*octet)),
            _ => octet(&mut bytes)?,
        };
        let id_size = if head & 8 == 0 { 0 } else { octet(&mut bytes)? };
        let fits = match tnf {
            6 => is_open && kind_size + id_size == 0,
            0 => !is_open && kind_size + id_size + size == 0,
            5 => !is_open && kind_size == 0,
            _ => !is_open && tnf < 5 && kind_size > 0,
        };
        if (head & 128 != 0) != is_first || !fits || head & 96 == 96 {
            return None;
        }
        let (kind, id, payload) = (take(&mut bytes, kind_size)?, take(&mut bytes, id_size)?, take(&mut bytes, size)?);
        match records.last_mut() {
            Some(HandRecord { payload: begun, .. }) if is_open => begun.to_mut().extend_from_slice(payload),
            _ => records.push(HandRecord { kind, id, payload: payload.into() }),
        }
        (is_first, is_open) = (false, head & 32 != 0);
        if head & 64 != 0 {
            return bytes.is_empty().then_some(records);
        }
    }
}
