//! A reader of NDEF messages in plain Rust, by NDEF 1.0, RTD Text 1.0, RTD URI 1.0, RTD Smart Poster 1.0 and Connection
//! Handover 1.2. It shares nothing with the crate. It tells what a whole message is and says, but not where and why
//! other bytes are refused.
#![allow(dead_code)]

/// How a message is read.
#[derive(Clone, Copy, Debug)]
pub struct Rules {
    pub payload: usize,
    pub records: usize,
    pub pieces: usize,
    /// Whether reserved values are read as the standards say, and not refused.
    pub standard: bool,
    /// Whether payloads are validated.
    pub typed: bool,
}

/// A record, its chunks joined.
#[derive(Clone, Debug, PartialEq, Eq)]
pub struct Record {
    pub tnf: u8,
    pub kind: Vec<u8>,
    pub id: Vec<u8>,
    pub payload: Vec<u8>,
}

/// An alternative carrier: its power state and its references, the carrier data reference first.
pub type Alternative = (u8, Vec<Vec<u8>>);

/// What a payload says.
#[derive(Clone, Debug, PartialEq, Eq)]
pub enum Value {
    Text { utf16: bool, language: String, text: String },
    Uri(String),
    Poster { uri: String, titles: Vec<(String, String)>, action: Option<u8>, size: Option<u32>, media: Option<String> },
    Request { minor: u8, collision: u16, alternatives: Vec<Alternative> },
    Select { minor: u8, error: Option<(u8, Vec<u8>)>, alternatives: Vec<Alternative> },
    Carrier { format: u8, kind: Vec<u8>, data: Vec<u8> },
    Other,
}

/// Bytes that are taken from the front.
struct Input<'a>(&'a [u8]);

impl<'a> Input<'a> {
    fn take(&mut self, count: usize) -> Option<&'a [u8]> {
        let (front, rest) = self.0.split_at_checked(count)?;
        self.0 = rest;
        Some(front)
    }

    fn byte(&mut self) -> Option<u8> {
        Some(self.take(1)?[0])
    }
}

/// A record or a chunk.
struct Piece<'a> {
    begins: bool,
    ends: bool,
    is_chunk: bool,
    has_id: bool,
    tnf: u8,
    kind: &'a [u8],
    id: &'a [u8],
    payload: &'a [u8],
}

fn piece<'a>(input: &mut Input<'a>) -> Option<Piece<'a>> {
    let header = input.byte()?;
    let kind_length = input.byte()?.into();
    let length = match header & 0x10 {
        0 => u32::from_be_bytes(input.take(4)?.try_into().ok()?) as usize,
        _ => input.byte()?.into(),
    };
    let has_id = header & 0x08 != 0;
    let id_length = if has_id { input.byte()?.into() } else { 0 };
    Some(Piece {
        begins: header & 0x80 != 0,
        ends: header & 0x40 != 0,
        is_chunk: header & 0x20 != 0,
        has_id,
        tnf: header & 7,
        kind: input.take(kind_length)?,
        id: input.take(id_length)?,
        payload: input.take(length)?,
    })
}

/// The record that a first piece begins, as NDEF 1.0, 3.2.6 and 3.2.7 allow it.
fn begun(piece: &Piece<'_>, standard: bool) -> Option<Record> {
    let tnf = if piece.tnf == 7 && standard { 5 } else { piece.tnf };
    let is_right = match tnf {
        0 => piece.kind.is_empty() && piece.id.is_empty() && piece.payload.is_empty() && !piece.is_chunk,
        1..=4 => !piece.kind.is_empty(),
        5 => piece.kind.is_empty(),
        _ => false,
    };
    let record = Record { tnf, kind: piece.kind.into(), id: piece.id.into(), payload: piece.payload.into() };
    is_right.then_some(record)
}

/// The record with which an input begins, and whether it is the last of its message.
fn record(input: &mut Input<'_>, is_first: bool, rules: Rules) -> Option<(Record, bool)> {
    let mut last = piece(input)?;
    if last.begins != is_first {
        return None;
    }
    let mut record = begun(&last, rules.standard)?;
    let mut pieces = 1;
    while last.is_chunk {
        let next = piece(input)?;
        pieces += 1;
        if last.ends || next.begins || next.tnf != 6 || next.has_id || !next.kind.is_empty() || pieces > rules.pieces {
            return None;
        }
        record.payload.extend_from_slice(next.payload);
        last = next;
    }
    (record.payload.len() <= rules.payload).then_some((record, last.ends))
}

/// The message with which bytes begin, and its length.
pub fn message(bytes: &[u8], rules: Rules) -> Option<(Vec<Record>, usize)> {
    let (mut input, mut records) = (Input(bytes), Vec::new());
    loop {
        let (record, is_last) = record(&mut input, records.is_empty(), rules)?;
        if rules.typed {
            value(record.tnf, &record.kind, &record.payload, rules)?;
        }
        records.push(record);
        match (is_last, records.len() < rules.records) {
            (true, _) => return Some((records, bytes.len() - input.0.len())),
            (false, true) => {}
            (false, false) => return None,
        }
    }
}

/// The records of a message that is all of a payload. It has at most as many as any message, and none is chunked.
fn within(payload: &[u8], rules: Rules) -> Option<Vec<Record>> {
    let rules = Rules { pieces: 1, typed: false, ..rules };
    let (records, length) = message(payload, rules)?;
    (length == payload.len()).then_some(records)
}

/// The value of a payload.
pub fn value(tnf: u8, kind: &[u8], payload: &[u8], rules: Rules) -> Option<Value> {
    match (tnf, kind) {
        (1, b"T") => {
            let (utf16, language, text) = text(payload)?;
            Some(Value::Text { utf16, language, text })
        }
        (1, b"U") => Some(Value::Uri(uri(payload, rules.standard)?)),
        (1, b"Sp") => poster(&within(payload, rules)?, rules.standard),
        (1, b"Hr") => request(payload, rules),
        (1, b"Hs") => select(payload, rules),
        (1, b"Hc") => {
            let mut input = Input(payload);
            let format = input.byte()? & 7;
            let length = input.byte()?.into();
            Some(Value::Carrier { format, kind: input.take(length)?.into(), data: input.0.into() })
        }
        _ => Some(Value::Other),
    }
}

fn text(payload: &[u8]) -> Option<(bool, String, String)> {
    let mut input = Input(payload);
    let status = input.byte()?;
    let language = input.take((status & 0x3F).into())?;
    if status & 0x40 != 0 || !language.is_ascii() {
        return None;
    }
    let language = String::from_utf8(language.into()).ok()?;
    let utf16 = status & 0x80 != 0;
    let text = if utf16 { utf16_text(input.0)? } else { String::from_utf8(input.0.into()).ok()? };
    Some((utf16, language, text))
}

/// UTF-16 as its byte order mark says, big-endian without one.
fn utf16_text(bytes: &[u8]) -> Option<String> {
    let (is_little, bytes) = match bytes {
        [0xFF, 0xFE, rest @ ..] => (true, rest),
        [0xFE, 0xFF, rest @ ..] => (false, rest),
        _ => (false, bytes),
    };
    let units = bytes.chunks(2).map(|pair| {
        let pair: [u8; 2] = pair.try_into().ok()?;
        Some(if is_little { u16::from_le_bytes(pair) } else { u16::from_be_bytes(pair) })
    });
    String::from_utf16(&units.collect::<Option<Vec<u16>>>()?).ok()
}

/// RTD URI 1.0, table 3.
#[rustfmt::skip]
const PREFIXES: [&str; 36] = [
    "", "http://www.", "https://www.", "http://", "https://", "tel:", "mailto:", "ftp://anonymous:anonymous@",
    "ftp://ftp.", "ftps://", "sftp://", "smb://", "nfs://", "ftp://", "dav://", "news:", "telnet://", "imap:",
    "rtsp://", "urn:", "pop:", "sip:", "sips:", "tftp:", "btspp://", "btl2cap://", "btgoep://", "tcpobex://",
    "irdaobex://", "file://", "urn:epc:id:", "urn:epc:tag:", "urn:epc:pat:", "urn:epc:raw:", "urn:epc:", "urn:nfc:",
];

fn uri(payload: &[u8], standard: bool) -> Option<String> {
    let (code, rest) = payload.split_first()?;
    let prefix = match PREFIXES.get(usize::from(*code)) {
        Some(prefix) => prefix,
        None if standard => "",
        None => return None,
    };
    Some(prefix.to_string() + std::str::from_utf8(rest).ok()?)
}

fn poster(records: &[Record], standard: bool) -> Option<Value> {
    let (mut uris, mut titles, mut actions, mut sizes, mut media) = (vec![], vec![], vec![], vec![], vec![]);
    for record in records.iter().filter(|record| record.tnf == 1) {
        match record.kind.as_slice() {
            b"U" => uris.push(uri(&record.payload, standard)?),
            b"T" => titles.push(text(&record.payload).map(|(_, language, text)| (language, text))?),
            b"act" => actions.push(<[u8; 1]>::try_from(record.payload.as_slice()).ok()?[0]),
            b"s" => sizes.push(u32::from_be_bytes(record.payload.as_slice().try_into().ok()?)),
            b"t" => media.push(String::from_utf8(record.payload.clone()).ok()?),
            _ => {}
        }
    }
    let [uri] = <[String; 1]>::try_from(uris).ok()?;
    let (action, size) = (actions.first().copied(), sizes.first().copied());
    Some(Value::Poster { uri, titles, action, size, media: media.first().cloned() })
}

/// The minor version of a handover, and what follows the version byte.
fn version(payload: &[u8]) -> Option<(u8, &[u8])> {
    let (version, rest) = payload.split_first()?;
    (version >> 4 == 1).then_some((version & 15, rest))
}

fn request(payload: &[u8], rules: Rules) -> Option<Value> {
    let (minor, rest) = version(payload)?;
    let records = within(rest, rules)?;
    let mut numbers = Vec::new();
    for record in records.iter().filter(|record| record.tnf == 1 && record.kind == b"cr") {
        numbers.push(u16::from_be_bytes(record.payload.as_slice().try_into().ok()?));
    }
    let is_first = records[0].tnf == 1 && records[0].kind == b"cr";
    let collision = numbers.first().copied().filter(|_| is_first)?;
    Some(Value::Request { minor, collision, alternatives: alternatives(&records)? })
}

fn select(payload: &[u8], rules: Rules) -> Option<Value> {
    let (minor, rest) = version(payload)?;
    let records = if rest.is_empty() { Vec::new() } else { within(rest, rules)? };
    let mut errors = Vec::new();
    for record in records.iter().filter(|record| record.tnf == 1 && record.kind == b"err") {
        let (reason, data) = record.payload.split_first()?;
        match (reason, data.len()) {
            (1 | 3, 1) | (2, 4) | (0 | 4.., _) => errors.push((*reason, data.to_vec())),
            _ => return None,
        }
    }
    Some(Value::Select { minor, error: errors.first().cloned(), alternatives: alternatives(&records)? })
}

fn alternatives(records: &[Record]) -> Option<Vec<Alternative>> {
    records
        .iter()
        .filter(|record| record.tnf == 1 && record.kind == b"ac")
        .map(|record| alternative(&record.payload))
        .collect()
}

fn alternative(payload: &[u8]) -> Option<Alternative> {
    let mut input = Input(payload);
    let power = input.byte()? & 3;
    let length = input.byte()?.into();
    let mut references = vec![input.take(length)?.to_vec()];
    for _ in 0..input.byte()? {
        let length = input.byte()?.into();
        references.push(input.take(length)?.to_vec());
    }
    Some((power, references))
}

/// The first handover of a message, and for each of its alternative carriers the index of the record that it refers to.
pub fn links(records: &[Record], rules: Rules) -> Option<Vec<(Alternative, Option<usize>)>> {
    let is_handover = |record: &&Record| record.tnf == 1 && (record.kind == b"Hr" || record.kind == b"Hs");
    let Some(handover) = records.iter().find(is_handover) else { return Some(Vec::new()) };
    let alternatives = match value(1, &handover.kind, &handover.payload, rules)? {
        Value::Request { alternatives, .. } | Value::Select { alternatives, .. } => alternatives,
        _ => return None,
    };
    let linked = alternatives.into_iter().map(|alternative| {
        let reference = &alternative.1[0];
        let index = records.iter().position(|record| !reference.is_empty() && record.id == *reference);
        (alternative, index)
    });
    Some(linked.collect())
}
