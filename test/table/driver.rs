//! driver TABLE: makes each call of the table, as its second form has them, through the public interface of the crate, and prints a line for each row.
//! Bytes are given as borrowed, as owned and as text; what was given is overwritten before what owns its bytes is read; buffers that were filled are
//! overwritten and filled again; and four threads make all calls again in another order: nothing may be another answer then.
use simbegyor_ndef::*;
use std::collections::HashMap;
use std::io::{self, BufRead, Read, Write};
use std::num::{NonZeroU16, NonZeroU32};

const NOT: &str = r#"{"limits":"the types of limits allow no others","layout":"there are no layouts",
"handover":"links are those of the first handover","unlisted":"Unlisted stands for it","sentence":"why says it of the bytes","utf8":"a text is UTF-8",
"which":"an error is of all of them","format":"the type has no others","within":"there are values of texts, URIs, alternative carriers and errors"}"#;

/// Why a row has no value: the answer instead.
type Answer = Result<String, String>;

// ---- a row

struct Row<'a>(HashMap<&'a str, &'a str>);

impl<'a> Row<'a> {
    fn of(line: &'a str) -> Self {
        Row(line.split('\t').filter_map(|word| word.split_once('=')).collect())
    }

    fn has(&self, name: &str) -> bool {
        self.0.contains_key(name)
    }

    fn word(&self, name: &str) -> &'a str {
        self.0.get(name).copied().unwrap_or("")
    }

    fn number(&self, name: &str) -> u32 {
        self.word(name).parse().unwrap_or(0)
    }

    fn bytes(&self, name: &str) -> Vec<u8> {
        let digits = self.word(name);
        (0..digits.len() / 2).map(|at| u8::from_str_radix(&digits[2 * at..2 * at + 2], 16).unwrap()).collect()
    }

    fn text(&self, name: &str) -> Result<String, String> {
        String::from_utf8(self.bytes(name)).map_err(|_| not("utf8"))
    }

    /// The names of the items of a list.
    fn items(&self, name: &str) -> Vec<String> {
        (0..self.number(name)).map(|index| format!("{name}.{index}")).collect()
    }

    fn profile(&self) -> Profile {
        if self.has("profile") { Profile::Standard } else { Profile::Strict }
    }

    fn limits(&self) -> Result<Limits, String> {
        let mut limits = Limits::new().with_profile(self.profile());
        if self.has("opaque") {
            limits = limits.with_payloads(Payloads::Opaque);
        }
        let short = |name: &str| u16::try_from(self.number(name)).ok().and_then(NonZeroU16::new).ok_or(not("limits"));
        if self.has("limits.payload") {
            limits = limits.with_payload(NonZeroU32::new(self.number("limits.payload")).ok_or(not("limits"))?);
        }
        if self.has("limits.records") {
            limits = limits.with_records(short("limits.records")?);
        }
        Ok(if self.has("limits.chunks") { limits.with_chunks(short("limits.chunks")?) } else { limits })
    }

    fn form(&self) -> Result<Form, String> {
        let limits = if self.has("unchecked") { None } else { Some(self.limits()?) };
        Ok(Form { chunk: NonZeroU32::new(self.number("form.chunk")), long: self.has("form.long"), limits })
    }
}

// ---- what is shown

fn not(why: &str) -> String {
    format!(r#"{{"not":"{why}"}}"#)
}

fn bad() -> String {
    r#"{"bad":true}"#.into()
}

fn failed(why: &str) -> String {
    format!(r#"{{"failed":{}}}"#, quoted(why))
}

fn quoted(text: &str) -> String {
    format!("\"{}\"", text.replace('\\', "\\\\").replace('"', "\\\""))
}

fn hex(bytes: impl AsRef<[u8]>) -> String {
    let digits: String = bytes.as_ref().iter().map(|byte| format!("{byte:02x}")).collect();
    format!("\"{digits}\"")
}

fn list<T: AsRef<str>>(items: impl IntoIterator<Item = T>) -> String {
    let items: Vec<T> = items.into_iter().collect();
    format!("[{}]", items.iter().map(AsRef::as_ref).collect::<Vec<&str>>().join(","))
}

fn or_null<T>(value: Option<T>, shown: impl Fn(T) -> String) -> String {
    value.map_or("null".into(), shown)
}

fn place_of(refusal: Refusal) -> String {
    format!(r#"[{},"{}"]"#, refusal.at, refusal.reason.name())
}

fn refused(refusal: Refusal) -> String {
    format!(r#"{{"refused":{}}}"#, place_of(refusal))
}

fn unwritten(error: EncodeError) -> String {
    let EncodeError::Refused { record, refusal } = error else { return bad() };
    let (place, reason) = (refusal.at, refusal.reason.name());
    format!(r#"{{"refused":{{"record":{record},"place":{place},"reason":"{reason}","sentence":"-sentence"}}}}"#)
}

// ---- values

fn title_of(text: &Text<'_>) -> String {
    let buffer = &mut vec![0xBB; text.text().len()];
    assert_eq!(text.text_in(buffer), Ok(&*text.text()));
    buffer.fill(0xBB);
    format!("[{},{},{}]", hex(text.language()), hex(text.text().as_bytes()), text.encoding() == Encoding::Utf16)
}

fn alternative_of(carrier: &AlternativeCarrier<'_>) -> String {
    format!("{},{},{}", carrier.power().number(), hex(carrier.reference()), list(carrier.auxiliaries().map(hex)))
}

fn error_of(error: HandoverError<'_>) -> String {
    format!("[{},{},{}]", error.reason, hex(error.data), or_null(error.number, |number| number.to_string()))
}

fn handover_of((major, minor): (u8, u8), carriers: Alternatives<'_>, count: usize) -> String {
    assert_eq!((carriers.len(), carriers.clone().count()), (count, count));
    let carriers = list(carriers.map(|carrier| format!("[{}]", alternative_of(&carrier))));
    format!(r#""version":[{major},{minor}],"carriers":{carriers}"#)
}

fn poster_of(poster: &SmartPoster<'_>) -> String {
    let icons = poster.icons().map(|icon| format!("[{},{}]", hex(icon.media_type), hex(icon.data)));
    format!(
        r#"{{"kind":"poster","uri":{},"titles":{},"action":{},"size":{},"media":{},"icons":{}}}"#,
        hex(poster.uri().to_uri()),
        list(poster.titles().map(|title| title_of(&title))),
        or_null(poster.action(), |action| action.number().to_string()),
        or_null(poster.size(), |size| size.to_string()),
        or_null(poster.media_type(), hex),
        list(icons)
    )
}

fn value_of(value: &Payload<'_>) -> String {
    match value {
        Payload::Text(text) => {
            let (language, utf16) = (hex(text.language()), text.encoding() == Encoding::Utf16);
            let text = hex(text.clone().into_text().as_bytes());
            format!(r#"{{"kind":"text","language":{language},"text":{text},"utf16":{utf16}}}"#)
        }
        Payload::Uri(uri) => {
            assert_eq!((uri.to_string(), uri.uri_len()), (uri.to_uri(), uri.to_uri().len()));
            assert_eq!(uri.uri_in(&mut vec![0xBB; uri.uri_len()]), Ok(&*uri.to_uri()));
            format!(r#"{{"kind":"uri","uri":{}}}"#, hex(uri.to_uri()))
        }
        Payload::SmartPoster(poster) => poster_of(poster),
        Payload::HandoverRequest(request) => {
            let handover = handover_of(request.version(), request.alternatives(), request.alternative_count());
            format!(r#"{{"kind":"request",{handover},"collision":{}}}"#, request.collision())
        }
        Payload::HandoverSelect(select) => {
            let handover = handover_of(select.version(), select.alternatives(), select.alternative_count());
            format!(r#"{{"kind":"select",{handover},"error":{}}}"#, or_null(select.error(), error_of))
        }
        Payload::HandoverCarrier(carrier) => {
            let (format, kind, data) = (carrier.format(), hex(carrier.kind()), hex(carrier.data()));
            format!(r#"{{"kind":"carrier","format":{format},"type":{kind},"data":{data}}}"#)
        }
        _ => "null".into(),
    }
}

fn owned(value: Payload<'_>) -> Payload<'static> {
    match value {
        Payload::Text(value) => Payload::Text(value.into_owned()),
        Payload::Uri(value) => Payload::Uri(value.into_owned()),
        Payload::SmartPoster(value) => Payload::SmartPoster(value.into_owned()),
        Payload::HandoverRequest(value) => Payload::HandoverRequest(value.into_owned()),
        Payload::HandoverSelect(value) => Payload::HandoverSelect(value.into_owned()),
        Payload::HandoverCarrier(value) => Payload::HandoverCarrier(value.into_owned()),
        _ => Payload::Other,
    }
}

/// What a payload says, by what borrows it and, once the payload is overwritten, by what owns it.
fn value_in(kind: &[u8], payload: &[u8], profile: Profile) -> Answer {
    let mut given = payload.to_vec();
    let value = Payload::parse(Tnf::WellKnown, kind, &given, profile).map_err(refused)?;
    let (shown, own) = (value_of(&value), owned(value.clone()));
    drop(value);
    given.fill(0xAA);
    if value_of(&own) == shown { Ok(shown) } else { Err(failed("what owns its bytes says another thing")) }
}

fn parts_of(record: &Record<'_>) -> String {
    let payload = record.payload_cow();
    let buffer = &mut vec![0xBB; payload.len() + 3];
    assert_eq!(record.payload_in(buffer).unwrap(), &*payload);
    buffer.fill(0xBB);
    assert_eq!((record.chunks().len(), record.chunks().collect::<Vec<_>>().concat()), (record.chunk_count(), payload.to_vec()));
    assert_eq!((record.payload_len(), record.payload().is_some()), (payload.len(), record.chunk_count() == 1));
    format!("{},{},{},{}", record.tnf().number(), hex(record.kind()), hex(record.id()), hex(payload))
}

fn record_of(record: Record<'_>) -> String {
    let value = match record.decode() {
        Ok(value) => {
            assert_eq!(record.decode_in(&mut vec![0xBB; record.payload_len()]).as_ref(), Ok(&value));
            value_of(&value)
        }
        Err(refusal) => refused(refusal),
    };
    format!("[{},{},{value}]", parts_of(&record), record.payload_kind(PayloadKind::Other).number())
}

// ---- operations that read

fn parsed<'a>(row: &Row<'_>, bytes: &'a [u8]) -> Result<Message<'a>, String> {
    let message = Message::parse_within(bytes, &row.limits()?).map_err(refused)?;
    let places: Vec<usize> = message.records().map(|record| record.place()).collect();
    assert!(message.records().map(|record| record.is_last()).eq((1..=places.len()).map(|count| count == places.len())));
    assert_eq!(message.record_count(), places.len());
    assert_eq!([message.as_bytes(), message.rest()].concat(), bytes);
    Ok(message)
}

fn check_(row: &Row<'_>) -> Answer {
    let checked = check(&row.bytes("bytes"), &row.limits()?).map_err(refused)?;
    Ok(format!(r#"{{"length":{},"records":{}}}"#, checked.length, checked.records))
}

fn decode(row: &Row<'_>) -> Answer {
    let bytes = row.bytes("bytes");
    let message = parsed(row, &bytes)?;
    if row.word("op") == "decode_all" && !message.rest().is_empty() {
        return Err(format!(r#"{{"trailing":{}}}"#, message.as_bytes().len()));
    }
    Ok(format!(r#"{{"length":{},"records":{}}}"#, message.as_bytes().len(), list(message.records().map(record_of))))
}

fn feed(row: &Row<'_>) -> Answer {
    let (limits, mut fed, mut shown) = (row.limits()?, Vec::new(), Vec::new());
    let mut checker = Checker::new(&limits);
    for part in row.items("parts") {
        fed.extend(row.bytes(&part));
        shown.push(match checker.feed(&row.bytes(&part)) {
            Ok(Some(checked)) => format!(r#"["whole",{}]"#, checked.length),
            Ok(None) => format!(r#"["more",{}]"#, fed.len()),
            Err(refusal) => format!(r#"["refused",{},"{}"]"#, refusal.at, refusal.reason.name()),
        });
        assert_eq!(checker.clone().end(), check(&fed, &limits));
    }
    Ok(format!(r#"{{"fed":{}}}"#, list(shown)))
}

/// A reader that shows one part at a time, and fails after the last one or ends.
struct Parts {
    parts: Vec<Vec<u8>>,
    taken: usize,
    fails: bool,
}

impl Read for Parts {
    fn read(&mut self, to: &mut [u8]) -> io::Result<usize> {
        let count = self.fill_buf()?.read(to)?;
        self.consume(count);
        Ok(count)
    }
}

impl BufRead for Parts {
    fn fill_buf(&mut self) -> io::Result<&[u8]> {
        self.parts.retain(|part| !part.is_empty());
        if self.parts.is_empty() && self.fails {
            return Err(io::ErrorKind::BrokenPipe.into());
        }
        Ok(self.parts.first().map_or(&[], |part| part))
    }

    fn consume(&mut self, count: usize) {
        self.taken += count;
        if count > 0 {
            self.parts[0].drain(..count);
        }
    }
}

fn stream(row: &Row<'_>) -> Answer {
    let (limits, mut messages) = (row.limits()?, Vec::new());
    let parts = row.items("parts").iter().map(|part| row.bytes(part)).collect();
    let mut reader = Parts { parts, taken: 0, fails: row.has("fails") };
    let end = loop {
        match read_message(&mut reader, &limits) {
            Ok(None) => break "null".to_string(),
            Ok(Some(bytes)) => {
                let message = Message::parse_within(&bytes, &limits).map_err(refused)?;
                messages.push(list(message.records().map(|record| format!("[{}]", parts_of(&record)))));
            }
            Err(ReadError::Refused(refusal)) => {
                let (place, reason) = (refusal.at, refusal.reason.name());
                break format!(r#"{{"place":{place},"in_stream":{},"reason":"{reason}"}}"#, reader.taken);
            }
            Err(_) => break "\"source\"".to_string(),
        }
    };
    Ok(format!(r#"{{"messages":{},"end":{end}}}"#, list(messages)))
}

fn fields(row: &Row<'_>) -> Answer {
    let bytes = row.bytes("bytes");
    let fields = Fields::of(&bytes, &row.limits()?);
    let shown = fields.clone().map(|field| {
        assert_eq!((fields.at(field.at), fields.at(field.at + field.bytes.len() - 1)), (Some(field), Some(field)));
        format!("[{},{},{},{}]", field.at, field.bytes.len(), field.depth, quoted(field.name.text()))
    });
    Ok(format!(r#"{{"fields":{},"refused":{}}}"#, list(shown), or_null(fields.refusal(), place_of)))
}

/// The text of a hint before its colon, and the places after it.
fn text_of(found: FoundHint, given: usize) -> String {
    let text = found.to_string();
    let (before, after) = text.split_once(':').unwrap_or((&text, ""));
    let inside = after.split("read `&bytes[").nth(1).and_then(|rest| rest.split(']').next()).unwrap_or("");
    let places = inside.split("..").filter_map(|digits| digits.parse::<usize>().ok()).map(|place| place.min(given).to_string());
    format!("[{},{}]", quoted(before), list(places))
}

fn refusal(row: &Row<'_>) -> Answer {
    let (bytes, limits) = (row.bytes("bytes"), row.limits()?);
    let found = find_hint(&bytes, &limits);
    Ok(format!(
        r#"{{"why":{},"hint":{},"found":{},"text":{}}}"#,
        or_null(why(&bytes, &limits), |said| quoted(&said)),
        or_null(hint(&bytes, &limits), |said| quoted(&said)),
        or_null(found, |found| format!("[{},{},{}]", found.kind as u32, found.place, found.length)),
        or_null(found, |found| text_of(found, bytes.len()))
    ))
}

fn warnings(row: &Row<'_>) -> Answer {
    let (bytes, limits) = (row.bytes("bytes"), Limits::new());
    let records = check(&bytes, &limits).map_err(refused)?.records as usize;
    let said = |(index, said): (usize, Option<String>)| said.map(|said| format!("[{index},{}]", quoted(&said)));
    let of_fields = Fields::of(&bytes, &limits).map(|field| field_warning(field.name, field.bytes)).enumerate().filter_map(said);
    let of_records = (0..=records).map(|index| record_warning(&bytes, index)).enumerate().filter_map(said);
    Ok(format!(r#"{{"fields":{},"records":{}}}"#, list(of_fields), list(of_records)))
}

fn links(row: &Row<'_>) -> Answer {
    let bytes = row.bytes("bytes");
    let message = parsed(row, &bytes)?;
    let is_handover = |record: Record<'_>| matches!(record.payload_kind(PayloadKind::Other).number(), 4 | 5);
    if message.records().position(is_handover).map(|index| index.to_string()) != Some(row.word("index").to_string()) {
        return Err(not("handover"));
    }
    let places: Vec<usize> = message.records().map(|record| record.place()).collect();
    let index = |record: Record<'_>| places.iter().position(|place| *place == record.place()).unwrap().to_string();
    let all = message.links().map_err(|_| not("handover"))?;
    let link = |link: Link<'_>| format!("[{},{}]", alternative_of(&link.alternative), or_null(link.record, index));
    Ok(format!(r#"{{"links":{}}}"#, list(all.map(link))))
}

fn value(row: &Row<'_>) -> Answer {
    Ok(format!(r#"{{"value":{}}}"#, value_in(&row.bytes("type"), &row.bytes("payload"), row.profile())?))
}

fn value_within(record: &Record<'_>, kind: PayloadKind, profile: Profile) -> Answer {
    let payload = record.payload_cow();
    Ok(match kind {
        PayloadKind::Text | PayloadKind::Uri => value_in(record.kind(), &payload, profile)?,
        PayloadKind::AlternativeCarrier => {
            let carrier = AlternativeCarrier::parse(&payload).map_err(refused)?;
            assert_eq!(carrier.clone().into_owned(), carrier);
            format!(r#"{{"kind":"alternative","alternative":[{}]}}"#, alternative_of(&carrier))
        }
        PayloadKind::HandoverError => {
            format!(r#"{{"kind":"error","error":{}}}"#, error_of(HandoverError::parse(&payload).map_err(refused)?))
        }
        PayloadKind::Other => "null".into(),
        _ => r#""-within""#.into(),
    })
}

fn within(row: &Row<'_>) -> Answer {
    let (payload, profile) = (row.bytes("payload"), row.profile());
    let value = Payload::parse(Tnf::WellKnown, &row.bytes("type"), &payload, profile).map_err(refused)?;
    let (records, outer) = match &value {
        Payload::SmartPoster(poster) => (poster.records(), PayloadKind::SmartPoster),
        Payload::HandoverRequest(request) => (request.records(), PayloadKind::HandoverRequest),
        Payload::HandoverSelect(select) => (select.records(), PayloadKind::HandoverSelect),
        _ => return Ok(r#"{"within":null}"#.into()),
    };
    let shown = |record: Record<'_>| {
        let kind = record.payload_kind(outer);
        Ok(format!("[{},{},{}]", parts_of(&record), kind.number(), value_within(&record, kind, profile)?))
    };
    Ok(format!(r#"{{"within":{}}}"#, list(records.map(shown).collect::<Result<Vec<String>, String>>()?)))
}

fn reason(row: &Row<'_>) -> Answer {
    let reason = Reason::from_number(row.number("number")).ok_or(not("unlisted"))?;
    Ok(format!(r#"{{"name":{},"sentence":{}}}"#, quoted(reason.name()), quoted(reason.sentence())))
}

fn title(row: &Row<'_>) -> Answer {
    let payload = row.bytes("payload");
    let poster = SmartPoster::parse(&payload, Profile::Strict).map_err(refused)?;
    Ok(format!(r#"{{"title":{}}}"#, or_null(poster.title(&row.text("language")?), |text| title_of(&text))))
}

// ---- operations that write

/// A record to be written, whose parts are given as borrowed, as owned or as text.
fn record_for<'a>(row: &Row<'_>, name: &str, parts: &'a [Vec<u8>; 3]) -> Result<NewRecord<'a>, String> {
    let tnf = Tnf::from_number(row.number(&format!("{name}.0"))).ok_or(bad())?;
    let [kind, id, payload] = parts;
    Ok(match (std::str::from_utf8(kind), row.word("id").len() % 3) {
        (Ok(kind), 0) => NewRecord::new(tnf, kind, payload.clone()).with_id(id),
        (_, 1) => NewRecord::new(tnf, kind.clone(), payload).with_id(id.clone()).into_owned(),
        _ => NewRecord::new(tnf, &kind[..], &payload[..]).with_id(&id[..]),
    })
}

fn parts_for(row: &Row<'_>, name: &str) -> [Vec<u8>; 3] {
    [1, 2, 3].map(|part| row.bytes(&format!("{name}.{part}")))
}

fn builder_of<'a>(row: &Row<'_>, parts: &'a [[Vec<u8>; 3]]) -> Result<MessageBuilder<'a>, String> {
    let (mut builder, form) = (MessageBuilder::new(), row.form()?);
    for (name, parts) in row.items("records").iter().zip(parts) {
        builder.push(record_for(row, name, parts)?);
    }
    builder = form.chunk.map_or(builder.clone(), |chunk| builder.chunk(chunk));
    builder = if form.long { builder.long() } else { builder };
    Ok(form.limits.map_or(builder.clone().unchecked(), |limits| builder.limits(limits)))
}

fn encode_(row: &Row<'_>) -> Answer {
    let parts: Vec<_> = row.items("records").iter().map(|name| parts_for(row, name)).collect();
    let builder = builder_of(row, &parts)?;
    let (built, mut into) = (builder.build(), b"before".to_vec());
    assert_eq!(builder.build_into(&mut into), built.clone().map(|_| ()));
    assert_eq!(into, [&b"before"[..], built.as_deref().unwrap_or(b"")].concat());
    let records = row.items("records").iter().zip(&parts).map(|(name, parts)| record_for(row, name, parts)).collect::<Result<Vec<_>, _>>()?;
    let mut buffer = vec![0xBB; 1 << 17];
    assert_eq!(encode(&records, row.form()?, &mut buffer), built.as_ref().map(Vec::len).map_err(|error| *error));
    let bytes = built.map_err(unwritten)?;
    assert_eq!(buffer[..bytes.len()], bytes);
    Ok(format!(r#"{{"bytes":{}}}"#, hex(bytes)))
}

fn printed(row: &Row<'_>) -> Answer {
    let parts: Vec<_> = row.items("records").iter().map(|name| parts_for(row, name)).collect();
    let line = match row.has("records") {
        true => builder_of(row, &parts).map_err(|_| not("format"))?.build().unwrap_err().to_string(),
        false => check(&row.bytes("bytes"), &Limits::new()).unwrap_err().to_string(),
    };
    Ok(format!(r#"{{"line":{}}}"#, quoted(&line)))
}

fn parts(row: &Row<'_>) -> Answer {
    let given: Vec<_> = row.items("records").iter().map(|name| parts_for(row, name)).collect();
    let (builder, mut shown) = (builder_of(row, &given)?, Vec::new());
    let (mut encoder, mut buffer) = (builder.encoder(), vec![0; row.number("size") as usize]);
    loop {
        let count = encoder.fill(&mut buffer).map_err(unwritten)?;
        if count == 0 {
            return Ok(format!(r#"{{"parts":{}}}"#, list(shown)));
        }
        shown.push(hex(&buffer[..count]));
        buffer.fill(0xAA);
    }
}

fn record_parts(row: &Row<'_>) -> Answer {
    let parts = parts_for(row, "record");
    let record = record_for(row, "record", &parts)?;
    let write = || {
        let mut writer = RecordWriter::begin(Vec::new(), record, row.number("length"), Position::Only, Form::default())?;
        row.items("parts").iter().try_for_each(|part| writer.write_all(&row.bytes(part)))?;
        writer.finish()
    };
    let bytes: Vec<u8> = write().map_err(|_: io::Error| bad())?;
    Ok(format!(r#"{{"bytes":{}}}"#, hex(bytes)))
}

fn normalize(row: &Row<'_>) -> Answer {
    let bytes = row.bytes("bytes");
    Ok(format!(r#"{{"bytes":{}}}"#, hex(parsed(row, &bytes)?.to_canonical())))
}

fn encoding_of(row: &Row<'_>, name: &str) -> Encoding {
    if row.has(name) { Encoding::Utf16 } else { Encoding::Utf8 }
}

fn made_poster(row: &Row<'_>) -> Result<Result<SmartPoster<'static>, EncodeError>, String> {
    let mut poster = SmartPoster::builder(&row.text("value.uri")?);
    for title in row.items("value.titles") {
        let (language, text) = (row.text(&format!("{title}.0"))?, row.text(&format!("{title}.1"))?);
        poster = match encoding_of(row, &format!("{title}.2")) {
            Encoding::Utf8 => poster.title(&language, &text),
            Encoding::Utf16 => poster.record(Text::with_encoding(&language, &text, Encoding::Utf16).map_err(|_| which())?),
        };
    }
    if row.has("value.action") {
        poster = poster.action(u8::try_from(row.number("value.action")).map_err(|_| which())?.into());
    }
    if row.has("value.size") {
        poster = poster.size(row.number("value.size"));
    }
    if row.has("value.media") {
        poster = poster.media_type(row.bytes("value.media"));
    }
    for icon in row.items("value.icons") {
        poster = poster.icon(row.bytes(&format!("{icon}.0")), row.bytes(&format!("{icon}.1")));
    }
    Ok(poster.build())
}

fn which() -> String {
    r#"{"bad":"-which"}"#.into()
}

/// Adds the carriers to a builder of a request or a select.
fn with_carriers<B>(row: &Row<'_>, mut builder: B, add: impl Fn(B, PowerState, &[u8], &[&[u8]]) -> B) -> Result<B, String> {
    for carrier in row.items("value.carriers") {
        let power = u8::try_from(row.number(&format!("{carrier}.0"))).unwrap_or(9).try_into().map_err(|_| which())?;
        let others: Vec<Vec<u8>> = row.items(&format!("{carrier}.2")).iter().map(|name| row.bytes(name)).collect();
        let others: Vec<&[u8]> = others.iter().map(|name| &name[..]).collect();
        builder = add(builder, power, &row.bytes(&format!("{carrier}.1")), &others);
    }
    Ok(builder)
}

fn made(row: &Row<'_>) -> Result<Vec<u8>, String> {
    let number = |name: &str| u8::try_from(row.number(name)).map_err(|_| which());
    if row.has("value.version") && row.number("value.version.0") != 1 {
        return Err(which());
    }
    let payload: Result<Vec<u8>, EncodeError> = match row.word("value.kind") {
        "text" => {
            let (language, text) = (row.text("value.language")?, row.text("value.text")?);
            Text::with_encoding(&language, &text, encoding_of(row, "value.utf16")).map(|made| made.payload().into())
        }
        "uri" => Uri::new(&row.text("value.uri")?).map(|made| made.payload().into()),
        "poster" => made_poster(row)?.map(|made| made.payload().into()),
        "carrier" => HandoverCarrier::new(number("value.format")?, &row.bytes("value.type"), &row.bytes("value.data")).map(|made| made.payload().into()),
        "request" => {
            let collision = u16::try_from(row.number("value.collision")).map_err(|_| which())?;
            let builder = HandoverRequest::builder(number("value.version.1")?, collision);
            with_carriers(row, builder, |builder, power, first, others| builder.alternative(power, first, others))?.build().map(|made| made.payload().into())
        }
        _ => {
            let builder = HandoverSelect::builder(number("value.version.1")?);
            let mut builder = with_carriers(row, builder, |builder, power, first, others| builder.alternative(power, first, others))?;
            if row.has("value.error") {
                let (reason, data) = (number("value.error.0")?, row.bytes("value.error.1"));
                builder = match row.has("value.error.2") {
                    true if row.word("id").len() % 2 == 0 => builder.error(reason, row.number("value.error.2")),
                    _ => builder.error_data(reason, &data),
                };
            }
            builder.build().map(|made| made.payload().into())
        }
    };
    payload.map_err(|_| which())
}

fn make(row: &Row<'_>) -> Answer {
    let kinds = [("text", "T"), ("uri", "U"), ("poster", "Sp"), ("request", "Hr"), ("select", "Hs"), ("carrier", "Hc")];
    let payload = made(row)?;
    let (_, kind) = kinds.iter().find(|(name, _)| *name == row.word("value.kind")).unwrap();
    let value = value_in(kind.as_bytes(), &payload, Profile::Strict)?;
    Ok(format!(r#"{{"payload":{},"value":{value}}}"#, hex(payload)))
}

fn answer(line: &str) -> String {
    let row = Row::of(line);
    let operation = match row.word("op") {
        "check" => check_,
        "decode" | "decode_all" => decode,
        "feed" => feed,
        "stream" => stream,
        "fields" => fields,
        "refusal" => refusal,
        "warnings" => warnings,
        "links" => links,
        "value_of" => value,
        "within" => within,
        "reason" => reason,
        "title" => title,
        "encode" => encode_,
        "line" => printed,
        "parts" => parts,
        "record_parts" => record_parts,
        "normalize" => normalize,
        "make" => make,
        _ => |_: &Row<'_>| Err(not("layout")),
    };
    let answer = std::panic::catch_unwind(|| operation(&row).unwrap_or_else(|answer| answer));
    format!(r#"{{"id":"{}","answer":{}}}"#, row.word("id"), answer.unwrap_or_else(|_| failed("an assertion fails")))
}

fn main() {
    let table = std::fs::read_to_string(std::env::args().nth(1).unwrap()).unwrap();
    let rows: Vec<&str> = table.lines().collect();
    let mut answers: Vec<String> = rows.iter().map(|row| answer(row)).collect();
    let again = |turn: usize| {
        let order = (0..rows.len()).rev().map(|index| (index + turn * rows.len() / 4) % rows.len());
        order.filter(|at| answer(rows[*at]) != answers[*at]).collect::<Vec<usize>>()
    };
    let others: Vec<usize> = std::thread::scope(|scope| {
        let threads: Vec<_> = (0..4).map(|turn| scope.spawn(move || again(turn))).collect();
        threads.into_iter().flat_map(|thread| thread.join().unwrap()).collect()
    });
    for at in others {
        answers[at] = format!(r#"{{"id":"{}","answer":{}}}"#, Row::of(rows[at]).word("id"), failed("another answer in threads"));
    }
    println!("{{\"language\":\"Rust\",\"not\":{}}}\n{}", NOT.replace('\n', ""), answers.join("\n"));
}
