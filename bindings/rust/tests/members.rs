//! What the crate has of its own: the sizes of iterators, comparing, printing, owning, errors, and the limits and profile that
//! each call hands on.
#![cfg(feature = "std")]

use simbegyor_ndef::*;
use std::error::Error;
use std::hash::{BuildHasher, RandomState};
use std::io;
use std::num::NonZeroU32;

/// Whether an iterator says at each step how many follow, and stays at its end.
fn exact<I: ExactSizeIterator>(mut walk: I, total: usize) {
    for left in (0..=total).rev() {
        assert_eq!((walk.len(), walk.size_hint()), (left, (left, Some(left))));
        assert_eq!(walk.next().is_some(), left > 0);
    }
    assert!(walk.next().is_none());
}

fn equal<T: PartialEq + std::hash::Hash + std::fmt::Debug>(one: &T, other: &T, is_equal: bool) {
    let state = RandomState::new();
    assert_eq!(one == other, is_equal, "{one:?} {other:?}");
    assert!(!is_equal || state.hash_one(one) == state.hash_one(other));
}

fn select(count: usize) -> HandoverSelect<'static> {
    let auxiliaries: Vec<&[u8]> = vec![b"x"; count];
    (0..count)
        .fold(HandoverSelect::builder(2), |made, _| made.alternative(PowerState::Unknown, b"r", &auxiliaries))
        .build()
        .unwrap()
}

#[test]
fn iterators_are_read_from_both_ends() {
    let fields = Fields::of(b"\xD1\x01\x08T\x02enHello", &Limits::new());
    let places = |fields: &mut dyn Iterator<Item = Field<'_>>| fields.map(|field| field.at).collect::<Vec<_>>();
    assert_eq!(places(&mut fields.clone().rev()), [7, 5, 4, 3, 2, 1, 0]);
    let mut ends = fields.clone();
    assert_eq!((ends.next().unwrap().at, ends.next_back().unwrap().at, ends.len()), (0, 7, 5));
    assert_eq!(places(&mut ends), [1, 2, 3, 4, 5]);
    assert_eq!((ends.next_back(), fields.at(11).unwrap().at), (None, 7));
    let select = select(3);
    let carrier = select.alternatives().next().unwrap();
    let mut there: Vec<_> = carrier.auxiliaries().collect();
    there.reverse();
    assert_eq!(carrier.auxiliaries().rev().collect::<Vec<_>>(), there);
}

#[test]
fn iterators_say_how_many_follow() {
    for count in 0..5 {
        let select = select(count);
        exact(select.alternatives(), count);
        select.alternatives().for_each(|carrier| exact(carrier.auxiliaries(), count));
        assert_eq!((select.alternative_count(), select.alternatives().count()), (count, count));
    }
    exact(select(2).records(), 2);
    let chunked = b"\xB2\x03\x01a/bx\x36\0\x01y\x36\0\x01z\x56\0\0";
    let message = Message::parse(chunked).unwrap();
    let record = message.records().next().unwrap();
    exact(record.chunks(), 4);
    exact(record.chunks_in(&mut [Part::default(); 4]).unwrap(), 4);
    assert_eq!(record.chunks().collect::<Vec<_>>(), [&b"x"[..], b"y", b"z", b""]);
    assert_eq!(record.chunks_in(&mut [Part::default(); 3]).err(), Some(DecodeError::BufferTooSmall(4)));
    // Of the chunks the first has five fields, the next two four, and the last, without payload, three.
    exact(Fields::of(chunked, &Limits::new()), 16);
    for count in 1..5 {
        let bytes = (0..count).map(|_| NewRecord::media("a/b", b"x")).collect::<MessageBuilder<'_>>().build().unwrap();
        let message = Message::parse(&bytes).unwrap();
        assert_eq!(message.records().size_hint(), (count, Some(count)));
        assert_eq!((message.records().count(), message.record_count()), (count, count));
    }
}

#[test]
fn values_are_equal_where_their_parts_are() {
    let of = |letters: &str| {
        let records = letters.chars().map(|letter| NewRecord::from(Text::new("en", &letter.to_string()).unwrap()));
        records.collect::<MessageBuilder<'_>>().build().unwrap()
    };
    let same = of("abcdef");
    for place in 0..6 {
        let mut letters = "abcdef".to_string();
        letters.replace_range(place..=place, "x");
        equal(&Message::parse(&same).unwrap(), &Message::parse(&of(&letters)).unwrap(), false);
        equal(&Message::parse(&same).unwrap(), &Message::parse(&of(&letters[..place + 1])).unwrap(), false);
    }
    equal(&Message::parse(&same).unwrap(), &Message::parse(&of("abcdef")).unwrap(), true);
    let chunked = Message::parse(b"\xB2\x03\x01a/bx\x56\0\x01y").unwrap();
    equal(&chunked, &Message::parse(b"\xD2\x03\x02a/bxy").unwrap(), true);
    equal(&Text::new("en", "a").unwrap(), &Text::with_encoding("en", "a", Encoding::Utf16).unwrap(), true);
    equal(&Text::new("en", "a").unwrap(), &Text::new("de", "a").unwrap(), false);
    equal(&Uri::new("http://www.a").unwrap(), &Uri::parse(b"\0http://www.a", Profile::Strict).unwrap(), true);
    equal(&select(3), &select(3), true);
    equal(&select(3), &select(2), false);
}

#[test]
fn owned_values_are_the_same() {
    for format in 0..8 {
        let carrier = HandoverCarrier::new(format, b"a/b", b"data").unwrap();
        let owned = HandoverCarrier::parse(carrier.payload()).unwrap().into_owned();
        assert_eq!((owned.format(), owned.kind(), owned.data()), (format, &b"a/b"[..], &b"data"[..]));
    }
    for power in [PowerState::Inactive, PowerState::Active, PowerState::Activating, PowerState::Unknown] {
        let select = HandoverSelect::builder(7).alternative(power, b"ref", &[b"a", b"bc"]).build().unwrap();
        let owned = HandoverSelect::parse(select.payload(), Profile::Strict).unwrap().into_owned();
        let carrier = owned.alternatives().next().unwrap().into_owned();
        assert_eq!((owned.version(), carrier.power(), carrier.reference()), ((1, 7), power, &b"ref"[..]));
        assert_eq!(carrier.auxiliaries().collect::<Vec<_>>(), [&b"a"[..], b"bc"]);
    }
    for number in [0, 3, 255, 65535] {
        let request = HandoverRequest::builder(3, number).build().unwrap();
        let owned = HandoverRequest::parse(request.payload(), Profile::Strict).unwrap().into_owned();
        assert_eq!((owned.version(), owned.collision()), ((1, 3), number));
    }
    let poster =
        SmartPoster::builder("http://www.a").title("en", "T").action(Action::Other(200)).size(70000).build().unwrap();
    let owned = SmartPoster::parse(poster.payload(), Profile::Strict).unwrap().into_owned();
    assert_eq!(
        (owned.uri().to_uri(), owned.action(), owned.size()),
        ("http://www.a".into(), Some(Action::Other(200)), Some(70000))
    );
    assert_eq!((owned.title("EN").unwrap().text(), owned.title("de"), owned.media_type()), ("T".into(), None, None));
    for text in ["", "Hello", "\u{feff}a", "\u{10ffff}"] {
        for encoding in [Encoding::Utf8, Encoding::Utf16] {
            let made = Text::with_encoding("en", text, encoding).unwrap();
            let read = Text::parse(made.payload()).unwrap();
            assert_eq!((read.text().as_ref(), read.encoding(), read.language()), (text, encoding, "en"));
            assert_eq!(read.as_utf8(), (encoding == Encoding::Utf8).then_some(text));
            assert_eq!((read.clone().into_text().as_ref(), read.into_owned().text().as_ref()), (text, text));
        }
    }
}

#[test]
fn values_print() {
    let (text, uri) = (Text::new("en", "Hello").unwrap(), Uri::new("tel:1").unwrap());
    assert_eq!(
        (format!("{text:>8}|{text:<7}|"), format!("{uri:^9}")),
        ("   Hello|Hello  |".into(), "  tel:1  ".into())
    );
    let name = FieldName::TypeLength;
    assert_eq!((format!("{name:>13}"), Reason::Utf8.to_string()), ("  TYPE_LENGTH".into(), "17 Utf8".into()));
    let message = Message::parse(b"\xBA\x03\x02\x01a/bixy\x36\0\x02zw\x56\0\0").unwrap();
    let debug = r#"[Record { tnf: Media, kind: b"a/b", id: b"i", payload_len: 4, chunk_count: 3, .. }]"#;
    assert_eq!((format!("{message:?}"), format!("{:?}", message.records())), (debug.into(), debug.into()));
}

/// An error that has a refusal as its source.
#[derive(Debug)]
struct Outer;

impl std::fmt::Display for Outer {
    fn fmt(&self, to: &mut std::fmt::Formatter<'_>) -> std::fmt::Result {
        to.write_str("outer")
    }
}

impl Error for Outer {
    fn source(&self) -> Option<&(dyn Error + 'static)> {
        Some(&Refusal { at: 11, reason: Reason::EndOfInput })
    }
}

#[test]
fn errors_print_and_have_a_source() {
    let refusal = Refusal { at: 11, reason: Reason::EndOfInput };
    assert_eq!(
        (refusal.to_string(), refusal.is_incomplete()),
        ("refused at 11: EndOfInput: The input ends within a message.".into(), true)
    );
    assert!(!Refusal { at: 0, reason: Reason::ReservedTnf }.is_incomplete());
    assert_eq!(DecodeError::BufferTooSmall(7).to_string(), "the buffer is too small: 7 are needed");
    assert_eq!(DecodeError::Refused(refusal).to_string(), refusal.to_string());
    let written = [
        (EncodeError::NoRecord, "a message has at least one record"),
        (EncodeError::Record(3), "record 3: BadArgument: type, id or payload"),
        (
            EncodeError::Refused { record: 2, refusal },
            "record 2: refused at 11: EndOfInput: The input ends within a message.",
        ),
        (EncodeError::Text, "a text cannot have this language or length"),
        (EncodeError::Uri, "a URI cannot be so long"),
        (EncodeError::Carrier, "a handover carrier cannot have this format, type or length"),
        (EncodeError::Alternative, "an alternative carrier cannot have these references"),
        (EncodeError::HandoverError, "an error of a handover cannot have these data"),
        (
            EncodeError::Poster(refusal),
            "a smart poster cannot have these records: refused at 11: EndOfInput: The input ends within a message.",
        ),
        (EncodeError::Handover, "a handover cannot have this version or these records"),
        (EncodeError::BufferTooSmall(7), "the buffer is too small: 7 bytes are needed"),
    ];
    written.iter().for_each(|(error, text)| assert_eq!(error.to_string(), *text));
    let error = ReadError::from(io::Error::other(Outer));
    assert_eq!((error.to_string(), error.source().unwrap().to_string()), ("outer".into(), refusal.to_string()));
    assert_eq!(ReadError::from(refusal).to_string(), refusal.to_string());
}

#[test]
fn a_profile_is_handed_on() {
    let limits = Limits::new().with_profile(Profile::Standard);
    // A select whose message has a record of the reserved type name format, and a poster whose URI has a reserved code.
    let bytes = b"\x91\x02\x04Hs\x12\xD7\0\0\x51\x02\x06Sp\xD1\x01\x02U\xFFa";
    assert!(Message::parse(bytes).is_err());
    let message = Message::parse_within(bytes, &limits).unwrap();
    assert_eq!(
        (message.profile(), limits.profile(), limits.payloads()),
        (Profile::Standard, Profile::Standard, Payloads::Typed)
    );
    assert_eq!((message.links().unwrap().count(), message.links_in(&mut []).unwrap().count()), (0, 0));
    for record in &message {
        match (record.decode().unwrap(), record.decode_in(&mut []).unwrap()) {
            (Payload::SmartPoster(poster), Payload::SmartPoster(same)) => {
                assert_eq!((poster.uri().to_uri(), same), ("a".into(), poster.clone()));
                assert_eq!(poster.into_owned().uri().to_uri(), "a");
            }
            (Payload::HandoverSelect(select), Payload::HandoverSelect(same)) => {
                assert_eq!((select.records().next().unwrap().tnf(), same), (Tnf::Unknown, select.clone()));
                assert_eq!(select.into_owned().records().count(), 1);
            }
            payload => panic!("{payload:?}"),
        }
    }
    // A select and a request that hold a URI with a reserved code, which the profile of the record decides.
    for (profile, is_read) in [(Profile::Standard, true), (Profile::Strict, false)] {
        let select = HandoverSelect::parse(b"\x12\xD1\x01\x02U\xFFa", profile).unwrap();
        assert_eq!(select.records().next().unwrap().decode().is_ok(), is_read);
        let request = HandoverRequest::parse(b"\x12\x91\x02\x02cr\x01\x02\x51\x01\x02U\xFFa", profile).unwrap();
        assert_eq!(request.records().nth(1).unwrap().decode().is_ok(), is_read);
    }
    let opaque = limits.with_payloads(Payloads::Opaque);
    assert_eq!(Message::parse_within(b"\xD1\x01\x01U\xFF", &opaque).unwrap().profile(), Profile::Standard);
    assert!(Message::parse_within(b"\xD1\x01\x01T\xFF", &Limits::new().with_payloads(Payloads::Opaque)).is_ok());
}

#[test]
fn builders_append() {
    let mut builder = MessageBuilder::new().record(NewRecord::media("a/b", b"1"));
    builder.extend([NewRecord::media("a/b", b"2"), NewRecord::media("a/b", b"3").with_id(b"i")]);
    builder.push(NewRecord::media("a/b", b"4"));
    let bytes = builder.build().unwrap();
    let message = Message::try_from(&bytes[..]).unwrap();
    assert_eq!(message.records().map(|record| record.payload().unwrap()[0]).collect::<Vec<_>>(), b"1234");
    assert_eq!(message.record_with_id(b"i").unwrap().payload(), Some(&b"3"[..]));
    assert_eq!((message.record_with_id(b""), message.rest()), (None, &b""[..]));
    let mut more = bytes.clone();
    more.extend(b"rest");
    assert_eq!(Message::try_from(&more[..]).unwrap().rest(), b"rest");
    assert_eq!(Message::parse(&more).unwrap().as_bytes(), bytes);
    let mut twice = bytes.clone();
    builder.build_into(&mut twice).unwrap();
    assert_eq!(twice, [&bytes[..], &bytes[..]].concat());
}

/// What a caller does with its bytes afterwards changes nothing that owns its own; a builder takes what it is given by value.
#[test]
fn values_stay_where_their_bytes_go() {
    let mut payload = b"\x02enHello".to_vec();
    let owned = Text::parse(&payload).unwrap().into_owned();
    let record = Text::parse(&payload).unwrap().into_text().into_owned();
    let message = MessageBuilder::new().record(Text::parse(&payload).unwrap()).build().unwrap();
    payload.fill(0);
    assert_eq!((owned.text().as_ref(), record.as_str(), owned.payload()), ("Hello", "Hello", &b"\x02enHello"[..]));
    assert_eq!(message, b"\xD1\x01\x08T\x02enHello");
}

#[test]
fn a_megabyte_is_read_and_written() {
    let text = "a".repeat(1048576 - 3);
    let bytes = MessageBuilder::new()
        .record(Text::new("en", &text).unwrap())
        .record(NewRecord::empty())
        .chunk(NonZeroU32::new(65536).unwrap())
        .build()
        .unwrap();
    let message = Message::parse(&bytes).unwrap();
    let record = message.records().next().unwrap();
    assert_eq!((record.chunk_count(), record.payload_len(), message.record_count()), (16, 1048576, 2));
    let Ok(Payload::Text(read)) = record.decode() else { panic!("{record:?}") };
    assert!(read.text() == text && read.into_text() == text);
    let mut wrong = bytes.clone();
    let last = wrong.len() - 2;
    wrong[last] = 1;
    assert_eq!(check(&wrong, &Limits::new()), Err(Refusal { at: last as u64, reason: Reason::EmptyNotEmpty }));
    let mut checker = Checker::new(&Limits::new());
    let fed: Vec<_> = bytes.chunks(999).map(|part| checker.feed(part).unwrap()).collect();
    assert!(fed[..fed.len() - 1].iter().all(Option::is_none));
    assert_eq!(fed.last().unwrap().map(|checked| checked.length), Some(bytes.len() as u64));
}

#[test]
fn eight_threads_read_and_write() {
    std::thread::scope(|scope| {
        for letter in "abcdefgh".chars() {
            scope.spawn(move || {
                for count in 1..500 {
                    let text = letter.to_string().repeat(count % 20);
                    let bytes = MessageBuilder::new().record(Text::new("en", &text).unwrap()).build().unwrap();
                    let Payload::Text(read) =
                        Message::parse(&bytes).unwrap().records().next().unwrap().decode().unwrap()
                    else {
                        panic!("{bytes:?}")
                    };
                    assert_eq!(read.text(), text);
                }
            });
        }
    });
}

#[test]
fn what_is_debugged_names_its_parts() {
    let carrier = HandoverCarrier::new(2, b"a/b", b"\0").unwrap();
    assert_eq!(format!("{carrier:?}"), r#"HandoverCarrier { format: 2, kind: b"a/b", data: b"\x00" }"#);
    let select = HandoverSelect::builder(2).alternative(PowerState::Active, b"0", &[b"1"]).build().unwrap();
    let debug = r#"[AlternativeCarrier { power: Active, reference: b"0", auxiliaries: [b"1"] }]"#;
    assert_eq!(format!("{:?}", select.alternatives()), debug);
    assert_eq!(format!("{:?}", Text::new("en", "a").unwrap()), r#"Text { payload: b"\x02ena" }"#);
    assert_eq!(format!("{:?}", Uri::new("tel:1").unwrap()), r#"Uri { payload: b"\x051" }"#);
    let record = Message::parse(b"\xB2\x01\x01ax\x56\0\x01y").unwrap().records().next().unwrap();
    assert_eq!(format!("{:?}", record.chunks()), r#"[b"x", b"y"]"#);
    assert_eq!(
        format!("{:?}", Fields::of(b"\xD0", &Limits::new())),
        "[Field { at: 0, bytes: [208], depth: 0, name: Header }]"
    );
    assert!(format!("{:?}", Checker::new(&Limits::new())).starts_with("Checker"));
}

#[test]
fn values_in_buffers_are_those_in_memory() {
    let buffer = &mut [0xA5; 20];
    let text = Text::new_in("de", "Ja", Encoding::Utf16, buffer).unwrap();
    assert_eq!((text.payload(), text.encoding()), (&b"\x82de\xFE\xFF\0J\0a"[..], Encoding::Utf16));
    let buffer = &mut [0xA5; 20];
    let uri = Uri::new_in("https://www.a", buffer).unwrap();
    assert_eq!((uri.payload(), uri.uri_len(), uri.to_uri()), (&b"\x02a"[..], 13, "https://www.a".into()));
    let buffer = &mut [0xA5; 20];
    let carrier = HandoverCarrier::new_in(7, b"a/b", b"data", buffer).unwrap();
    assert_eq!((carrier.payload(), carrier.format(), carrier.data()), (&b"\x07\x03a/bdata"[..], 7, &b"data"[..]));
    let records = [NewRecord::from(text), NewRecord::from(uri).with_id(b"i"), NewRecord::from(carrier)];
    let mut written = [0xA5; 60];
    let count = encode(&records, Form::default(), &mut written).unwrap();
    let message = Message::parse(&written[..count]).unwrap();
    let kinds: Vec<_> = message.records().map(|record| record.payload_kind(PayloadKind::Other)).collect();
    assert_eq!(kinds, [PayloadKind::Text, PayloadKind::Uri, PayloadKind::HandoverCarrier]);
    assert_eq!(message.record_with_id(b"i").unwrap().place(), 13);
}
