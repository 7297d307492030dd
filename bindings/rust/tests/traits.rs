//! The traits that a program in Rust expects of the types of the crate.
#![cfg(feature = "std")]

use simbegyor_ndef::*;
use std::collections::{BTreeSet, HashSet};
use std::error::Error;
use std::fmt::{Debug, Display};
use std::hash::Hash;
use std::iter::FusedIterator;
use std::panic::{RefUnwindSafe, UnwindSafe};

/// Says of each type that it has the traits, and answers the names.
macro_rules! have {
    ($($name:ident)*: $($bound:tt)*) => {{
        fn has<T: $($bound)*>() {}
        $(has::<$name>();)*
        [$(stringify!($name)),*]
    }};
}

/// The one that writes to a vector.
type RecordWriter = simbegyor_ndef::RecordWriter<'static, Vec<u8>>;

/// Each public type, by what it may do.
#[test]
fn each_type_may_go_to_another_thread() {
    let implementing = have! {
        Action AlternativeCarrier Alternatives Auxiliaries Bytes Checked Checker Chunks DecodeError EncodeError Encoding
        Field FieldName FieldPart Fields Form FoundHint HandoverCarrier HandoverError HandoverRequest HandoverRequestBuilder
        HandoverSelect HandoverSelectBuilder HintKind Icon Icons Limits Link Links Message MessageBuilder MessageEncoder NewRecord NumberError OwnedMessage
        Part Payload PayloadKind Payloads Position PowerState Profile ReadError Reason Record RecordWriter Records Refusal SmartPoster
        SmartPosterBuilder Text Titles Tnf Uri: Send + Sync + Unpin + Debug
    };
    let exported = include_str!("../src/lib.rs").lines().filter_map(|line| line.strip_prefix("pub use "));
    assert!(exported.clone().all(|line| line.ends_with(';')));
    let words = exported.flat_map(|line| line.split(|letter: char| !letter.is_ascii_alphanumeric() && letter != '_'));
    let types = words.filter(|word| word.starts_with(|letter: char| letter.is_ascii_uppercase()));
    // It is exported as FieldPart.
    let implementing = implementing.into_iter().filter(|name| *name != "FieldPart").collect::<BTreeSet<_>>();
    assert_eq!(types.filter(|name| *name != "FieldPart").collect::<BTreeSet<_>>(), implementing);
}

#[test]
fn values_are_copied_compared_and_hashed() {
    have! {
        Action AlternativeCarrier Bytes Checked DecodeError EncodeError Encoding Field FieldName FieldPart Form FoundHint
        HandoverCarrier HandoverError HandoverRequest HandoverSelect HintKind Icon Limits Link Message NewRecord NumberError OwnedMessage
        Part Payload PayloadKind Payloads Position PowerState Profile Reason Record Refusal SmartPoster Text Tnf
        Uri: Clone + Eq + Hash + UnwindSafe + RefUnwindSafe
    };
    have! {
        Action Checked DecodeError EncodeError Encoding Field FieldName FieldPart Form FoundHint HintKind Limits Message NumberError Part
        PayloadKind Payloads Position PowerState Profile Reason Record Refusal Tnf: Copy
    };
    have! { Checker HandoverRequestBuilder HandoverSelectBuilder MessageBuilder MessageEncoder SmartPosterBuilder: Clone };
    have! { Encoding FieldPart Form Limits MessageBuilder Part Payloads Profile Bytes: Default };
    have! { DecodeError EncodeError NumberError ReadError Reason Refusal: Error + 'static };
    have! { DecodeError EncodeError NumberError ReadError Reason Refusal: Into<std::io::Error> };
    have! { FieldName FoundHint PowerState Reason Refusal Text Tnf Uri: Display };
    have! { Alternatives Auxiliaries Chunks Fields Icons Links Records Titles: FusedIterator + Clone };
}

#[test]
fn numbers_become_values() {
    for number in 0..=255u8 {
        match Tnf::try_from(number) {
            Ok(tnf) => assert_eq!((u8::from(tnf), tnf.number(), number < 6), (number, number.into(), true)),
            Err(error) => assert_eq!((error.number, error.most, number > 5), (number, 5, true)),
        }
        match PowerState::try_from(number) {
            Ok(power) => assert_eq!((u8::from(power), power.number(), number < 4), (number, number.into(), true)),
            Err(error) => assert_eq!((error.number, error.most, number > 3), (number, 3, true)),
        }
        assert_eq!((u8::from(Action::from(number)), Action::from(number).number()), (number, number));
    }
    assert_eq!([0, 1, 2, 3].map(Action::from), [Action::Do, Action::Save, Action::Open, Action::Other(3)]);
    assert_eq!(Tnf::try_from(7).unwrap_err().to_string(), "the number is 7, and has to be at most 5");
    // NDEF 1.0, table 1, and Connection Handover 1.2, carrier power state.
    let names = Tnf::ALL.iter().map(Tnf::to_string).collect::<Vec<_>>().join(", ");
    assert_eq!(names, "empty, well-known, media, absolute URI, external, unknown");
    let states = PowerState::ALL.iter().map(PowerState::to_string).collect::<Vec<_>>().join(", ");
    assert_eq!(
        (states.as_str(), format!("{:>6}|", Tnf::Media)),
        ("inactive, active, activating, unknown", " media|".into())
    );
}

/// What bytes are made of, all of the same.
fn same<'a>() -> [Bytes<'a>; 9] {
    let (text, octets) = ("ab", b"ab");
    [
        octets.into(),
        octets[..].into(),
        text.into(),
        octets.to_vec().into(),
        text.to_string().into(),
        std::borrow::Cow::Borrowed(&octets[..]).into(),
        std::borrow::Cow::<[u8]>::Owned(octets.to_vec()).into(),
        std::borrow::Cow::Borrowed(text).into(),
        std::borrow::Cow::<str>::Owned(text.to_string()).into(),
    ]
}

#[test]
fn bytes_are_borrowed_or_owned() {
    let (text, octets) = ("ab".to_string(), b"ab".to_vec());
    let all = same().into_iter().chain([Bytes::from(&text), Bytes::from(&octets)]).collect::<Vec<_>>();
    assert_eq!(all.iter().cloned().collect::<HashSet<_>>(), HashSet::from([Bytes::from("ab")]));
    let owned = all.iter().map(|bytes| matches!(bytes, Bytes::Owned(_))).collect::<Vec<_>>();
    let wanted = [false, false, false, true, true, false, true, false, true, false, false];
    assert_eq!(owned, wanted);
    assert!(all.into_iter().all(|bytes| matches!(bytes.into_owned(), Bytes::Owned(bytes) if bytes == b"ab")));
    assert_eq!((Bytes::default().as_ref(), Bytes::from("a\0") == Bytes::from("a")), (&b""[..], false));
    assert_eq!(format!("{:?}", Bytes::from(b"a\"\0")), r#"b"a\"\x00""#);
}

/// A record whose parts are made here goes where it is written.
fn made(number: u32) -> NewRecord<'static> {
    NewRecord::external(format!("example.com:{number}"), number.to_be_bytes().to_vec()).with_id(number.to_string())
}

#[test]
fn records_own_what_they_are_given() {
    let bytes = (0..3).map(made).collect::<MessageBuilder<'_>>().build().unwrap();
    let message = Message::parse(&bytes).unwrap();
    assert_eq!((message.record_count(), message.as_ref()), (3, &bytes[..]));
    let record = message.record_with_id(b"2").unwrap();
    assert_eq!(
        (record.tnf(), record.kind(), record.payload()),
        (Tnf::External, &b"example.com:2"[..], Some(&[0, 0, 0, 2][..]))
    );
    let new = NewRecord::from(record).into_owned();
    assert_eq!(
        (new.tnf(), new.kind(), new.id(), new.payload()),
        (Tnf::External, &b"example.com:2"[..], &b"2"[..], &[0, 0, 0, 2][..])
    );
    assert_eq!((new == made(2), new == made(1), new == made(2).with_id("")), (true, false, false));
    let debug = r#"NewRecord { tnf: External, kind: b"example.com:2", id: b"2", payload: b"\x00\x00\x00\x02" }"#;
    assert_eq!(format!("{new:?}"), debug);
    let poster = SmartPoster::builder("tel:1").media_type("a/b".to_string()).icon("image/png".to_string(), vec![1, 2]);
    let poster = poster.build().unwrap();
    assert_eq!((poster.media_type(), poster.icons().next().unwrap().data), (Some("a/b"), &[1, 2][..]));
}

/// What `{:?}` says names each part, and the records within a payload with it.
#[test]
fn payloads_of_records_are_debugged() {
    // RTD Smart Poster 1.0 and Connection Handover 1.2: a poster of one URI, and a select with one carrier.
    let poster = Message::parse(b"\xD1\x02\x06Sp\xD1\x01\x02U\x00a").unwrap();
    let select = b"\x91\x02\x0AHs\x12\xD1\x02\x04ac\x01\x010\x00\x5A\x03\x01\x01a/b0x";
    let select = Message::parse(select).unwrap();
    let text = format!("{:?}", poster.records().next().unwrap().decode().unwrap());
    assert!(text.starts_with("SmartPoster(SmartPoster { uri: Uri {") && text.contains("records: [Record"), "{text}");
    let text = format!("{:?}", select.records().next().unwrap().decode().unwrap());
    assert!(
        text.starts_with("HandoverSelect(HandoverSelect { version: (1, 2)") && text.contains("records: [Record"),
        "{text}"
    );
    let links = select.links().unwrap();
    assert_eq!(format!("{links:?}").matches("Link {").count(), links.count());
}

#[test]
fn messages_are_walked_by_value_and_limits_have_a_default() {
    let message = Message::parse(b"\x91\x01\x01T\x00\x51\x01\x01T\x00").unwrap();
    let mut count = 0;
    for record in message {
        assert_eq!(record.kind(), b"T");
        count += 1;
    }
    assert_eq!((count, Limits::default()), (2, Limits::new()));
}

/// A refusal has no further source, and what a reader says is the source of its error.
#[test]
fn errors_have_their_sources() {
    let refused = read_message(&mut &b"\xFF"[..], &Limits::new()).unwrap_err();
    assert!(matches!(refused, ReadError::Refused(_)) && refused.source().is_none());
    let reading = ReadError::from(std::io::Error::other("gone"));
    assert!(matches!(reading, ReadError::Io(_)) && reading.to_string() == "gone");
}

/// `?` in a function of `io::Result`.
#[test]
fn errors_become_those_of_io() {
    fn read(bytes: &[u8]) -> std::io::Result<usize> {
        let message = Message::parse(bytes)?;
        let record = message.records().next().unwrap();
        Ok(record.decode_in(&mut [0; 2]).map(|_| message.record_count())?)
    }
    let error = read(b"\xD7\0\0").unwrap_err();
    assert_eq!((error.kind(), error.downcast::<Refusal>().unwrap().at), (std::io::ErrorKind::InvalidData, 0));
    let chunked = b"\xB2\x03\x01a/bx\x56\0\x02yz";
    let error = read(chunked).unwrap_err();
    assert_eq!(error.downcast::<DecodeError>().unwrap(), DecodeError::BufferTooSmall(3));
    let error = std::io::Error::from(ReadError::Io(std::io::ErrorKind::BrokenPipe.into()));
    assert_eq!(error.kind(), std::io::ErrorKind::BrokenPipe);
}

#[test]
fn an_owned_message_is_its_message() {
    let bytes = b"\xD0\0\0 and more".to_vec();
    let message = OwnedMessage::parse(bytes.clone(), &Limits::new().with_profile(Profile::Standard)).unwrap();
    let view = message.view();
    assert_eq!((view.as_bytes(), view.rest(), view.record_count()), (&bytes[..3], &bytes[3..], 1));
    assert_eq!((view.profile(), message.clone() == message), (Profile::Standard, true));
    assert_eq!(message, OwnedMessage::parse(b"\xD0\0\0".to_vec(), &Limits::new()).unwrap());
    assert_eq!(message.into_bytes(), bytes);
    assert!(OwnedMessage::parse(b"\xD1\x01\0".to_vec(), &Limits::new()).is_err());
}
