//! Buffers, what is refused where it is written, and readers that fail.

use simbegyor_ndef::*;
use std::io::{self, BufReader, Read};

#[test]
fn buffers_are_filled_or_said_to_be_too_small() {
    let bytes = b"\xB1\x01\x03T\x82en\x36\x00\x02\xFE\xFF\x56\x00\x02\x00A";
    let record = Message::parse(bytes).unwrap().records().next().unwrap();
    assert_eq!(record.payload_in(&mut [0; 6]), Err(DecodeError::BufferTooSmall(7)));
    assert_eq!(record.chunks_in(&mut [Part::default(); 2]).err(), Some(DecodeError::BufferTooSmall(3)));
    assert_eq!(record.decode_in(&mut [0; 6]).err(), Some(DecodeError::BufferTooSmall(7)));
    let mut parts = [Part::default(); 4];
    assert!(record.chunks_in(&mut parts).unwrap().eq([&b"\x82en"[..], b"\xFE\xFF", b"\x00A"]));
    let (mut joined, mut value) = ([0; 7], [0; 1]);
    let Ok(Payload::Text(text)) = record.decode_in(&mut joined) else { panic!("{record:?}") };
    assert_eq!(text.text_in(&mut []), Err(DecodeError::BufferTooSmall(1)));
    assert_eq!(text.text_in(&mut value), Ok("A"));
    let uri = Uri::parse(b"\x01a", Profile::Strict).unwrap();
    assert_eq!((uri.uri_in(&mut [0; 11]), uri.uri_len()), (Err(DecodeError::BufferTooSmall(12)), 12));
    assert_eq!(uri.uri_in(&mut [0; 20]), Ok("http://www.a"));
    assert_eq!(Text::new_in("en", "Hello", Encoding::Utf8, &mut [0; 7]).err(), Some(EncodeError::BufferTooSmall(8)));
    assert_eq!(Uri::new_in("tel:1", &mut [0; 1]).err(), Some(EncodeError::BufferTooSmall(2)));
    assert_eq!(HandoverCarrier::new_in(1, b"a/b", b"", &mut [0; 4]).err(), Some(EncodeError::BufferTooSmall(5)));
}

#[test]
fn builders_keep_the_first_error() {
    let poster = SmartPoster::builder("a");
    assert_eq!(poster.clone().title("é", "").media_type("t").build(), Err(EncodeError::Text));
    let again = poster.record(Uri::new("b").unwrap()).build();
    assert_eq!(again, Err(EncodeError::Poster(Refusal { at: 9, reason: Reason::UriAgain })));
    let select = HandoverSelect::builder(2);
    assert_eq!(select.clone().error(1, 256).error(4, 0).build(), Err(EncodeError::HandoverError));
    assert_eq!(select.clone().error_data(2, b"1").build(), Err(EncodeError::HandoverError));
    assert_eq!(select.alternative(PowerState::Active, &[0; 256], &[]).build(), Err(EncodeError::Alternative));
    assert_eq!(HandoverSelect::builder(16).build(), Err(EncodeError::Handover));
    assert_eq!(HandoverSelect::builder(2).build().unwrap().records().count(), 0);
    let chunked = NewRecord::new(Tnf::WellKnown, b"ac", b"");
    assert_eq!(HandoverRequest::builder(2, 1).record(chunked).build(), Err(EncodeError::Handover));
}

#[test]
fn links_of_a_wrong_handover_are_refused() {
    let limits = Limits::new().with_payloads(Payloads::Opaque);
    let message = Message::parse_within(b"\xD1\x02\x01Hs\x22", &limits).unwrap();
    let refusal = Refusal { at: 0, reason: Reason::Version };
    assert_eq!(message.links().err(), Some(refusal));
    assert_eq!(message.links_in(&mut []).err(), Some(DecodeError::Refused(refusal)));
    assert_eq!(message.records().next().unwrap().decode(), Err(refusal));
    assert_eq!(Message::parse(b"\xD0\0\0").unwrap().links().unwrap().count(), 0);
}

/// A reader that is interrupted, then shows one byte, and then fails.
struct Failing(u32);

impl Read for Failing {
    fn read(&mut self, buffer: &mut [u8]) -> io::Result<usize> {
        self.0 += 1;
        match self.0 {
            1 => Err(io::ErrorKind::Interrupted.into()),
            2 => {
                buffer[0] = 0xD1;
                Ok(1)
            }
            _ => Err(io::Error::new(io::ErrorKind::BrokenPipe, "it is gone")),
        }
    }
}

#[test]
fn readers_may_fail() {
    let mut reader = BufReader::new(Failing(0));
    let Err(ReadError::Io(error)) = read_message(&mut reader, &Limits::new()) else { panic!("it didn't fail") };
    assert_eq!((error.kind(), error.to_string()), (io::ErrorKind::BrokenPipe, "it is gone".into()));
    let mut input = &b"\xD1\x01"[..];
    let error = read_message(&mut input, &Limits::new()).unwrap_err();
    assert_eq!(
        (error.to_string().as_str(), input),
        ("refused at 2: EndOfInput: The input ends within a message.", &b""[..])
    );
    let mut input = &b"\xD1\x01\x08T\x02e\xFFmore"[..];
    let error = read_message(&mut input, &Limits::new()).unwrap_err();
    assert_eq!(
        (error.to_string().as_str(), input),
        ("refused at 6: Language: The language code of a text has to be ASCII.", &b"\xFFmore"[..])
    );
}
