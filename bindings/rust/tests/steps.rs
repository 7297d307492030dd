//! Messages that are written in steps, and records whose payload is written in parts: they have the bytes that `build` and `encode` write
//! at once, whatever the sizes of the buffers and the parts.
mod suite;

use simbegyor_ndef::*;
use std::io::{self, ErrorKind, Read, Write};
use std::num::NonZeroU32;
use suite::Dice;

/// A record of any type name format.
fn record(dice: &mut Dice) -> NewRecord<'static> {
    use Tnf::*;
    let tnf = dice.one_of(&[Empty, WellKnown, Media, AbsoluteUri, External, Unknown]);
    let kind = if matches!(tnf, Empty | Unknown) { vec![] } else { [b"x".to_vec(), dice.bytes(254)].concat() };
    let most = if dice.below(8) == 0 { 600 } else { 20 };
    match tnf {
        Empty => NewRecord::empty(),
        _ => NewRecord::new(tnf, kind, dice.bytes(most)).with_id(dice.bytes(6)),
    }
}

fn form(dice: &mut Dice) -> Form {
    Form { chunk: NonZeroU32::new(dice.below(30) as u32), long: dice.below(2) == 0, ..Form::default() }
}

/// All that the encoder writes to buffers of such sizes; each but the last is filled.
fn in_steps(mut encoder: MessageEncoder<'_>, mut size: impl FnMut() -> usize) -> Result<Vec<u8>, EncodeError> {
    let mut all = Vec::new();
    loop {
        let mut buffer = vec![0xA5; size()];
        let count = encoder.fill(&mut buffer)?;
        all.extend_from_slice(&buffer[..count]);
        assert!(buffer[count..].iter().all(|byte| *byte == 0xA5));
        if count < buffer.len() {
            assert_eq!((encoder.fill(&mut [0; 9]), encoder.fill(&mut [])), (Ok(0), Ok(0)));
            return Ok(all);
        }
    }
}

/// The record, whose payload is written in parts of random sizes, the first of them as that of the record.
fn in_parts(record: &NewRecord<'_>, position: Position, form: Form, dice: &mut Dice) -> Vec<u8> {
    let (mut payload, length) = (record.payload(), record.payload().len() as u32);
    let mut cut = |left: &mut &[u8]| {
        let (part, rest) = left.split_at(dice.below(left.len() + 1));
        *left = rest;
        part.to_vec()
    };
    let head = NewRecord::new(record.tnf(), record.kind(), cut(&mut payload)).with_id(record.id());
    let mut writer = RecordWriter::begin(Vec::new(), head, length, position, form).unwrap();
    while !payload.is_empty() {
        let part = cut(&mut payload);
        assert_eq!(writer.write(&part).unwrap(), part.len());
    }
    writer.finish().unwrap()
}

/// As many messages as NDEF_RANDOM_MESSAGES says, 100000 where it says nothing.
#[test]
fn random_messages_are_those_that_are_built_at_once() {
    let dice = &mut Dice(0x9E3779B97F4A7C15);
    let count = std::env::var("NDEF_RANDOM_MESSAGES").ok();
    for _ in 0..count.map_or(100_000, |count| count.parse().unwrap()) {
        let records: Vec<NewRecord<'_>> = (0..1 + dice.below(4)).map(|_| record(dice)).collect();
        let form = form(dice);
        let mut buffer = vec![0; 20_000];
        let length = encode(&records, form, &mut buffer).unwrap();
        let most = dice.one_of(&[1, 2, 5, 40, 1000]);
        assert_eq!(in_steps(MessageEncoder::new(&records, form), || 1 + dice.below(most)).unwrap(), buffer[..length]);
        let mut parts = Vec::new();
        for (index, record) in records.iter().enumerate() {
            let position = match (index == 0, index + 1 == records.len()) {
                (true, true) => Position::Only,
                (true, false) => Position::First,
                (false, false) => Position::Middle,
                (false, true) => Position::Last,
            };
            parts.extend(in_parts(record, position, form, dice));
        }
        assert_eq!(parts, buffer[..length]);
    }
}

#[test]
fn a_builder_is_read_by_any_reader() {
    let builder = MessageBuilder::new().record(Text::new("en", "Hello").unwrap()).record(NewRecord::unknown(&[7; 300]));
    let built = builder.build().unwrap();
    let mut read = Vec::new();
    builder.encoder().read_to_end(&mut read).unwrap();
    assert_eq!(read, built);
    let mut encoder = builder.encoder();
    let mut first = [0; 5];
    encoder.read_exact(&mut first).unwrap();
    let mut rest = Vec::new();
    io::copy(&mut encoder.clone(), &mut rest).unwrap();
    assert_eq!([&first[..], &rest].concat(), built);
    rest.clear();
    encoder.read_to_end(&mut rest).unwrap();
    assert_eq!(rest, built[5..]);
}

#[test]
fn what_is_refused_ends_the_steps() {
    let bad = NewRecord::new(Tnf::WellKnown, "T", b"\x42en");
    let first = NewRecord::media("a/b", b"").with_id("i");
    let refusal = Refusal { at: 4, reason: Reason::TextBit };
    let records = [first.clone(), bad.clone()];
    let mut encoder = MessageEncoder::new(&records, Form::default());
    let mut page = [0; 4];
    let mut written = Vec::new();
    for _ in 0..3 {
        assert_eq!(encoder.fill(&mut page), Ok(4));
        written.extend(page);
    }
    let error = EncodeError::Refused { record: 1, refusal };
    assert_eq!(
        (encoder.fill(&mut page), encoder.fill(&mut page), encoder.fill(&mut [])),
        (Err(error), Err(error), Err(error))
    );
    let unchecked = Form { limits: None, ..Form::default() };
    let whole = in_steps(MessageEncoder::new(&records, unchecked), || 3).unwrap();
    assert_eq!(whole[..12], written);
    assert_eq!(whole, MessageBuilder::new().record(first.clone()).record(bad).unchecked().build().unwrap());
    let none = [first.clone(), NewRecord::media("", b"")];
    assert_eq!(in_steps(MessageEncoder::new(&none, unchecked), || 3), Err(EncodeError::Record(1)));
    assert_eq!(in_steps(MessageEncoder::new(&[], unchecked), || 3), Err(EncodeError::NoRecord));
    let limits = Limits::new().with_records(std::num::NonZeroU16::MIN);
    let narrow = Form { limits: Some(limits), ..Form::default() };
    let refusal = Refusal { at: 0, reason: Reason::TooManyRecords };
    let many = [first.clone(), first];
    assert_eq!(in_steps(MessageEncoder::new(&many, narrow), || 3), Err(EncodeError::Refused { record: 0, refusal }));
    let error = MessageBuilder::new().encoder().read(&mut page).unwrap_err();
    assert_eq!(
        (error.kind(), error.downcast::<EncodeError>().unwrap()),
        (ErrorKind::InvalidInput, EncodeError::NoRecord)
    );
}

/// The kind of an error of a writer, and why the record isn't written.
fn why(error: io::Error) -> (ErrorKind, EncodeError) {
    (error.kind(), error.downcast().unwrap())
}

#[test]
fn a_payload_has_the_length_that_was_said() {
    let head = || NewRecord::unknown(b"");
    let begin = |length| RecordWriter::begin(Vec::new(), head(), length, Position::Only, Form::default()).unwrap();
    let wrong = |length| (ErrorKind::InvalidInput, EncodeError::Payload(length));
    assert_eq!(begin(0).finish().unwrap(), b"\xD5\0\0");
    assert_eq!(why(begin(0).write_all(b"a").unwrap_err()), wrong(0));
    assert_eq!(why(begin(3).finish().unwrap_err()), wrong(3));
    let mut few = begin(3);
    few.write_all(b"ab").unwrap();
    assert_eq!(why(few.finish().unwrap_err()), wrong(3));
    let mut many = begin(3);
    many.write_all(b"ab").unwrap();
    assert_eq!(why(many.write(b"cd").unwrap_err()), wrong(3));
    // Nothing of that part was handed on, so another one of the right length can follow.
    many.write_all(b"e").unwrap();
    many.write_all(b"").unwrap();
    many.flush().unwrap();
    assert_eq!(many.finish().unwrap(), b"\xD5\0\x03abe");
    assert_eq!(wrong(3).1.to_string(), "the parts of the payload have not the 3 bytes that were said");
}

#[test]
fn what_no_record_has_is_refused_before_a_byte_is_written() {
    let refused = |head, length| {
        let mut out = Vec::new();
        let error = RecordWriter::begin(&mut out, head, length, Position::Only, Form::default()).unwrap_err();
        assert!(out.is_empty());
        why(error)
    };
    assert_eq!(refused(NewRecord::media("", b""), 3), (ErrorKind::InvalidInput, EncodeError::Record(0)));
    assert_eq!(
        refused(NewRecord::unknown(b"").with_id(&[1; 256]), 3),
        (ErrorKind::InvalidInput, EncodeError::Record(0))
    );
    assert_eq!(refused(NewRecord::empty(), 3), (ErrorKind::InvalidInput, EncodeError::Record(0)));
    assert_eq!(refused(NewRecord::unknown(b"abcd"), 3), (ErrorKind::InvalidInput, EncodeError::Payload(3)));
}

/// A writer that takes this number of bytes and fails then.
#[derive(Debug)]
struct Full(usize);

impl Write for Full {
    fn write(&mut self, bytes: &[u8]) -> io::Result<usize> {
        self.0 = self.0.checked_sub(bytes.len()).ok_or(ErrorKind::StorageFull)?;
        Ok(bytes.len())
    }

    fn flush(&mut self) -> io::Result<()> {
        Err(ErrorKind::TimedOut.into())
    }
}

#[test]
fn errors_of_the_other_writer_are_given() {
    let head = || NewRecord::unknown(b"");
    let begin = |size| RecordWriter::begin(Full(size), head(), 100, Position::Only, Form::default());
    assert_eq!(begin(2).unwrap_err().kind(), ErrorKind::StorageFull);
    let mut writer = begin(50).unwrap();
    assert_eq!(writer.write(&[0; 100]).unwrap_err().kind(), ErrorKind::StorageFull);
    assert_eq!(writer.flush().unwrap_err().kind(), ErrorKind::TimedOut);
}

#[test]
fn large_payloads_are_handed_on_in_steps() {
    let payload: Vec<u8> = (0..70_000_u32).map(|number| number as u8).collect();
    let form = Form { chunk: NonZeroU32::new(1000), ..Form::default() };
    let built =
        MessageBuilder::new().record(NewRecord::unknown(&payload[..])).chunk(form.chunk.unwrap()).build().unwrap();
    let length = payload.len() as u32;
    let mut writer = RecordWriter::begin(Vec::new(), NewRecord::unknown(b""), length, Position::Only, form).unwrap();
    assert_eq!(writer.write(&payload).unwrap(), payload.len());
    assert_eq!(writer.finish().unwrap(), built);
}
