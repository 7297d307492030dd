//! What a program without memory does: it writes a message to a buffer and reads it again.
//!
//! ```text
//! cargo run --no-default-features --example bare
//! ```
use core::num::NonZeroU32;
use simbegyor_ndef::{encode, DecodeError, EncodeError, Encoding, Form, Message, NewRecord, Payload, Text, Uri};

fn write(buffer: &mut [u8]) -> Result<usize, EncodeError> {
    let (mut first, mut second) = ([0; 32], [0; 32]);
    let text = Text::new_in("en", "Hello", Encoding::Utf16, &mut first)?;
    let uri = Uri::new_in("https://example.com", &mut second)?;
    let form = Form { chunk: NonZeroU32::new(7), ..Form::default() };
    encode(&[NewRecord::from(text).with_id(b"a"), uri.into()], form, buffer)
}

fn print(bytes: &[u8]) -> Result<(), DecodeError> {
    let (mut joined, mut value) = ([0; 32], [0; 32]);
    for record in &Message::parse(bytes)? {
        match record.decode_in(&mut joined)? {
            Payload::Text(text) => println!("{}: {}", text.language(), text.text_in(&mut value)?),
            Payload::Uri(uri) => println!("{}", uri.uri_in(&mut value)?),
            _ => println!("{} bytes", record.payload_len()),
        }
    }
    Ok(())
}

fn main() {
    let mut buffer = [0; 128];
    let length = write(&mut buffer).expect("a message of 128 bytes at most");
    print(&buffer[..length]).expect("the message that was written");
}
