//! Reads a dump of a tag: its texts, its links and its smart posters.
use simbegyor_ndef::{Message, Payload, Refusal};

fn print(dump: &[u8]) -> Result<(), Refusal> {
    let message = Message::parse(dump)?;
    for record in &message {
        match record.decode()? {
            Payload::Text(text) => println!("text in {}: {text}", text.language()),
            Payload::Uri(uri) => println!("link to {uri}"),
            Payload::SmartPoster(poster) => {
                println!("poster of {}", poster.uri());
                poster.titles().for_each(|title| println!("  titled in {}: {title}", title.language()));
            }
            _ => println!("{} bytes of the type {}", record.payload_len(), record.kind().escape_ascii()),
        }
    }
    println!("{} bytes follow the message", message.rest().len());
    Ok(())
}

fn main() -> Result<(), Refusal> {
    let dump = b"\x91\x01\x08T\x02enHello\x11\x01\x0CU\x03example.com\
        \x51\x02\x1CSp\x91\x01\x0CU\x04example.com\x51\x01\x08T\x02deHallo\0\0";
    print(dump)
}
