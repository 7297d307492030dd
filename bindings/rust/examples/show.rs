//! Prints the messages on standard input, as the command `ndef show` does:
//!
//! ```text
//! show [--payload N] [--records N] [--pieces N] [--profile strict|standard] < INPUT
//! ```
//!
//! The exit status is 0 if the input is valid messages to its end, 1 if it is not, 2 if the words are wrong, and 3 if
//! reading or writing fails.
use simbegyor_ndef::{read_message, Action, Limits, Message, Payload, PowerState, Profile, ReadError, Record};
use std::error::Error;
use std::fmt;
use std::io::{self, BufRead, BufWriter, ErrorKind, Write};
use std::process::ExitCode;

/// Bytes between quotation marks: printable ASCII as it is, any other byte as `\x` and two digits.
struct Quoted<'a>(&'a [u8]);

impl fmt::Display for Quoted<'_> {
    fn fmt(&self, to: &mut fmt::Formatter<'_>) -> fmt::Result {
        to.write_str("\"")?;
        for byte in self.0 {
            match byte {
                b'"' | b'\\' => write!(to, "\\x{byte:02x}")?,
                b' '..=b'~' => write!(to, "{}", char::from(*byte))?,
                _ => write!(to, "\\x{byte:02x}")?,
            }
        }
        to.write_str("\"")
    }
}

/// A value, or `none`.
fn or_none<T: fmt::Display>(value: Option<T>) -> String {
    value.map_or("none".to_string(), |value| value.to_string())
}

fn action_name(action: Action) -> String {
    match action {
        Action::Do => "do".to_string(),
        Action::Save => "save".to_string(),
        Action::Open => "open".to_string(),
        Action::Other(number) => format!("other {number}"),
    }
}

fn power_name(power: PowerState) -> &'static str {
    match power {
        PowerState::Inactive => "inactive",
        PowerState::Active => "active",
        PowerState::Activating => "activating",
        PowerState::Unknown => "unknown",
    }
}

/// What follows the length of the payload in the line of a record.
fn value_of(record: &Record<'_>) -> Result<String, Box<dyn Error>> {
    Ok(match record.decode()? {
        Payload::Text(text) => {
            let encoding = if text.as_utf8().is_some() { "utf-8" } else { "utf-16" };
            let (language, text) = (text.language(), text.text());
            format!("text {encoding} {} {}", Quoted(language.as_bytes()), Quoted(text.as_bytes()))
        }
        Payload::Uri(uri) => format!("uri {}", Quoted(uri.to_uri().as_bytes())),
        Payload::SmartPoster(poster) => format!(
            "poster records {} uri {} titles {} action {} size {} media {}",
            poster.records().count(),
            Quoted(poster.uri().to_uri().as_bytes()),
            poster.titles().count(),
            or_none(poster.action().map(action_name)),
            or_none(poster.size()),
            or_none(poster.media_type().map(|kind| Quoted(kind.as_bytes()))),
        ),
        Payload::HandoverRequest(request) => {
            format!("request version 1.{} carriers {}", request.version().1, request.alternative_count())
        }
        Payload::HandoverSelect(select) => {
            format!("select version 1.{} carriers {}", select.version().1, select.alternative_count())
        }
        Payload::HandoverCarrier(carrier) => {
            format!("carrier format {} type {} data {}", carrier.format(), Quoted(carrier.kind()), carrier.data().len())
        }
        _ => "other".to_string(),
    })
}

/// Prints the lines of the records and of the carriers of a message.
fn show(message: &Message<'_>, out: &mut impl Write) -> Result<(), Box<dyn Error>> {
    for (index, record) in message.records().enumerate() {
        let (tnf, kind, id) = (record.tnf().number(), Quoted(record.kind()), Quoted(record.id()));
        let value = value_of(&record)?;
        writeln!(out, " {} tnf {tnf} type {kind} id {id} payload {} {value}", index + 1, record.payload_len())?;
    }
    for (index, link) in message.links()?.enumerate() {
        let power = power_name(link.alternative.power());
        let reference = Quoted(link.alternative.reference());
        let place = link.record.map(|record| record.place());
        let number = place.map(|place| 1 + message.records().take_while(|record| record.place() < place).count());
        writeln!(out, " carrier {} power {power} reference {reference} record {}", index + 1, or_none(number))?;
    }
    Ok(())
}

/// Prints all messages of the input, and tells whether it is valid to its end.
fn show_all(input: &mut impl BufRead, limits: &Limits, out: &mut impl Write) -> Result<bool, Box<dyn Error>> {
    let (mut at, mut number) = (0, 1);
    loop {
        match read_message(input, limits) {
            Ok(None) => return Ok(true),
            Ok(Some(bytes)) => {
                let message = Message::parse_within(&bytes, limits)?;
                writeln!(out, "message {number} at {at}: records {}, bytes {}", message.record_count(), bytes.len())?;
                show(&message, out)?;
                at += bytes.len() as u64;
                number += 1;
            }
            Err(ReadError::Refused(refusal)) => {
                writeln!(out, "refused at {}: {}", at + refusal.at, refusal.reason)?;
                return Ok(false);
            }
            Err(error) => return Err(error.into()),
        }
    }
}

/// The limits that the words ask for.
fn limits_of(words: impl Iterator<Item = String>) -> Option<Limits> {
    let words: Vec<String> = words.collect();
    let mut limits = Limits::new();
    for pair in words.chunks(2) {
        let [name, value] = pair else { return None };
        limits = match (name.as_str(), value.as_str()) {
            ("--payload", number) => limits.with_payload(number.parse().ok()?),
            ("--records", number) => limits.with_records(number.parse().ok()?),
            ("--pieces", number) => limits.with_chunks(number.parse().ok()?),
            ("--profile", "strict") => limits.with_profile(Profile::Strict),
            ("--profile", "standard") => limits.with_profile(Profile::Standard),
            _ => return None,
        };
    }
    Some(limits)
}

fn main() -> ExitCode {
    let Some(limits) = limits_of(std::env::args().skip(1)) else {
        eprintln!("usage: show [--payload N] [--records N] [--pieces N] [--profile strict|standard] < INPUT");
        return ExitCode::from(2);
    };
    let mut out = BufWriter::new(io::stdout().lock());
    let is_valid = show_all(&mut io::stdin().lock(), &limits, &mut out).and_then(|valid| {
        out.flush()?;
        Ok(valid)
    });
    match is_valid {
        Ok(valid) => ExitCode::from(u8::from(!valid)),
        Err(error) => {
            let is_pipe = error.downcast_ref().is_some_and(|error: &io::Error| error.kind() == ErrorKind::BrokenPipe);
            if !is_pipe {
                eprintln!("show: {error}");
            }
            ExitCode::from(3)
        }
    }
}
