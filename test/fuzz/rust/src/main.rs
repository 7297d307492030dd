//! `fuzz-rust steps SECONDS` reads all of each message on standard input, which `test/fuzz/messages.c` writes, by the crate, for this number of
//! seconds. It looks whether what is built again is the message, and how many steps each message took.
//!
//! `fuzz-rust life COUNT` decodes COUNT messages, one after the other and again from the first, and looks whether memory grows.
use simbegyor_ndef::{check, Fields, Limits, Message, Payload, Profile, Record, Records};
use std::io::{self, Read};
use std::sync::atomic::{AtomicU64, Ordering};
use std::time::{Duration, Instant};

/// The most steps for each byte of a message and 64 more. The links of a handover are looked for among the records, so their steps are
/// counted apart: the most for each byte and record.
const MOST_STEPS: u64 = 500;
const MOST_LINK_STEPS: u64 = 20;

static STEPS: AtomicU64 = AtomicU64::new(0);

/// What each basic block calls: those of the crate and of this program.
#[no_mangle]
pub extern "C" fn __sanitizer_cov_trace_pc() {
    STEPS.fetch_add(1, Ordering::Relaxed);
}

fn steps() -> u64 {
    STEPS.load(Ordering::Relaxed)
}

/// The next message, or nothing at the end.
fn next_message(from: &mut impl Read) -> io::Result<Option<Vec<u8>>> {
    let mut head = [0; 4];
    match from.read_exact(&mut head) {
        Ok(()) => {}
        Err(error) if error.kind() == io::ErrorKind::UnexpectedEof => return Ok(None),
        Err(error) => return Err(error),
    }
    let mut message = vec![0; u32::from_le_bytes(head) as usize];
    from.read_exact(&mut message)?;
    Ok(Some(message))
}

/// Bytes of all parts of these records.
fn size_of(records: Records<'_>) -> usize {
    records.map(|record| record.payload_cow().len() + record.id().len() + record.chunks().count()).sum()
}

/// Bytes of all parts of a value.
fn size_of_value(record: &Record<'_>) -> usize {
    match record.decode() {
        Ok(Payload::Text(text)) => text.language().len() + text.text().len(),
        Ok(Payload::Uri(uri)) => uri.to_uri().len(),
        Ok(Payload::SmartPoster(poster)) => {
            let titles: usize = poster.titles().map(|title| title.text().len()).sum();
            titles
                + poster.uri().uri_len()
                + poster.icons().count()
                + poster.media_type().map_or(0, str::len)
                + size_of(poster.records())
        }
        Ok(Payload::HandoverRequest(request)) => request.alternatives().count() + size_of(request.records()),
        Ok(Payload::HandoverSelect(select)) => {
            select.alternatives().count() + size_of(select.records()) + usize::from(select.error().is_some())
        }
        Ok(Payload::HandoverCarrier(carrier)) => carrier.payload().len(),
        Ok(_) => 0,
        Err(refusal) => refusal.at as usize,
    }
}

/// Reads the message with which the bytes begin, and builds it again. The answer is the steps that its links took.
fn look_at(bytes: &[u8], profile: Profile) -> u64 {
    let limits = Limits::new().with_profile(profile);
    let checked = check(bytes, &limits);
    let message = Message::parse_within(bytes, &limits);
    assert_eq!(checked.is_ok(), message.is_ok(), "a message is taken where the library takes it");
    let fields = Fields::of(bytes, &limits);
    assert_eq!(fields.refusal().is_some(), message.is_err(), "the fields are refused where the message is");
    let sum: usize = fields.map(|field| field.bytes.len()).sum();
    let Ok(message) = message else { return 0 };
    assert_eq!(sum, message.as_bytes().len(), "each byte stands in a field");
    for record in &message {
        size_of_value(&record);
        assert_eq!(record.payload_cow().len(), record.payload_len());
    }
    assert_eq!(message.records().count(), message.record_count());
    let again = message.to_canonical();
    let wide = Limits::new().with_profile(profile);
    assert_eq!(Message::parse_within(&again, &wide).expect("what is built is a message"), message);
    let before = steps();
    message.links().map(|links| links.count()).ok();
    steps() - before
}

fn fuzz(seconds: u64) -> io::Result<()> {
    let (mut from, end) = (io::stdin().lock(), Instant::now() + Duration::from_secs(seconds));
    let (mut messages, mut greatest, mut greatest_link) = (0_u64, 0, 0);
    while Instant::now() < end {
        let Some(message) = next_message(&mut from)? else { break };
        for profile in [Profile::Strict, Profile::Standard] {
            let before = steps();
            let links = look_at(&message, profile);
            let length = message.len() as u64 + 64;
            let (taken, linked) = ((steps() - before - links) / length, links / length / (length / 3));
            (greatest, greatest_link) = (greatest.max(taken), greatest_link.max(linked));
            assert!(
                taken <= MOST_STEPS && linked <= MOST_LINK_STEPS,
                "{taken} and {linked} steps a byte: {message:02x?}"
            );
        }
        messages += 1;
    }
    assert!(messages > 0 && greatest > 0, "nothing was read or counted");
    println!("{messages} messages, at most {greatest} steps a byte, of links {greatest_link} a byte and record");
    Ok(())
}

/// The memory that the process has, in kB.
fn resident() -> io::Result<u64> {
    let statm = std::fs::read_to_string("/proc/self/statm")?;
    Ok(statm.split(' ').nth(1).and_then(|pages| pages.parse::<u64>().ok()).unwrap_or(0) * 4)
}

/// Bytes of all parts of a message.
fn size_of_message(message: &Message<'_>) -> usize {
    message.records().map(|record| size_of_value(&record) + record.payload_len()).sum()
}

fn live(count: usize) -> io::Result<()> {
    let mut from = io::stdin().lock();
    let mut messages = Vec::new();
    while let Some(message) = next_message(&mut from)? {
        messages.push(message);
    }
    let (mut first, mut before) = (vec![0; messages.len()], 0);
    for done in 0..count {
        let which = done % messages.len();
        let message = Message::parse(&messages[which]);
        let outcome = message.map_or_else(|refusal| refusal.at as usize, |message| size_of_message(&message));
        if done < messages.len() {
            first[which] = outcome;
        }
        assert_eq!(outcome, first[which], "a message is answered in another way than the first time");
        if done == count / 10 {
            before = resident()?;
        }
    }
    let after = resident()?;
    println!("{count} decodes, memory {before} kB after a tenth, {after} kB at the end");
    assert!(after <= before + 512, "the memory grows");
    Ok(())
}

fn main() -> io::Result<()> {
    let words: Vec<String> = std::env::args().collect();
    let number = words.get(2).and_then(|word| word.parse::<u64>().ok());
    match (words.get(1).map(String::as_str), number) {
        (Some("steps"), Some(seconds)) => fuzz(seconds),
        (Some("life"), Some(count)) => live(count as usize),
        _ => Err(io::Error::other("steps SECONDS or life COUNT")),
    }
}
