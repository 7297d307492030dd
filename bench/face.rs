//! `face FOLDER MILLISECONDS`: times the crate for Rust and the parser of hand.rs: a check, a message, and the same with the value of each record.

include!("clock.rs");
include!("hand.rs");

use simbegyor_ndef::{check, Limits, Message};

fn read(bytes: &[u8]) -> usize {
    Message::parse(bytes).expect("a message").into_iter().map(|record| record.payload_len() as usize).sum()
}

fn values(bytes: &[u8]) -> usize {
    let message = Message::parse(bytes).expect("a message");
    message.into_iter().filter(|record| std::hint::black_box(record.decode()).is_ok()).count()
}

fn read_by_hand(bytes: &[u8]) -> usize {
    parse(bytes).expect("a message").iter().map(|record| record.payload.len()).sum()
}

fn values_by_hand(bytes: &[u8]) -> usize {
    let value = |record: &HandRecord<'_>| if record.kind == b"T" { record.text() } else { record.uri() };
    parse(bytes).expect("a message").iter().filter(|record| std::hint::black_box(value(record)).is_some()).count()
}

/// A check as another crate calls it: its limits aren't known where it is compiled, and it isn't taken into the loop.
#[inline(never)]
fn checked(bytes: &[u8], limits: &Limits) -> bool {
    check(bytes, limits).is_ok()
}

fn main() {
    let (folder, milliseconds) = words();
    let limits = Limits::new().with_payload(std::num::NonZeroU32::MAX).with_records(std::num::NonZeroU16::MAX);
    let limits = limits.with_chunks(std::num::NonZeroU16::MAX);
    for name in ["hello", "umlauts", "uri", "poster", "records-1000", "opaque-1M", "ascii-1M", "wide-1M", "chunks-4000"] {
        let bytes = message(&folder, name);
        time("check", name, milliseconds, || assert!(checked(std::hint::black_box(&bytes), std::hint::black_box(&limits))));
    }
    for name in ["hello", "uri", "poster", "records-1000", "ascii-1M", "wide-1M"] {
        let bytes = message(&folder, name);
        time("read", name, milliseconds, || assert!(read(std::hint::black_box(&bytes)) > 0));
        time("value", name, milliseconds, || assert!(values(std::hint::black_box(&bytes)) > 0));
        time("hand-read", name, milliseconds, || assert!(read_by_hand(std::hint::black_box(&bytes)) > 0));
        time("hand-value", name, milliseconds, || assert!(values_by_hand(std::hint::black_box(&bytes)) < 2000));
    }
}
