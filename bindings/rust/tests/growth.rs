//! How the time of each walk grows with the records: ten times as many take some ten times as long. Prints microseconds for
//! 100, 1000 and 10000 of them (`cargo test --release --test growth -- --ignored --nocapture`). Without memory the links of a
//! handover are left out of that: each carrier is looked for among the records.
#![cfg(feature = "std")]

use simbegyor_ndef::{
    read_message, Fields, HandoverSelect, Limits, Message, MessageBuilder, NewRecord, Part, PowerState, Profile,
    SmartPoster, Text,
};
use std::fs;
use std::hint::black_box;
use std::io::{self, BufRead, Read};
use std::num::NonZeroU16;
use std::sync::OnceLock;
use std::time::Instant;

fn many() -> Limits {
    Limits::new().with_records(NonZeroU16::MAX).with_chunks(NonZeroU16::MAX)
}

/// The microseconds that this thread has had of the processor; where the system doesn't say so, those that have passed.
fn now() -> f64 {
    static START: OnceLock<Instant> = OnceLock::new();
    let schedstat = fs::read_to_string("/proc/thread-self/schedstat").ok();
    let taken = schedstat.and_then(|text| text.split(' ').next()?.parse::<f64>().ok());
    taken.map_or_else(|| START.get_or_init(Instant::now).elapsed().as_secs_f64() * 1e6, |nanoseconds| nanoseconds / 1e3)
}

/// The microseconds of a walk, which is made again and again for 30 milliseconds, since the system counts in ticks.
fn time_of(walk: &mut dyn FnMut()) -> f64 {
    let before = now();
    let mut rounds = 0.0;
    loop {
        walk();
        rounds += 1.0;
        let taken = now() - before;
        if taken > 30e3 {
            return taken / rounds;
        }
    }
}

/// Prints the times of a walk over what is made for each count, and stops where the growth is steep.
fn row<T>(name: &str, is_linear: bool, make: impl Fn(usize) -> T, walk: impl Fn(&T)) {
    let mut times: Vec<f64> = Vec::new();
    for count in [100, 1000, 10000] {
        let made = make(count);
        times.push(time_of(&mut || walk(&made)));
        if let [.., before, now] = times[..] {
            assert!(!is_linear || now < 35.0 * before + 300.0, "{name}: {times:?}");
        }
    }
    println!("Rust | {name} | {:.1} | {:.1} | {:.1}", times[0], times[1], times[2]);
}

fn texts(count: usize) -> Vec<u8> {
    let text = Text::new("en", "Hello").unwrap();
    (0..count).map(|_| NewRecord::from(text.clone())).collect::<MessageBuilder<'_>>().build().unwrap()
}

/// A record in this many chunks.
fn chunks(count: usize) -> Vec<u8> {
    let mut bytes = b"\xB2\x03\x02a/bxx".to_vec();
    (2..count).for_each(|_| bytes.extend(b"\x36\0\x02xx"));
    bytes.extend(b"\x56\0\x02xx");
    bytes
}

fn poster(count: usize) -> SmartPoster<'static> {
    let made = (0..count).fold(SmartPoster::builder("http://www.example.com"), |made, _| made.title("en", "Hello"));
    (0..count).fold(made, |made, _| made.icon("image/png", b"x")).build().unwrap()
}

/// A select with this many carriers, and the records to which they refer.
fn handover(count: usize) -> Vec<u8> {
    let ids: Vec<String> = (0..count).map(|number| number.to_string()).collect();
    let select = ids
        .iter()
        .fold(HandoverSelect::builder(2), |select, id| select.alternative(PowerState::Active, id.as_bytes(), &[]));
    let mut message = MessageBuilder::new().record(select.build().unwrap());
    message.extend(ids.iter().map(|id| NewRecord::media("a/b", b"x").with_id(id.as_bytes())));
    message.build().unwrap()
}

/// A select whose one carrier has so many references.
fn references(count: usize) -> HandoverSelect<'static> {
    let none: &[u8] = b"";
    HandoverSelect::builder(2).alternative(PowerState::Active, b"", &vec![none; count]).build().unwrap()
}

/// A reader that shows one byte at a time.
struct Dripping<'a>(&'a [u8]);

impl Read for Dripping<'_> {
    fn read(&mut self, _: &mut [u8]) -> io::Result<usize> {
        unreachable!()
    }
}

impl BufRead for Dripping<'_> {
    fn fill_buf(&mut self) -> io::Result<&[u8]> {
        Ok(&self.0[..self.0.len().min(1)])
    }

    fn consume(&mut self, count: usize) {
        self.0 = &self.0[count..];
    }
}

#[test]
#[ignore = "it measures time"]
fn of_messages() {
    row("records", true, texts, |bytes| {
        black_box(
            Message::parse_within(bytes, &many()).unwrap().records().map(|record| record.kind().len()).sum::<usize>(),
        );
    });
    row("a record by its id", true, texts, |bytes| {
        black_box(Message::parse_within(bytes, &many()).unwrap().record_with_id(b"none"));
    });
    row("a message byte by byte", true, texts, |bytes| {
        black_box(read_message(&mut Dripping(bytes), &many()).unwrap());
    });
    row("chunks of a record", true, chunks, |bytes| {
        let message = Message::parse_within(bytes, &many()).unwrap();
        let record = message.records().next().unwrap();
        black_box((record.payload_cow().len(), record.chunks().map(<[u8]>::len).sum::<usize>()));
        let mut buffer = vec![Part::default(); record.chunk_count()];
        black_box(record.chunks_in(&mut buffer).unwrap().count());
    });
}

#[test]
#[ignore = "it measures time"]
fn of_fields() {
    row("fields", true, texts, |bytes| {
        black_box(Fields::of(bytes, &many()).map(|field| field.bytes.len()).sum::<usize>());
    });
    row("fields by place", true, texts, |bytes| {
        let fields = Fields::of(bytes, &many());
        black_box((0..bytes.len()).filter(|place| fields.at(*place).is_some()).count());
    });
}

#[test]
#[ignore = "it measures time"]
fn of_payloads() {
    row("titles of a poster", true, poster, |poster| {
        black_box((poster.titles().count(), poster.title("fr").is_some()));
    });
    row("icons of a poster", true, poster, |poster| {
        black_box(poster.icons().map(|icon| icon.data.len()).sum::<usize>());
    });
    row("carriers of a handover", true, handover, |bytes| {
        let message = Message::parse_within(bytes, &many()).unwrap();
        let select =
            HandoverSelect::parse(message.records().next().unwrap().payload().unwrap(), Profile::Strict).unwrap();
        black_box(select.alternatives().map(|carrier| carrier.reference().len()).sum::<usize>());
    });
    row(
        "references of a carrier (up to 250)",
        true,
        |count| references(count / 40),
        |select| {
            let carrier = select.alternatives().next().unwrap();
            black_box(carrier.auxiliaries().map(<[u8]>::len).sum::<usize>());
        },
    );
    row("links of a handover", true, handover, |bytes| {
        let message = Message::parse_within(bytes, &many()).unwrap();
        black_box(message.links().unwrap().filter(|link| link.record.is_some()).count());
    });
}

#[test]
#[ignore = "it measures time"]
fn of_links_without_memory() {
    row("links_in of a handover (carriers times records)", false, handover, |bytes| {
        let message = Message::parse_within(bytes, &many()).unwrap();
        black_box(message.links_in(&mut []).unwrap().filter(|link| link.record.is_some()).count());
    });
}
