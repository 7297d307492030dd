//! Times calls of the crate beside the same by hand: `cargo bench`. Each time is the least of 40 runs.
mod by_hand;

use simbegyor_ndef::*;
use std::hint::black_box;
use std::time::Instant;

/// Prints the nanoseconds of a call, and answers them.
fn time(name: &str, calls: u32, mut call: impl FnMut()) -> f64 {
    let mut run = || {
        let start = Instant::now();
        (0..calls).for_each(|_| call());
        start.elapsed().as_nanos() as f64 / f64::from(calls)
    };
    let least = (0..40).map(|_| run()).fold(f64::MAX, f64::min);
    println!("{name:<60} {least:>12.1} ns");
    least
}

/// Prints the times of the same by the crate and by hand, and how many times as long the crate takes.
fn beside<A, B>(name: &str, calls: u32, mut ours: impl FnMut() -> A, mut by_hand: impl FnMut() -> B) {
    println!("{name}");
    let ours = time("  by the crate", calls, || drop(black_box(ours())));
    let by_hand = time("  by hand", calls, || drop(black_box(by_hand())));
    println!("  the crate / by hand: {:.2}", ours / by_hand);
}

/// The bytes of each text and URI of a message, by the crate.
fn values(bytes: &[u8]) -> usize {
    let value = |record: Record<'_>| match record.decode() {
        Ok(Payload::Text(text)) => text.into_text().into_owned().len(),
        Ok(Payload::Uri(uri)) => uri.to_uri().len(),
        _ => 0,
    };
    Message::parse(bytes).unwrap().records().map(value).sum()
}

/// The same by hand.
fn values_by_hand(bytes: &[u8]) -> usize {
    let value = |record: by_hand::Record<'_>| match record.kind {
        b"T" => record.text().unwrap().into_owned().len(),
        b"U" => record.uri().unwrap().len(),
        _ => 0,
    };
    by_hand::parse(bytes, &by_hand::USUAL).unwrap().map(value).sum()
}

/// A message that is accepted: checked, looked at, and its values read.
fn compare(name: &str, bytes: &[u8], calls: u32) {
    let at = || black_box(bytes);
    beside(&format!("{name}: check"), calls, || check(at(), &Limits::new()), || by_hand::check(at(), &by_hand::USUAL));
    let look = |record: Record<'_>| record.payload_len();
    let look_by_hand = |record: by_hand::Record<'_>| record.payload.len();
    beside(
        &format!("{name}: look at each record"),
        calls,
        || Message::parse(at()).unwrap().records().map(look).sum::<usize>(),
        || by_hand::parse(at(), &by_hand::USUAL).unwrap().map(look_by_hand).sum::<usize>(),
    );
    beside(&format!("{name}: each value"), calls, || values(at()), || values_by_hand(at()));
}

/// A select with this many carriers, and a record for each.
fn handover(carriers: usize) -> Vec<u8> {
    let ids: Vec<String> = (0..carriers).map(|index| index.to_string()).collect();
    let select = ids
        .iter()
        .fold(HandoverSelect::builder(2), |select, id| select.alternative(PowerState::Active, id.as_bytes(), &[]));
    let mut message = MessageBuilder::new().record(select.build().unwrap());
    message.extend(ids.iter().map(|id| NewRecord::media("a/b", b"0123456789").with_id(id.as_bytes())));
    message.build().unwrap()
}

/// The links of a handover, and the record of each.
fn links(carriers: usize) {
    let bytes = handover(carriers);
    let ours =
        || Message::parse(black_box(&bytes)).unwrap().links().unwrap().filter(|link| link.record.is_some()).count();
    let by_hand = || {
        by_hand::check(black_box(&bytes), &by_hand::USUAL).unwrap();
        by_hand::links(&bytes).unwrap().iter().filter(|link| link.1.is_some()).count()
    };
    assert_eq!((ours(), by_hand()), (carriers, carriers));
    beside(&format!("the links of {carriers} carriers"), 1000, ours, by_hand);
}

fn reading() {
    let hello = b"\xD1\x01\x08T\x02enHello";
    compare("the text Hello", hello, 50_000);
    let poster =
        SmartPoster::builder("http://www.example.com").title("en", "Title").action(Action::Do).build().unwrap();
    compare("a poster", &MessageBuilder::new().record(poster).build().unwrap(), 50_000);
    let texts: MessageBuilder<'_> = (0..1000).map(|_| Text::new("en", "Hello, tag").unwrap()).collect();
    compare("1000 texts", &texts.build().unwrap(), 100);
    links(2);
    links(100);
    for (name, refused) in [("cut", &hello[..11]), ("not UTF-8", b"\xD1\x01\x08T\x02enHell\xFF")] {
        let at = || black_box(refused);
        beside(
            &format!("refused, {name}"),
            50_000,
            || check(at(), &Limits::new()),
            || by_hand::check(at(), &by_hand::USUAL),
        );
    }
}

fn writing() {
    println!("writing the text Hello");
    time("  by hand into a Vec", 50_000, || {
        let text = black_box("Hello");
        let mut out = Vec::with_capacity(7 + text.len());
        out.extend_from_slice(&[0xD1, 1, 3 + text.len() as u8, b'T', 2, b'e', b'n']);
        out.extend_from_slice(text.as_bytes());
        black_box(out);
    });
    time("  MessageBuilder", 50_000, || {
        let text = Text::new("en", black_box("Hello")).unwrap();
        black_box(MessageBuilder::new().record(text).build().unwrap());
    });
    let (mut payload, mut buffer) = ([0; 64], [0; 64]);
    time("  encode to a buffer", 50_000, || {
        let text = Text::new_in("en", black_box("Hello"), Encoding::Utf8, &mut payload).unwrap();
        black_box(encode(&[text.into()], Form::default(), &mut buffer).unwrap());
    });
    let payload = vec![7; 1_000_000];
    println!("writing 1000000 bytes");
    time("  a copy", 20, || {
        black_box(payload.clone());
    });
    time("  MessageBuilder of one record", 20, || {
        black_box(MessageBuilder::new().record(NewRecord::unknown(&payload)).build().unwrap());
    });
}

fn main() {
    reading();
    writing();
}
