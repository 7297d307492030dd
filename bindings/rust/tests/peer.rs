//! 20000 inputs read by the crate and by a reader in plain Rust: messages, and messages with one change.
mod by_hand;
mod random;
mod suite;

use by_hand::{Alternative, Rules, Value};
use random::{changed, message_of, outer, Content};
use simbegyor_ndef::{AlternativeCarrier, Encoding, Limits, Message, Payload, Payloads, Profile, Record};
use std::num::{NonZeroU16, NonZeroU32};
use suite::Dice;

fn rules(dice: &mut Dice) -> Rules {
    let one_of_ten = |dice: &mut Dice, usual: usize| if dice.below(10) == 0 { 1 + dice.below(20) } else { usual };
    Rules {
        payload: one_of_ten(dice, 1048576),
        records: one_of_ten(dice, 1024),
        pieces: one_of_ten(dice, 4096),
        standard: dice.below(2) == 0,
        typed: dice.below(4) > 0,
    }
}

fn limits_of(rules: Rules) -> Limits {
    Limits::new()
        .with_payload(NonZeroU32::new(rules.payload as u32).unwrap())
        .with_records(NonZeroU16::new(rules.records as u16).unwrap())
        .with_chunks(NonZeroU16::new(rules.pieces as u16).unwrap())
        .with_profile(if rules.standard { Profile::Standard } else { Profile::Strict })
        .with_payloads(if rules.typed { Payloads::Typed } else { Payloads::Opaque })
}

fn plain_alternative(carrier: &AlternativeCarrier<'_>) -> Alternative {
    let auxiliaries = carrier.auxiliaries().map(<[u8]>::to_vec);
    (carrier.power() as u8, std::iter::once(carrier.reference().to_vec()).chain(auxiliaries).collect())
}

fn plain(payload: &Payload<'_>) -> Value {
    match payload {
        Payload::Text(text) => Value::Text {
            utf16: text.encoding() == Encoding::Utf16,
            language: text.language().into(),
            text: text.text().into(),
        },
        Payload::Uri(uri) => Value::Uri(uri.to_uri()),
        Payload::SmartPoster(poster) => Value::Poster {
            uri: poster.uri().to_uri(),
            titles: poster.titles().map(|title| (title.language().into(), title.text().into())).collect(),
            action: poster.action().map(|action| action.number()),
            size: poster.size(),
            media: poster.media_type().map(String::from),
        },
        Payload::HandoverRequest(request) => Value::Request {
            minor: request.version().1,
            collision: request.collision(),
            alternatives: request.alternatives().map(|carrier| plain_alternative(&carrier)).collect(),
        },
        Payload::HandoverSelect(select) => Value::Select {
            minor: select.version().1,
            error: select.error().map(|error| (error.reason, error.data.into())),
            alternatives: select.alternatives().map(|carrier| plain_alternative(&carrier)).collect(),
        },
        Payload::HandoverCarrier(carrier) => {
            Value::Carrier { format: carrier.format(), kind: carrier.kind().into(), data: carrier.data().into() }
        }
        _ => Value::Other,
    }
}

fn plain_record(record: Record<'_>) -> by_hand::Record {
    by_hand::Record {
        tnf: record.tnf().number() as u8,
        kind: record.kind().into(),
        id: record.id().into(),
        payload: record.payload_cow().into(),
    }
}

/// Compares what both tell of a message.
fn agrees(message: Message<'_>, records: &[by_hand::Record], rules: Rules) {
    // A payload is decoded without limits.
    let rules = Rules { records: 65535, ..rules };
    assert_eq!(message.records().map(plain_record).collect::<Vec<_>>(), records);
    for (record, wanted) in message.records().zip(records) {
        let value = by_hand::value(wanted.tnf, &wanted.kind, &wanted.payload, rules);
        assert_eq!(record.decode().ok().as_ref().map(plain), value);
    }
    let index_of = |record: Record<'_>| message.records().position(|other| other.place() == record.place()).unwrap();
    let links = message.links().ok().map(|links| {
        links.map(|link| (plain_alternative(&link.alternative), link.record.map(index_of))).collect::<Vec<_>>()
    });
    assert_eq!(links, by_hand::links(records, rules));
}

#[test]
fn inputs_are_read_as_by_a_peer() {
    let dice = &mut Dice(0xA0761D6478BD642F);
    let (mut taken, mut refused) = (0, 0);
    for _ in 0..20000 {
        let rules = rules(dice);
        let limits = limits_of(rules);
        let contents: Vec<Content> = (0..1 + dice.below(4)).map(|_| outer(dice)).collect();
        let mut bytes = message_of(&contents, true, dice);
        let is_message = by_hand::message(&bytes, rules).is_some();
        let mut change = 0;
        if dice.below(3) > 0 {
            (bytes, change) = changed(bytes, dice);
        }
        match (Message::parse_within(&bytes, &limits), by_hand::message(&bytes, rules)) {
            (Ok(message), Some((records, length))) => {
                taken += 1;
                assert_eq!(
                    (message.as_bytes().len(), message.rest()),
                    (length, &bytes[length..]),
                    "{rules:?} {bytes:02x?}"
                );
                agrees(message, &records, rules);
            }
            (Err(refusal), None) => {
                refused += 1;
                let at = refusal.at as usize;
                assert_eq!(refusal.is_incomplete(), at == bytes.len(), "{rules:?} {bytes:02x?}");
                // What stands before the change begins a message. What ends with the refused byte begins none.
                assert!(!is_message || at >= change, "{rules:?} {bytes:02x?}");
                if !refusal.is_incomplete() {
                    let other = [&bytes[..=at], &dice.bytes(20)].concat();
                    assert_eq!(by_hand::message(&other, rules), None, "{rules:?} {other:02x?}");
                }
            }
            (ours, theirs) => panic!("{ours:?} and {theirs:?} of {rules:?} {bytes:02x?}"),
        }
    }
    println!("taken {taken}, refused {refused}");
    assert!(taken > 5000 && refused > 5000);
}
