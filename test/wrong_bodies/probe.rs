//! What functions of the proved text answer to octets, for those that no public call reaches: test/wrong_bodies/witnesses puts it into its copy.
use crate::proved::ndef_c::{ndef_alternative, ndef_reference, ndef_uri, ndef_write_error_number};
use crate::proved::ndef_lang::Opaque;
use crate::proved::ndef_message::{self, view, Checker};
use crate::proved::ndef_types::{units_len, AlternativeParts};
use crate::proved::ndef_value::Limits;
use std::format;
use std::string::String;
use std::vec::Vec;

fn limits() -> [Limits; 2] {
    [Limits::usual(), Limits::new(1, 2, 2).unwrap_or(Limits::usual())]
}

fn items(octets: &[u8]) -> String {
    let all = limits().map(|limits| match view::<Opaque>(octets, limits) {
        Ok(message) => message
            .items()
            .map(|it| format!("{} {:?} {:?}", it.length(), it.whole(), it.pieces().collect::<Vec<_>>()))
            .collect::<Vec<_>>(),
        Err(refusal) => Vec::from([format!("{refusal:?}")]),
    });
    format!("{all:?}")
}

fn checked(octets: &[u8]) -> String {
    let parts: Vec<usize> = if octets.len() > 1 { Vec::from([octets.len() - 1, 1]) } else { Vec::new() };
    let all = limits().map(|limits| {
        let mut checker = Checker::<Opaque>::new(limits);
        let fed = checker.feed(octets);
        format!(
            "{fed:?} {} {} {:?}",
            checker.place(),
            checker.records(),
            ndef_message::check::<Opaque>(limits, octets, &parts)
        )
    });
    format!("{all:?}")
}

fn alternative(octets: &[u8]) -> String {
    let (mut out, mut why) = Default::default();
    let status = ndef_alternative(octets, &mut out, &mut why);
    let references = [0, 1, 2].map(|at| {
        let mut part = Default::default();
        (ndef_reference(octets, at, &mut part), part)
    });
    let parts = AlternativeParts::parse(octets).ok();
    let all =
        parts.map(|it| format!("{} {:?} {:?}", it.auxiliary_count(), [0, 1, 2].map(|at| it.auxiliary(at)), it.rest()));
    format!("{status} {out:?} {references:?} {all:?}")
}

fn written(octets: &[u8]) -> String {
    let (mut buffer, mut count, mut why) = ([0; 256], 0, Default::default());
    let uri = format!("{} {:?}", ndef_uri(octets, 0, &mut buffer, &mut count, &mut why), (&buffer[..8], count));
    let error = format!("{} {:?}", ndef_write_error_number(2, 1, &mut buffer, &mut count), (&buffer[..8], count));
    format!("{uri} {error} {}", units_len("\u{1F600}"))
}

/// What they answer.
pub fn answers(octets: &[u8]) -> String {
    format!("{}\n{}\n{}\n{}", items(octets), checked(octets), alternative(octets), written(octets))
}
