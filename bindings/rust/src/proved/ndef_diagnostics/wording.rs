// Written by ports/erase of crates/ndef_diagnostics/src/wording.rt, which has the contracts: do not edit.
//! The sentence for the expectation.

use crate::proved::ndef_diagnostics::{Expected, Sentence, Whose};
use crate::proved::ndef_fields::FieldName;
use crate::proved::ndef_format::Reason;
use crate::proved::ndef_lang::Kind;

/// The word for one, or for more or none.
fn word(count: u64, one: &'static [u8], more: &'static [u8]) -> &'static [u8] {
    if count == 1 {
        one
    } else {
        more
    }
}

/// A payload of this kind, as the subject of a sentence.
fn kind_noun(kind: Kind) -> &'static [u8] {
    match kind {
        Kind::Text => b"A text",
        Kind::Uri => b"A URI",
        Kind::SmartPoster => b"A smart poster",
        Kind::Request => b"A handover request",
        Kind::Select => b"A handover select",
        Kind::Carrier => b"A handover carrier",
        Kind::Action => b"An action",
        Kind::Size => b"A size",
        Kind::MediaType => b"A media type",
        Kind::Alternative => b"An alternative carrier",
        Kind::Collision => b"A collision record",
        Kind::Error => b"An error",
        Kind::Other => b"A payload",
    }
}

/// A field, within a sentence.
fn field_text(name: FieldName) -> &'static [u8] {
    match name {
        FieldName::Payload => b"the payload",
        _ => name.text(),
    }
}

impl Sentence {
    /// A sentence of this text.
    pub(crate) fn of(text: &[u8]) -> Sentence {
        let mut sentence = Sentence::new();
        sentence.push(text);
        sentence
    }

    /// Appends a number of octets.
    fn push_octets(&mut self, count: u64) {
        self.push_number(count);
        self.push(word(count, b" octet", b" octets"));
    }

    /// Appends what was given.
    fn push_given(&mut self, count: u64) {
        self.push_number(count);
        self.push(word(count, b" was given.", b" were given."));
    }

    /// Appends the number of octets left in the payload.
    fn push_left(&mut self, count: u64) {
        self.push_number(count);
        self.push(word(count, b" is left", b" are left"));
        self.push(b" in the payload.");
    }

    /// Appends a kind, as the subject.
    fn push_kind(&mut self, kind: Kind) {
        self.push(kind_noun(kind));
        self.push(b" (`");
        self.push(kind.name());
        self.push(b"`)");
    }
}

/// The sentence for octets of a field that are missing.
fn of_missing(name: FieldName, count: u64) -> Sentence {
    let mut sentence = Sentence::new();
    sentence.push_octets(count);
    sentence.push(b" of ");
    sentence.push(field_text(name));
    sentence.push(word(count, b" is missing.", b" are missing."));
    sentence
}

/// The sentence for the length of a kind of payload.
fn of_length(kind: Kind, there: u64, given: u64) -> Sentence {
    let mut sentence = Sentence::new();
    sentence.push_kind(kind);
    sentence.push(b" has ");
    sentence.push_octets(there);
    sentence.push(b"; ");
    sentence.push_given(given);
    sentence
}

/// The sentence for the least length of a kind of payload.
fn of_least(kind: Kind, least: u64, given: u64) -> Sentence {
    let mut sentence = Sentence::new();
    sentence.push_kind(kind);
    sentence.push(b" has at least ");
    sentence.push_octets(least);
    sentence.push(b"; ");
    sentence.push_given(given);
    sentence
}

/// The sentence for the length of a handover select.
fn of_select(given: u64) -> Sentence {
    let mut sentence = Sentence::new();
    sentence.push(b"A handover select (`Hs`) has 1 octet, or at least 4; ");
    sentence.push_given(given);
    sentence
}

/// The sentence for the data of an error.
fn of_error(reason: u8, there: u64, given: u64) -> Sentence {
    let mut sentence = Sentence::new();
    sentence.push(b"The data of error reason ");
    sentence.push_number(u64::from(reason));
    sentence.push(b" has ");
    sentence.push_octets(there);
    sentence.push(b"; ");
    sentence.push_given(given);
    sentence
}

/// A field of a payload, as the subject of a sentence about its size.
fn of_field(name: FieldName) -> Sentence {
    let mut sentence = Sentence::of(b"The ");
    sentence.push(name.text());
    sentence.push(b" has ");
    sentence
}

/// Auxiliary references that are to come, as the subject of a sentence about their size.
fn of_auxiliary(count: u64) -> Sentence {
    let mut sentence = Sentence::new();
    sentence.push_number(count);
    sentence.push(b" auxiliary reference");
    sentence.push(word(count, b" has", b"s have"));
    sentence.push(b" to follow, of at least ");
    sentence
}

/// What has a size, as the subject of a sentence about it.
fn subject_of(whose: Whose, size: u64) -> Sentence {
    match whose {
        Whose::Field(name) => of_field(name),
        Whose::Auxiliary => of_auxiliary(size),
        Whose::Record => Sentence::of(b"This record has at least "),
        Whose::LastRecord => Sentence::of(b"This record is the last (ME) and has "),
        Whose::NextRecord => Sentence::of(b"Another record has to follow (ME is clear), of at least "),
        Whose::AfterShortest => {
            Sentence::of(b"After this record at its shortest another has to follow (ME is clear), of at least ")
        }
        Whose::LastUri => Sentence::of(b"The last record (ME) of this poster has to be its URI (`U`), of at least "),
        Whose::NextUri => {
            Sentence::of(b"The URI (`U`) of this smart poster has to follow (ME is clear), in a record of at least ")
        }
        Whose::Collision => Sentence::of(b"A request begins with a collision record (`cr`), here of at least "),
        Whose::LastCollision => {
            Sentence::of(b"A request begins with a collision record (`cr`), which as the last (ME) has ")
        }
        Whose::AfterCollision => {
            Sentence::of(b"After its collision record (`cr`) another record has to follow (ME is clear), of at least ")
        }
    }
}

/// The sentence for what has a size and doesn't fit.
fn of_size(whose: Whose, size: u64, left: u64) -> Sentence {
    let mut sentence = subject_of(whose, size);
    sentence.push_octets(size);
    sentence.push(b"; ");
    sentence.push_left(left);
    sentence
}

/// The sentence for a poster without a URI.
fn of_poster(number: u64) -> Sentence {
    let mut sentence = Sentence::new();
    sentence.push(b"Record ");
    sentence.push_number(number);
    sentence.push(b" is the last of this smart poster, and none is a URI (`U`).");
    sentence
}

/// The sentence for a second URI.
fn of_second(number: u64) -> Sentence {
    let mut sentence = Sentence::new();
    sentence.push(b"Record ");
    sentence.push_number(number);
    sentence.push(b" is a second URI (`U`) in this smart poster.");
    sentence
}

/// The sentence for a collision record of another length.
fn of_collision(given: u64) -> Sentence {
    let mut sentence = Sentence::of(b"A request begins with a collision record (`cr`) of 2 octets; ");
    sentence.push_given(given);
    sentence
}

impl Expected {
    /// Returns the sentence of English for it, if bytes are refused for this reason: at most 192 bytes of ASCII, the
    /// full stop included. If nothing else is known, it is the meaning of the reason.
    pub fn sentence(self, reason: Reason) -> Sentence {
        match self {
            Expected::Nothing => Sentence::of(reason.sentence()),
            Expected::Message => Sentence::of(b"A message is missing: the input has no bytes."),
            Expected::NextRecord => Sentence::of(b"Another record is missing: none of those before has ME set."),
            Expected::NextChunk => Sentence::of(b"Another chunk of the record is missing: the last one has CF set."),
            Expected::Missing(name, count) => of_missing(name, count),
            Expected::FixedLength(kind, there, given) => of_length(kind, there, given),
            Expected::LeastLength(kind, least, given) => of_least(kind, least, given),
            Expected::SelectLength(given) => of_select(given),
            Expected::ErrorLength(error, there, given) => of_error(error, there, given),
            Expected::EvenText => Sentence::of(b"The text in UTF-16 has an odd number of octets."),
            Expected::WholeCharacter => Sentence::of(b"The payload ends within a character of the text."),
            Expected::AuxiliaryCount => {
                Sentence::of(b"The alternative carrier ends before its number of auxiliary references.")
            }
            Expected::Size(whose, size, left) => of_size(whose, size, left),
            Expected::UriInPoster(number) => of_poster(number),
            Expected::EmptyUri => Sentence::of(
                b"The last record (ME) of this poster has to be its URI (`U`), whose payload is never empty.",
            ),
            Expected::OneUri(number) => of_second(number),
            Expected::CollisionFirst => {
                Sentence::of(b"This request must begin with a collision record (`cr`); its first record is another.")
            }
            Expected::CollisionLength(given) => of_collision(given),
        }
    }
}
