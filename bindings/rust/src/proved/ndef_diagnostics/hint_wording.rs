// Written by ports/erase of crates/ndef_diagnostics/src/hint_wording.rt, which has the contracts: do not edit.
//! The sentences of hints, and what they name by numbers.

use crate::proved::ndef_diagnostics::dump_text::DumpText;
use crate::proved::ndef_diagnostics::tag_memory::{Found, Wrapping};
use crate::proved::ndef_diagnostics::{Hint, Sentence};

impl Hint {
    /// The sentence of English for it: at most 192 bytes of ASCII.
    pub fn sentence(self) -> Sentence {
        match self {
            Hint::InTag(found) => tag_sentence(found),
            Hint::Text(text) => dump_sentence(text),
            Hint::MessageAt(place) => near_sentence(place),
            Hint::AfterBlocks => Sentence::of(b"FE (hexadecimal) ends the TLV blocks of a tag."),
            Hint::CodeLeftOut => Sentence::of(b"68 (hexadecimal) is the letter h: was the identifier code left out?"),
            Hint::StandardProfile => {
                Sentence::of(b"The standard profile reads this (`--profile standard`, in C NDEF_STANDARD).")
            }
        }
    }

    /// The place where a message may begin, counted from the first byte; 0 where the hint names none.
    pub fn place(self) -> u64 {
        match self {
            Hint::InTag(found) => u64::from(found.at),
            Hint::MessageAt(place) => place,
            _ => 0,
        }
    }

    /// The number of bytes at that place that a tag has for the message; 0 where the hint names none, as where reserved
    /// areas may lie among them, or the tag is being written.
    pub fn length(self) -> u64 {
        match self {
            Hint::InTag(found) => given_length(found),
            _ => 0,
        }
    }
}

/// The number of bytes at its place that a tag has for a message; 0 if they are not the message.
fn given_length(found: Found) -> u64 {
    match found.wrapping {
        Wrapping::Block | Wrapping::Attributes | Wrapping::File => u64::from(found.length),
        Wrapping::Interrupted | Wrapping::Unfinished => 0,
    }
}

/// The sentence for a message at a place.
fn near_sentence(place: u64) -> Sentence {
    let mut sentence = Sentence::new();
    sentence.push(b"The bytes may begin with what surrounds a message on a tag; a message begins at byte ");
    sentence.push_number(place);
    sentence.push(b".");
    sentence
}

/// The sentence for a message on a tag, which ends with what surrounds it there.
fn message_sentence(found: Found, around: &[u8]) -> Sentence {
    let mut sentence = Sentence::of(b"A message of length ");
    sentence.push_number(u64::from(found.length));
    sentence.push(b" may begin at byte ");
    sentence.push_number(u64::from(found.at));
    sentence.push(around);
    sentence
}

/// The sentence for what a tag that states a length has for a message.
fn stated_sentence(found: Found, around: &[u8]) -> Sentence {
    if found.length == 0 {
        Sentence::of(b"This tag is empty: it has no bytes for a message.")
    } else {
        message_sentence(found, around)
    }
}

/// The sentence for what a tag has for a message.
fn tag_sentence(found: Found) -> Sentence {
    match found.wrapping {
        Wrapping::Block => stated_sentence(found, b", in an NDEF TLV of a tag."),
        Wrapping::Attributes => stated_sentence(found, b", after the attribute block of a Type 3 Tag."),
        Wrapping::File => stated_sentence(found, b", after its length, as in a file of a Type 4 Tag."),
        Wrapping::Interrupted => message_sentence(
            found,
            b", in an NDEF TLV of a tag, but reserved areas may lie before its end: use a reader that skips them.",
        ),
        Wrapping::Unfinished => Sentence::of(
            b"This Type 3 Tag is being written: its attribute block says that the message is not whole yet.",
        ),
    }
}

/// The sentence for a text that spells bytes.
fn dump_sentence(text: DumpText) -> Sentence {
    Sentence::of(match text {
        DumpText::Digits => b"These are digits, not the bytes that they spell; `--hex` reads them.",
        DumpText::Xxd => b"This is a dump by xxd, not the bytes that it spells; `--hex` reads it.",
        DumpText::Hexdump => b"This is a dump by hexdump, not the bytes that it spells; `--hex` reads it.",
        DumpText::Od => b"This is a dump by od, not the bytes that it spells; `--hex` reads it.",
        DumpText::Suppressed => {
            b"This is a dump by od with `*` for repeated lines, whose number it doesn't say; `od -v` writes them."
        }
        DumpText::Words => b"This is a dump in words, not bytes; `--hex` reads those of `hexdump -C` and `od -tx1`.",
        DumpText::Flipper => b"This is a file of a Flipper, not the bytes that it spells; `--hex` reads it.",
        DumpText::Proxmark => b"This is what a Proxmark prints, not the bytes; `--hex` reads the digits of its blocks.",
        DumpText::Base64 => b"This may be base64, not the bytes that it spells; `base64 -d` gives them.",
    })
}
