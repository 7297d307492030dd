// Written by ports/erase of crates/ndef_message/src/message_checking.rt, which has the contracts: do not edit.
//! Checks a message from a source.
use crate::proved::ndef_lang::RecordLanguage;
use crate::proved::ndef_message::{Checker, Fed, Source};
use crate::proved::ndef_value::{Limits, Refusal};

/// A message (NDEF 1.0) that was checked.
#[derive(Clone, Copy, Debug, PartialEq, Eq, Hash)]
pub struct Checked {
    /// The number of its records, 1 to 65535.
    pub records: u32,
    /// The number of its bytes, all of which were taken of the source.
    pub taken: u64,
}

/// The reason why there is no message.
#[derive(Clone, Copy, Debug, PartialEq, Eq, Hash)]
pub enum CheckError {
    /// The bytes to come don't begin with a message; those before the refused place were taken, and the next byte of
    /// the source is the refused one.
    Refused(Refusal),
    /// The source failed, and fails from then on. The bytes taken are the beginning of a message, and not all of it.
    ReadFault,
}

impl core::fmt::Display for CheckError {
    fn fmt(&self, f: &mut core::fmt::Formatter<'_>) -> core::fmt::Result {
        match self {
            CheckError::Refused(_0) => write!(f, "{_0}"),
            CheckError::ReadFault => write!(f, "reading failed"),
        }
    }
}

impl core::error::Error for CheckError {}

/// The result of taking the bytes that a source shows.
#[derive(Clone)]
pub(crate) enum CheckStep {
    /// It failed.
    Fault,
    /// It shows none.
    End,
    /// The message goes on.
    More,
    /// It has ended.
    Done,
    /// One of them is refused.
    Refused(Refusal),
}

/// Checks what the source shows, up to the end of the message or a refused byte.
fn check_shown<L: RecordLanguage, S: Source>(checker: &mut Checker<L>, source: &mut S) -> CheckStep {
    let Ok(bytes) = source.fill() else {
        return CheckStep::Fault;
    };
    if bytes.is_empty() {
        return CheckStep::End;
    }
    let before = checker.accepted_bytes();
    let fed = checker.feed_bytes(bytes);
    source.take((checker.accepted_bytes() - before) as usize);
    match fed {
        Fed::More => CheckStep::More,
        Fed::Done { .. } => CheckStep::Done,
        Fed::Refused(refusal) => CheckStep::Refused(refusal),
    }
}

/// Checks the message, one `fill` of the source after another.
fn check_bytes<L: RecordLanguage, S: Source>(source: &mut S, limits: Limits) -> Result<Checked, CheckError> {
    let mut checker = Checker::<L>::start(limits);
    loop {
        match check_shown(&mut checker, source) {
            CheckStep::Fault => return Err(CheckError::ReadFault),
            CheckStep::End => match checker.judge_end() {
                Err(refusal) => return Err(CheckError::Refused(refusal)),
                Ok(()) => unreachable!(),
            },
            CheckStep::More => {}
            CheckStep::Done => {
                return Ok(Checked { records: checker.ended_records(), taken: checker.accepted_bytes() });
            }
            CheckStep::Refused(refusal) => return Err(CheckError::Refused(refusal)),
        }
    }
}

/// Checks the message with which the bytes to come of the source begin, and takes exactly its bytes.
/// If they don't begin with one, it is refused at the first byte after which no continuation is,
/// or at the end of the input, and exactly the bytes before that place are taken. It allocates no
/// memory.
///
/// The payloads of the records are of their kinds in the language `L`: `Typed` of ndef_nest validates
/// those that the standards define, `Opaque` of ndef_lang into none.
pub fn check_message<L: RecordLanguage, S: Source>(source: &mut S, limits: Limits) -> Result<Checked, CheckError> {
    check_bytes::<L, S>(source, limits)
}
