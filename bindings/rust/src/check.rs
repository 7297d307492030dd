//! Checks of bytes, all at once or in parts.
use crate::proved::ndef_lang::Opaque;
use crate::proved::ndef_message::{self, view, Fed};
use crate::proved::ndef_nest::Typed;
use crate::{Limits, Payloads, Refusal};
use core::fmt;

/// A message with which some bytes begin.
#[derive(Clone, Copy, Debug, PartialEq, Eq, Hash)]
pub struct Checked {
    /// The number of its bytes.
    pub length: u64,
    /// The number of its records.
    pub records: u32,
}

/// Checks that the bytes begin with a message. Other bytes may follow it.
///
/// # Errors
///
/// The refusal says at which byte the input stops being a message, and why.
///
/// ```
/// use simbegyor_ndef::{check, Limits, Reason};
///
/// let checked = check(b"\xD1\x01\x08T\x02enHello, and more", &Limits::new())?;
/// assert_eq!((checked.length, checked.records), (12, 1));
/// let refusal = check(b"\xD7\x00\x00", &Limits::new()).unwrap_err();
/// assert_eq!((refusal.at, refusal.reason), (0, Reason::ReservedTnf));
/// # Ok::<(), simbegyor_ndef::Refusal>(())
/// ```
#[inline]
pub fn check(bytes: &[u8], limits: &Limits) -> Result<Checked, Refusal> {
    let viewed = match limits.payloads() {
        Payloads::Typed => view::<Typed>(bytes, limits.proved()),
        Payloads::Opaque => view::<Opaque>(bytes, limits.proved()),
    };
    match viewed {
        Ok(message) => Ok(Checked { length: message.taken(), records: message.records() }),
        Err(refusal) => Err(Refusal::of(refusal)),
    }
}

/// A checker for each answer to which payloads are validated.
#[derive(Clone)]
enum Either {
    Typed(ndef_message::Checker<Typed>),
    Opaque(ndef_message::Checker<Opaque>),
}

/// Calls a method of the checker that is there.
macro_rules! either {
    ($checker:expr, $name:ident($($argument:expr),*)) => {
        match $checker {
            Either::Typed(checker) => checker.$name($($argument),*),
            Either::Opaque(checker) => checker.$name($($argument),*),
        }
    };
}

/// A check of bytes that arrive in parts. Of the message it keeps the bytes of one type at most, while
/// that arrives in parts, and it takes no memory.
///
/// ```
/// use simbegyor_ndef::{Checker, Limits};
///
/// let mut checker = Checker::new(&Limits::new());
/// assert_eq!(checker.feed(b"\xD1\x01\x08T\x02e")?, None);
/// assert_eq!(checker.feed(b"nHello, and more")?.unwrap().length, 12);
/// # Ok::<(), simbegyor_ndef::Refusal>(())
/// ```
#[derive(Clone)]
pub struct Checker(Either);

impl Checker {
    /// Begins a check, before the first byte.
    #[must_use]
    pub fn new(limits: &Limits) -> Self {
        Self(match limits.payloads() {
            Payloads::Typed => Either::Typed(ndef_message::Checker::new(limits.proved())),
            Payloads::Opaque => Either::Opaque(ndef_message::Checker::new(limits.proved())),
        })
    }

    /// Checks the next bytes; there may be none. `None`: the bytes so far begin a message, and more must follow.
    /// `Some`: the bytes since the first one begin with a whole message. After a message or a refusal each later call
    /// answers the same.
    ///
    /// # Errors
    ///
    /// The refusal is the one that [`check`] gives for all bytes so far. Its offset counts from the first of them.
    pub fn feed(&mut self, bytes: &[u8]) -> Result<Option<Checked>, Refusal> {
        match either!(&mut self.0, feed(bytes)) {
            Fed::More => Ok(None),
            Fed::Done { .. } => Ok(Some(self.checked())),
            Fed::Refused(refusal) => Err(Refusal::of(refusal)),
        }
    }

    /// The answer if no more bytes follow: what [`check`] answers for all bytes so far.
    ///
    /// # Errors
    ///
    /// As [`check`](check()). [`Reason::EndOfInput`](crate::Reason::EndOfInput) says that the message is not whole.
    pub fn end(self) -> Result<Checked, Refusal> {
        either!(&self.0, end()).map(|()| self.checked()).map_err(Refusal::of)
    }

    /// The message that was checked.
    fn checked(&self) -> Checked {
        Checked { length: either!(&self.0, place()), records: either!(&self.0, records()) }
    }
}

impl fmt::Debug for Checker {
    fn fmt(&self, to: &mut fmt::Formatter<'_>) -> fmt::Result {
        to.debug_struct("Checker").finish_non_exhaustive()
    }
}
