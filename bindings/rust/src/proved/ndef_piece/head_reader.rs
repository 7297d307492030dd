// Written by ports/erase of crates/ndef_piece/src/head_reader.rt, which has the contracts: do not edit.
//! The head of a piece, read octet by octet.

use crate::proved::ndef_piece::bounds::{bounds_at, front_bounds, range};
use crate::proved::ndef_piece::conditions::reason;
use crate::proved::ndef_piece::head::head_of;
use crate::proved::ndef_piece::header::size;
use crate::proved::ndef_piece::whole::head_at;
use crate::proved::ndef_piece::{Bounds, Head, Spot};
use crate::proved::ndef_value::Reason;

/// The state after an octet of a head.
#[derive(Clone, Copy, Debug, PartialEq, Eq, Hash)]
pub enum Step {
    /// It goes on.
    More,
    /// It is whole.
    Head(Head),
    /// No head that may occur at the spot begins with these octets. The reason is the lowest that holds of the
    /// octet.
    Refused(Reason),
}

/// Returns the state after these octets of a head, if they are a front of one.
fn step_after(taken: &[u8]) -> Step {
    if taken.len() == size(taken[0]) {
        Step::Head(head_of(taken))
    } else {
        Step::More
    }
}

/// Puts the octet after the first `count` of them, and answers what they are then.
fn answer(spot: &Spot, octets: &mut [u8; 7], count: usize, octet: u8) -> Step {
    let reason = reason(spot, &octets[..count], octet);
    octets[count] = octet;
    match reason {
        Some(reason) => Step::Refused(reason),
        None => step_after(&octets[..count + 1]),
    }
}

/// Reads the head of one piece (NDEF 1.0, record layout), octet by octet. Clauses see its spot, its
/// octets so far, a refused one with them, and the answer to the last.
#[derive(Clone, Debug)]
pub struct HeadReader {
    spot: Spot,
    octets: [u8; 7],
    count: usize,
    answer: Step,
}

impl HeadReader {
    /// A reader that has no octet yet. The first piece of a message is not inside a run.
    pub fn new(spot: Spot) -> Self {
        HeadReader { spot, octets: [0; 7], count: 0, answer: Step::More }
    }

    /// Whether no octet has come.
    pub fn is_fresh(&self) -> bool {
        self.count == 0
    }

    /// Returns the head at the front of the bytes, and its number of octets, if no octet has come yet and the bytes
    /// show at once that it is whole and may occur at the spot.
    #[inline(always)]
    pub fn whole_head(&self, bytes: &[u8]) -> Option<(Head, usize)> {
        if self.count > 0 {
            return None;
        }
        head_at(&self.spot, bytes)
    }

    /// Takes the next octet. A refused octet isn't part of the head; after a head or a refusal `step`
    /// answers the same and changes nothing.
    pub fn step(&mut self, octet: u8) -> Step {
        match self.answer {
            Step::More => {
                self.answer = answer(&self.spot, &mut self.octets, self.count, octet);
                self.count += 1;
                self.answer
            }
            ended => ended,
        }
    }

    /// The least and the greatest number of payload bytes that this piece can still have, and after
    /// a refusal `(1, 0)`. Each number from the least to the greatest is that of some head.
    pub fn lengths(&self) -> (u64, u64) {
        match self.answer {
            Step::More => range(&self.spot, &self.octets[..self.count]),
            Step::Head(head) => {
                let length = u64::from(head.payload_length);
                (length, length)
            }
            Step::Refused(_) => (1, 0),
        }
    }

    /// The bounds of the heads that go on, once there is an octet and where none is refused.
    pub fn bounds(&self) -> Option<Bounds> {
        match self.answer {
            Step::More => front_bounds(&self.spot, &self.octets[..self.count]),
            Step::Head(head) => Some(bounds_at(&head)),
            Step::Refused(_) => None,
        }
    }
}
