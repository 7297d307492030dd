// Written by ports/erase of crates/ndef_lang/src/lengths.rt, which has the contracts: do not edit.
//! The lengths that complete a payload.

/// The numbers of octets that complete a payload.
#[derive(Clone, Copy, Debug, PartialEq, Eq)]
pub enum Lengths {
    /// None: nothing completes it.
    Never,
    /// Just this one.
    Exactly(u64),
    /// This one and all above.
    From(u64),
    /// This one and every second above.
    PairsFrom(u64),
    /// The first, the second, and all between them; no length if the second is less.
    Between(u64, u64),
}

impl Lengths {
    /// Whether one of them is `lo` to `hi`.
    #[inline(always)]
    pub fn meet(self, lo: u64, hi: u64) -> bool {
        match self {
            Lengths::Never => false,
            Lengths::Exactly(n) => lo <= n && n <= hi,
            Lengths::From(n) => lo <= hi && n <= hi,
            Lengths::PairsFrom(n) => n <= hi && lo <= hi - (hi - n) % 2,
            Lengths::Between(least, most) => lo.max(least) <= hi.min(most),
        }
    }
}
