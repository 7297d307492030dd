//! The record type of `crates/ndef_examples` over the proved text that the Rust crate holds, for `own_type.c`.
#![allow(unsafe_code, dead_code)]
#[path = "../../bindings/rust/src/proved/mod.rs"]
mod proved;

use proved::ndef_lang::{is_type, Fixed, OwnType, With};
use proved::ndef_message::{Checker, Fed};
use proved::ndef_nest::Typed;
use proved::ndef_value::{Limits, Tnf};

struct Temperature;

impl OwnType for Temperature {
    type Payload = Fixed<2>;

    fn is_own(tnf: Tnf, name: &[u8]) -> bool {
        is_type(Tnf::External, b"example.com:temp", tnf, name)
    }
}

/// The reason for which a checker that knows temperatures refuses the bytes, and where; 0 and the length of the message
/// where it takes them.
#[no_mangle]
pub unsafe extern "C" fn own_refusal(bytes: *const u8, length: usize, place: &mut u64) -> u32 {
    let mut checker = Checker::<With<Temperature, Typed>>::new(Limits::usual());
    let refusal = match checker.feed(core::slice::from_raw_parts(bytes, length)) {
        Fed::Done { taken } => {
            *place = taken as u64;
            return 0;
        }
        Fed::Refused(refusal) => refusal,
        Fed::More => checker.end().expect_err("a message that goes on has no end"),
    };
    *place = refusal.at;
    u32::from(refusal.reason.number())
}
