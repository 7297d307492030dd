//! Shows where a broken message breaks: the fields before that place, the place, the reason, what was wanted, and what may help.
use simbegyor_ndef::{hint, why, Fields, Limits};

fn main() {
    let (broken, limits) = (b"\xD1\x01\x0BUhttp://a.bc", Limits::new());
    let fields = Fields::of(broken, &limits);
    let refusal = fields.refusal();
    for field in fields {
        println!("{:>3} {} {:02X?}", field.at, field.name, field.bytes);
    }
    match refusal {
        None => println!("It is a message."),
        Some(refusal) => println!("The byte at {} is refused for the reason {}:", refusal.at, refusal.reason.name()),
    }
    for sentence in [why(broken, &limits), hint(broken, &limits)].iter().flatten() {
        println!("{sentence}");
    }
}
