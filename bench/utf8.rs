//! `utf8 FOLDER MILLISECONDS`: times the check of UTF-8 alone, of the crate simdutf8 and of the standard library, on the bytes of long texts.

include!("clock.rs");

fn main() {
    let (folder, milliseconds) = words();
    for name in ["ascii-1M", "wide-1M"] {
        let bytes = message(&folder, name);
        let text = &bytes[bytes.len() - 999_990..];
        assert!(simdutf8::basic::from_utf8(text).is_ok() && std::str::from_utf8(text).is_ok());
        time("simdutf8", name, milliseconds, || assert!(simdutf8::basic::from_utf8(std::hint::black_box(text)).is_ok()));
        time("std", name, milliseconds, || assert!(std::str::from_utf8(std::hint::black_box(text)).is_ok()));
    }
}
