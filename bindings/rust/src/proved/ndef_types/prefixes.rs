// Written by ports/erase of crates/ndef_types/src/prefixes.rt, which has the contracts: do not edit.
//! The prefixes that a URI record abbreviates.

/// The prefix of a code (RTD URI, URI identifier codes); 0 and the reserved codes have the empty one.
pub fn prefix(code: u8) -> &'static str {
    match code {
        0x00 => "",
        0x01 => "http://www.",
        0x02 => "https://www.",
        0x03 => "http://",
        0x04 => "https://",
        0x05 => "tel:",
        0x06 => "mailto:",
        0x07 => "ftp://anonymous:anonymous@",
        0x08 => "ftp://ftp.",
        0x09 => "ftps://",
        0x0a => "sftp://",
        0x0b => "smb://",
        0x0c => "nfs://",
        0x0d => "ftp://",
        0x0e => "dav://",
        0x0f => "news:",
        0x10 => "telnet://",
        0x11 => "imap:",
        0x12 => "rtsp://",
        0x13 => "urn:",
        0x14 => "pop:",
        0x15 => "sip:",
        0x16 => "sips:",
        0x17 => "tftp:",
        0x18 => "btspp://",
        0x19 => "btl2cap://",
        0x1a => "btgoep://",
        0x1b => "tcpobex://",
        0x1c => "irdaobex://",
        0x1d => "file://",
        0x1e => "urn:epc:id:",
        0x1f => "urn:epc:tag:",
        0x20 => "urn:epc:pat:",
        0x21 => "urn:epc:raw:",
        0x22 => "urn:epc:",
        0x23 => "urn:nfc:",
        0x24.. => "",
    }
}

/// Whether the text begins with the prefix. Most prefixes begin with another letter.
fn begins(text: &str, prefix: &str) -> bool {
    let (octets, first) = (text.as_bytes(), prefix.as_bytes());
    if 0 < octets.len() && 0 < first.len() && octets[0] != first[0] {
        return false;
    }
    text.starts_with(prefix)
}

/// The code whose prefix begins the text and is longer than every other that does.
fn longest(text: &str) -> u8 {
    let mut longest = 0;
    for code in 1..36 {
        if begins(text, prefix(code)) && prefix(longest).len() < prefix(code).len() {
            longest = code;
        }
    }
    longest
}

/// The longest prefix that begins the text, as its code, and the rest after it.
pub fn split(text: &str) -> (u8, &[u8]) {
    let code = longest(text);
    (code, &text.as_bytes()[prefix(code).len()..])
}
