// Written by ports/erase of crates/ndef_lang/src/type_name.rt, which has the contracts: do not edit.
//! The octets of a type name, as far as they have come.

/// Keeps the type name of a record (NDEF 1.0, TYPE), of at most 255 octets.
#[derive(Clone, Copy, Debug)]
pub struct TypeName {
    octets: [u8; 255],
    count: u8,
}

impl TypeName {
    /// Returns the name before the first octet.
    pub fn new() -> Self {
        TypeName { octets: [0; 255], count: 0 }
    }

    /// Forgets them.
    pub fn clear(&mut self) {
        self.count = 0;
    }

    /// Takes the next octets of the name.
    pub fn push_all(&mut self, octets: &[u8]) {
        for octet in octets {
            self.octets[usize::from(self.count)] = *octet;
            self.count += 1;
        }
    }

    /// The octets that have come.
    pub fn octets(&self) -> &[u8] {
        &self.octets[..usize::from(self.count)]
    }
}
