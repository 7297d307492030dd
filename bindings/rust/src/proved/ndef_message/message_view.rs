// Written by ports/erase of crates/ndef_message/src/message_view.rt, which has the contracts: do not edit.
//! A message, where it lies.

use crate::proved::ndef_message::Items;
use crate::proved::ndef_value::Profile;

/// A message (NDEF 1.0) at the front of a slice, of which nothing is copied: `view` makes one of bytes
/// that it has checked. Contracts see the number of bytes of the message, the runs of its records, and the profile with
/// which it was checked.
#[derive(Clone, Debug)]
pub struct View<'a> {
    /// The bytes of the message.
    bytes: &'a [u8],
    /// The number of its records.
    records: u32,
    /// The way in which reserved values were read.
    profile: Profile,
}

impl<'a> View<'a> {
    /// The message that the bytes are.
    pub(crate) fn new(bytes: &'a [u8], records: u32, profile: Profile) -> View<'a> {
        View { bytes, records, profile }
    }

    /// The number of bytes of the message. What follows them in the slice isn't part of it.
    pub fn taken(&self) -> u64 {
        self.bytes.len() as u64
    }

    /// The number of records of the message, 1 to 65535, and at most as many as its limits allowed.
    pub fn records(&self) -> u32 {
        self.records
    }

    /// Returns the profile of the limits that were given, by which reserved values were read.
    pub fn profile(&self) -> Profile {
        self.profile
    }

    /// The records of the message, in order, 1 to 65535 of them. Each call starts from the first.
    pub fn items(&self) -> Items<'a> {
        Items::new(self.bytes)
    }
}
