// Written by ports/erase of crates/ndef_message/src/items.rt, which has the contracts: do not edit.
//! The records of a message, where they lie.

use crate::proved::ndef_message::item::split_item;
use crate::proved::ndef_message::Item;

/// The records of a viewed message, in order. Contracts see the runs of those that are left.
#[derive(Clone, Debug)]
pub struct Items<'a> {
    /// The bytes of the records that are left.
    bytes: &'a [u8],
}

impl<'a> Items<'a> {
    /// The records that the bytes are.
    pub(crate) fn new(bytes: &'a [u8]) -> Items<'a> {
        Items { bytes }
    }
}

impl<'a> Iterator for Items<'a> {
    type Item = Item<'a>;

    fn next(&mut self) -> Option<Item<'a>> {
        if self.bytes.is_empty() {
            return None;
        }
        let (item, rest) = split_item(self.bytes);
        self.bytes = rest;
        Some(item)
    }
}
