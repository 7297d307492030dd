// Written by ports/erase of crates/ndef_diagnostics/src/tag_memory.rt, which has the contracts: do not edit.
//! The place of a message in the memory of a tag.

use crate::proved::ndef_diagnostics::begun::{front_of, octet_at};

/// The bytes that are looked at: 16 MiB.
const MOST: usize = 16777216;

/// The bytes that surround a message on a tag.
#[derive(Clone, Copy, Debug, PartialEq, Eq, Hash)]
pub enum Wrapping {
    /// An NDEF message TLV (NFC Forum, Type 2 Tag and Type 5 Tag).
    Block,
    /// The attribute information block before it (NFC Forum, Type 3 Tag).
    Attributes,
    /// The file that begins with its length (NFC Forum, Type 4 Tag).
    File,
    /// An NDEF message TLV, of a tag whose reserved areas may lie before the message's end, so that no command gives it
    /// (NFC Forum, Type 1 Tag and Type 2 Tag).
    Interrupted,
    /// The attribute information block before it, of a tag that is being written (NFC Forum, Type 3 Tag).
    Unfinished,
}

/// The bytes that a tag has for a message.
#[derive(Clone, Copy, Debug, PartialEq, Eq, Hash)]
pub struct Found {
    /// The bytes that surround them.
    pub wrapping: Wrapping,
    /// The offset of the first of them, counted from the first byte that was given.
    pub at: u32,
    /// The number of them, as the tag states it; 0 on an empty tag, below 2 ^ 24.
    pub length: u32,
}

/// The number that two octets spell.
fn two_octets(bytes: &[u8], place: usize) -> u32 {
    256 * u32::from(octet_at(bytes, place)) + u32::from(octet_at(bytes, place + 1))
}

/// Returns the offset of the value of the block at a place.
fn value_at(bytes: &[u8], place: usize) -> usize {
    if octet_at(bytes, place + 1) == 0xFF {
        place + 4
    } else {
        place + 2
    }
}

/// The length of that value.
fn value_length(bytes: &[u8], place: usize) -> u32 {
    if octet_at(bytes, place + 1) == 0xFF {
        two_octets(bytes, place + 2)
    } else {
        u32::from(octet_at(bytes, place + 1))
    }
}

/// Whether a reader passes over a block with this tag.
fn is_passed(tag: u8) -> bool {
    tag == 0 || tag == 1 || tag == 2 || tag == 0xFD
}

/// Returns the offset of the block after that at a place.
fn next_block(bytes: &[u8], place: usize) -> usize {
    if octet_at(bytes, place) == 0 {
        place + 1
    } else {
        value_at(bytes, place) + value_length(bytes, place) as usize
    }
}

/// Whether an octet is a version from 1.0 to 1.3.
fn is_version(octet: u8) -> bool {
    0x10 <= octet && octet <= 0x13
}

/// Whether a capability container of a Type 1 Tag or a Type 2 Tag lies at a place.
fn is_container(bytes: &[u8], place: usize) -> bool {
    octet_at(bytes, place) == 0xE1 && is_version(octet_at(bytes, place + 1))
}

/// The place of the first one, if it lies at most 16 octets after the first.
fn first_container(bytes: &[u8]) -> Option<usize> {
    for place in 0..17 {
        if is_container(bytes, place) {
            return Some(place);
        }
    }
    None
}

/// Returns the offset of the TLV blocks of these bytes: after a capability container, or at once.
fn blocks_at(container: Option<usize>, bytes: &[u8]) -> usize {
    match (container, octet_at(bytes, 0)) {
        (Some(place), _) => place + 4,
        (None, 0xE1 | 0xE2) => {
            if octet_at(bytes, 2) == 0 {
                8
            } else {
                4
            }
        }
        (None, _) => 0,
    }
}

/// The place to which one comes from a place who passes over all blocks that a reader passes over.
fn past_blocks(bytes: &[u8], start: usize) -> usize {
    let mut place = start;
    while place < bytes.len() && is_passed(bytes[place]) {
        place = next_block(bytes, place);
    }
    place
}

/// The place of the first block for a message from a place on, if there is one.
fn first_block(bytes: &[u8], start: usize) -> Option<usize> {
    let place = past_blocks(bytes, start);
    if place < bytes.len() && bytes[place] == 3 {
        Some(place)
    } else {
        None
    }
}

/// Whether the block at a place states an area.
fn is_control(bytes: &[u8], place: usize) -> bool {
    matches!(octet_at(bytes, place), 1 | 2) && value_length(bytes, place) == 3
}

/// The bytes of a page, by the value at a place.
fn page_size(bytes: &[u8], at: usize) -> u32 {
    1 << u32::from(octet_at(bytes, at + 2) % 16)
}

/// The address of the area, by the value at a place.
fn area_address(bytes: &[u8], at: usize) -> u32 {
    let first = octet_at(bytes, at);
    u32::from(first / 16) * page_size(bytes, at) + u32::from(first % 16)
}

/// The size of an area as its block states it.
fn area_size(octet: u8) -> u32 {
    if octet == 0 {
        256
    } else {
        u32::from(octet)
    }
}

/// The bytes of an area of that size.
fn area_length(tag: u8, size: u32) -> u32 {
    if tag == 1 {
        (size + 7) / 8
    } else {
        size
    }
}

/// Whether an area of this address and length may meet the bytes from the first block up to a place.
fn meets(start: usize, until: usize, address: u32, length: u32) -> bool {
    start + (address as usize) < until + 16 && 12 < address + length
}

/// Whether the area of the block at a place may meet those bytes, by the value at another.
fn is_met(bytes: &[u8], start: usize, until: usize, place: usize, at: usize) -> bool {
    let size = area_size(octet_at(bytes, at + 1));
    let length = area_length(octet_at(bytes, place), size);
    meets(start, until, area_address(bytes, at), length)
}

/// Whether the block at a place states an area that may meet those bytes.
fn states_area(bytes: &[u8], start: usize, until: usize, place: usize) -> bool {
    is_control(bytes, place) && is_met(bytes, start, until, place, value_at(bytes, place))
}

/// Whether one of the blocks that a reader passes over states an area that may meet those bytes.
fn is_area_among(bytes: &[u8], start: usize, until: usize) -> bool {
    let mut place = start;
    while place < bytes.len() && is_passed(bytes[place]) {
        if states_area(bytes, start, until, place) {
            return true;
        }
        place = next_block(bytes, place);
    }
    false
}

/// Whether a Type 1 Tag has a dynamic memory, by the place of its blocks.
fn is_dynamic(bytes: &[u8], start: usize) -> bool {
    12 <= start && start <= 15 && 0x0F <= octet_at(bytes, start - 2)
}

/// Whether the reserved blocks of a dynamic memory begin before a place.
fn has_reserved_block(bytes: &[u8], start: usize, until: usize) -> bool {
    is_dynamic(bytes, start) && start + 92 < until
}

/// Whether reserved areas may lie between the first block and a place.
fn is_cut_before(bytes: &[u8], start: usize, until: usize) -> bool {
    has_reserved_block(bytes, start, until) || is_area_among(bytes, start, until)
}

/// Whether reserved areas may lie among the blocks up to the end of a message in one of them.
fn is_cut(bytes: &[u8], start: usize, block: Option<usize>) -> bool {
    match block {
        Some(place) => {
            let until = value_at(bytes, place) + value_length(bytes, place) as usize;
            is_cut_before(bytes, start, until)
        }
        None => false,
    }
}

/// Whether a first octet has MB set, so that a message begins.
fn is_begun(octet: u8) -> bool {
    octet >= 0x80
}

/// Whether the block at a place has no bytes for a message, and its length is there.
fn is_empty(bytes: &[u8], place: usize) -> bool {
    value_length(bytes, place) == 0 && value_at(bytes, place) <= bytes.len()
}

/// Returns the bytes around a message in a block, which reserved areas may cut.
fn block_wrapping(cut: bool) -> Wrapping {
    if cut {
        Wrapping::Interrupted
    } else {
        Wrapping::Block
    }
}

/// Returns the bytes that the block at a place has for a message, which reserved areas may cut.
fn in_block(cut: bool, bytes: &[u8], place: usize) -> Option<Found> {
    let at = value_at(bytes, place);
    let length = value_length(bytes, place);
    if is_begun(octet_at(bytes, at)) || is_empty(bytes, place) {
        Some(Found { wrapping: block_wrapping(cut), at: at as u32, length })
    } else {
        None
    }
}

/// The sum of some octets.
fn sum_of(octets: &[u8]) -> u32 {
    octets.iter().map(|octet| u32::from(*octet)).sum()
}

/// Whether an octet is the version of an attribute information block.
fn is_attribute_version(octet: u8) -> bool {
    octet == 0x10 || octet == 0x11
}

/// Whether the bytes begin with an attribute information block of a Type 3 Tag.
fn has_attributes(bytes: &[u8]) -> bool {
    is_attribute_version(octet_at(bytes, 0)) && sum_of(front_of(bytes, 14)) == two_octets(bytes, 14)
}

/// Returns what such a block is before, by its octet WriteF.
fn attribute_wrapping(write: u8) -> Wrapping {
    if write == 0 {
        Wrapping::Attributes
    } else {
        Wrapping::Unfinished
    }
}

/// Returns the place of the message after such a block.
fn after_attributes(bytes: &[u8]) -> Found {
    Found {
        wrapping: attribute_wrapping(octet_at(bytes, 9)),
        at: 16,
        length: 65536 * u32::from(octet_at(bytes, 11)) + two_octets(bytes, 12),
    }
}

/// Whether a file of this size fills the bytes, or, where it need not be whole, leaves some of them.
fn fits(whole: bool, size: usize, all: usize) -> bool {
    if whole {
        size == all
    } else {
        size <= all
    }
}

/// Returns the bytes for a message of this length at a place, in a file of a Type 4 Tag.
fn file_at(whole: bool, bytes: &[u8], at: u32, size: u32) -> Option<Found> {
    let end = at as usize + size as usize;
    if size >= 1 && fits(whole, end, bytes.len()) && is_begun(octet_at(bytes, at as usize)) {
        Some(Found { wrapping: Wrapping::File, at, length: size })
    } else {
        None
    }
}

/// The number that the first four octets spell.
fn four_octets(bytes: &[u8]) -> u32 {
    65536 * two_octets(bytes, 0) + two_octets(bytes, 2)
}

/// Returns the bytes that a file of a Type 4 Tag has for a message.
fn in_file(whole: bool, bytes: &[u8]) -> Option<Found> {
    file_at(whole, bytes, 2, two_octets(bytes, 0)).or(file_at(whole, bytes, 4, four_octets(bytes)))
}

/// Whether the bytes begin with a control TLV, or with two NULL TLVs and one, or have a capability container where a
/// Type 1 Tag or a Type 2 Tag has it.
fn is_memory(bytes: &[u8]) -> bool {
    is_control(bytes, 0)
        || is_control(bytes, 2)
        || is_container(bytes, 8)
        || is_container(bytes, 10)
        || is_container(bytes, 12)
}

/// Returns the bytes that a file which is longer than it says has for a message. The memory of a tag is no file.
fn in_longer_file(bytes: &[u8]) -> Option<Found> {
    if is_memory(bytes) {
        None
    } else {
        in_file(false, bytes)
    }
}

/// Returns the bytes for a message in these bytes, if they have no block.
fn in_other(bytes: &[u8]) -> Option<Found> {
    if has_attributes(bytes) {
        Some(after_attributes(bytes))
    } else {
        in_longer_file(bytes)
    }
}

/// Returns the bytes for a message in these bytes, if no file of them is whole, from the place of the first block for
/// one.
fn in_blocks(block: Option<usize>, cut: bool, bytes: &[u8]) -> Option<Found> {
    match block {
        Some(place) => in_block(cut, bytes, place).or(in_other(bytes)),
        None => in_other(bytes),
    }
}

/// Returns the bytes for a message in these bytes, from the place of the first block for one.
fn found_by(block: Option<usize>, cut: bool, bytes: &[u8]) -> Option<Found> {
    in_file(true, bytes).or(in_blocks(block, cut, bytes))
}

/// Returns the bytes that the memory of a tag, or a file of it, has for a message: those of a file that is as long as
/// it says, of its first NDEF message TLV, after its attribute information block, or after the length of a longer file
/// (NFC Forum, Type 1 to Type 5 Tag). None if the bytes look like none of these. It looks at the first 16 MiB, in a
/// time that is linear in their number.
pub(crate) fn found_in(bytes: &[u8]) -> Option<Found> {
    let front = front_of(bytes, MOST);
    let container = first_container(front);
    let start = blocks_at(container, front);
    let block = first_block(front, start);
    found_by(block, is_cut(front, start, block), front)
}
