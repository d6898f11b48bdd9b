//! PackStream values, read and packed.
use crate::raw;
use crate::refusal::{unless_refused, Refusal};

/// What a value is, with where its parts lie in the message.
#[derive(Clone, Copy, Debug, PartialEq, Eq)]
pub enum Head {
    Null,
    Boolean(bool),
    Integer(i64),
    /// The 64 bits: `f64::from_bits` makes the number.
    Float(u64),
    /// The content: `size` bytes from `start` on.
    Bytes {
        start: usize,
        size: usize,
    },
    String {
        start: usize,
        size: usize,
    },
    /// `count` items: the first one's marker is at `first`, and each other's where the one before it ends.
    List {
        first: usize,
        count: usize,
    },
    /// `count` entries, each a key and a value, laid out in the same way.
    Dictionary {
        first: usize,
        count: usize,
    },
    /// `count` fields, laid out in the same way.
    Structure {
        tag: u8,
        first: usize,
        count: usize,
    },
}

/// A value, and the offset past it.
#[derive(Clone, Copy, Debug, PartialEq, Eq)]
pub struct Found {
    pub head: Head,
    pub end: usize,
}

/// A whole message has room for so many open containers.
pub const MOST_OPEN: usize = 16;

fn head(image: raw::HeadImage) -> Head {
    let (start, size) = (image.start as usize, image.size as usize);
    match image.kind {
        1 => Head::Null,
        2 => Head::Boolean(image.boolean == 1),
        3 => Head::Integer(image.integer),
        4 => Head::Float(image.bits),
        5 => Head::Bytes { start, size },
        6 => Head::String { start, size },
        7 => Head::List { first: start, count: size },
        8 => Head::Dictionary { first: start, count: size },
        9 => Head::Structure { tag: image.tag, first: start, count: size },
        _ => unreachable!("a value has one of nine kinds"),
    }
}

fn found(answer: raw::ValueRead) -> Result<Found, Refusal> {
    unless_refused(answer.refusal, answer.place, || Found { head: head(answer.head), end: answer.end as usize })
}

/// Reads a whole message as one value.
///
/// Refuses with 6 where it has over 16,384 bytes, then with the leftmost of 7 to 12, then with 13 where bytes are left over. The
/// connection is to be closed after each of them.
pub fn read_message(message: &[u8]) -> Result<Found, Refusal> {
    // SAFETY: the pointer and the length are those of one slice.
    found(unsafe { raw::meulhaton_read_message(message.as_ptr(), message.len()) })
}

/// Reads the value at an offset of a message, with room for `depth` open containers; more than 16 is as 16, which a whole message has.
///
/// Refuses with 6 where the message has over 16,384 bytes, then with the leftmost of 7 to 12.
pub fn read_value(message: &[u8], at: usize, depth: usize) -> Result<Found, Refusal> {
    // SAFETY: the pointer and the length are those of one slice.
    found(unsafe { raw::meulhaton_read_value(message.as_ptr(), message.len(), at, depth) })
}

pub(crate) fn packed(answer: raw::Output) -> Result<usize, Refusal> {
    unless_refused(answer.refusal, answer.place, || answer.end as usize)
}

/// Packs False or True from `at` on, and says the offset past it; what lies before and past it stays. Refuses with 21 where it does not
/// fit.
pub fn pack_boolean(value: bool, out: &mut [u8], at: usize) -> Result<usize, Refusal> {
    // SAFETY: the pointer and the length are those of one slice.
    packed(unsafe { raw::meulhaton_pack_boolean(value, out.as_mut_ptr(), out.len(), at) })
}

/// Packs an Integer in its shortest form, as `pack_boolean` does. Refuses with 21.
pub fn pack_integer(number: i64, out: &mut [u8], at: usize) -> Result<usize, Refusal> {
    // SAFETY: the pointer and the length are those of one slice.
    packed(unsafe { raw::meulhaton_pack_integer(number, out.as_mut_ptr(), out.len(), at) })
}

/// Packs a String, given its bytes, as `pack_boolean` does. Refuses with 6 where they are over 16,384, then with 10 where they are not
/// UTF-8, then with 21.
pub fn pack_string(text: &[u8], out: &mut [u8], at: usize) -> Result<usize, Refusal> {
    // SAFETY: each pointer and its length are those of one slice, and the slices do not overlap.
    packed(unsafe { raw::meulhaton_pack_string(text.as_ptr(), text.len(), out.as_mut_ptr(), out.len(), at) })
}

/// Packs the header of a Dictionary of `count` entries, as `pack_boolean` does; its keys and values are packed behind it. Refuses with 6
/// where they are over 16,384, then with 21.
pub fn pack_dictionary(count: usize, out: &mut [u8], at: usize) -> Result<usize, Refusal> {
    // SAFETY: the pointer and the length are those of one slice.
    packed(unsafe { raw::meulhaton_pack_dictionary(count, out.as_mut_ptr(), out.len(), at) })
}

/// Packs the header of a Structure of `count` fields, as `pack_boolean` does; its fields are packed behind it. Refuses with 6 where they
/// are over 15, then with 21.
pub fn pack_structure(tag: u8, count: usize, out: &mut [u8], at: usize) -> Result<usize, Refusal> {
    // SAFETY: the pointer and the length are those of one slice.
    packed(unsafe { raw::meulhaton_pack_structure(tag, count, out.as_mut_ptr(), out.len(), at) })
}
