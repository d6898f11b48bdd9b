//! The handshake, frames and chunks.
use crate::raw;
use crate::refusal::{unless_refused, Refusal};

/// A known version of Bolt 4.
#[derive(Clone, Copy, Debug, PartialEq, Eq, PartialOrd, Ord, Hash)]
pub enum Version {
    V4_0,
    V4_1,
    V4_2,
}

impl Version {
    /// The minor number: 0, 1 or 2.
    pub fn minor(self) -> u8 {
        self as u8
    }

    /// The four bytes that the server echoes.
    pub fn to_bytes(self) -> [u8; 4] {
        [0, 0, self.minor(), 4]
    }
}

/// The first of the client's four proposals that is known. Reads the first twenty bytes of the input; what follows is the caller's.
///
/// Refuses with 2 where a byte of the preamble is wrong, else with 1 where fewer than twenty bytes are there, else with 3 where no
/// proposal is known: the server then sends four zeros.
pub fn negotiate(input: &[u8]) -> Result<Version, Refusal> {
    // SAFETY: the pointer and the length are those of one slice.
    let answer = unsafe { raw::meulhaton_negotiate(input.as_ptr(), input.len()) };
    unless_refused(answer.refusal, answer.place, || match answer.minor {
        0 => Version::V4_0,
        1 => Version::V4_1,
        2 => Version::V4_2,
        _ => unreachable!("the library agrees on known versions only"),
    })
}

/// What stands at the front of the input.
#[derive(Clone, Copy, Debug, PartialEq, Eq)]
pub enum Frame {
    /// A message of `length` bytes, now in front of the lent buffer; it took `consumed` bytes of the input.
    Message { length: usize, consumed: usize },
    /// An empty message in 4.1 or 4.2: nothing arrives.
    KeepAlive { consumed: usize },
}

/// Reads the frame at the front of the input: a message goes to the front of the buffer, whose rest stays as it is. A buffer of 16,384
/// bytes holds every message.
///
/// Refuses, from left to right, with 6 at the first header that takes the message over 16,384 bytes, with 21 at the first that takes
/// it over the buffer, with 5 at an empty message in 4.0, and with 4 where the frame is incomplete: call again when more bytes have
/// come. The connection is to be closed after 5 and 6, not after 4 and 21.
pub fn read_frame(version: Version, input: &[u8], buffer: &mut [u8]) -> Result<Frame, Refusal> {
    // SAFETY: each pointer and its length are those of one slice, and the slices do not overlap.
    let answer = unsafe {
        raw::meulhaton_read_frame(version.minor(), input.as_ptr(), input.len(), buffer.as_mut_ptr(), buffer.len())
    };
    let consumed = answer.consumed as usize;
    unless_refused(answer.refusal, answer.place, || match answer.kind {
        1 => Frame::Message { length: answer.length as usize, consumed },
        2 => Frame::KeepAlive { consumed },
        _ => unreachable!("a frame is a message or a keep-alive"),
    })
}

/// Writes the message in chunks of `chunk_size` bytes, and its end, to the front of `out`, and says how many bytes these are; what lies
/// past them stays.
///
/// Refuses with 22 where the message is empty or the chunk size is not 1 to 65,535, then with 6 where the message has over 16,384 bytes,
/// then with 21 where the whole output is longer than `out`.
pub fn write_chunks(message: &[u8], chunk_size: usize, out: &mut [u8]) -> Result<usize, Refusal> {
    // SAFETY: each pointer and its length are those of one slice, and the slices do not overlap.
    let answer = unsafe {
        raw::meulhaton_write_chunks(message.as_ptr(), message.len(), chunk_size, out.as_mut_ptr(), out.len())
    };
    unless_refused(answer.refusal, answer.place, || answer.end as usize)
}
