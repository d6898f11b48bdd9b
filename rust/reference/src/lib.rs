//! The server's end of Bolt 4.0, 4.1 and 4.2 in plain safe Rust, written from document 01 and its sources without
//! looking at the proved code. It is what the proved library is compared with and measured against.
#![forbid(unsafe_code)]

pub mod connection;
pub mod frame;
pub mod handshake;
pub mod pack;
pub mod request;
pub mod trial;
pub mod value;

/// The longest message, in bytes.
pub const MESSAGE_MAX: usize = 16_384;

/// Why a call was refused: the number of document 01, and the place in the message where that number has one.
#[derive(Clone, Copy, PartialEq, Eq, Debug)]
pub struct Refusal {
    pub number: u8,
    pub place: usize,
}

impl Refusal {
    pub const HANDSHAKE_SHORT: u8 = 1;
    pub const PREAMBLE_WRONG: u8 = 2;
    pub const NOTHING_IN_COMMON: u8 = 3;
    pub const FRAME_INCOMPLETE: u8 = 4;
    pub const EMPTY_MESSAGE: u8 = 5;
    pub const TOO_LONG: u8 = 6;
    pub const BYTES_MISSING: u8 = 7;
    pub const RESERVED_MARKER: u8 = 8;
    pub const TOO_DEEP: u8 = 9;
    pub const BAD_UTF8: u8 = 10;
    pub const KEY_NOT_STRING: u8 = 11;
    pub const KEY_REPEATED: u8 = 12;
    pub const BYTES_LEFT_OVER: u8 = 13;
    pub const UNKNOWN_REQUEST: u8 = 14;
    pub const FIELD_COUNT: u8 = 15;
    pub const QUEUE_FULL: u8 = 17;
    pub const DEFUNCT: u8 = 18;
    pub const NOT_IN_FLIGHT: u8 = 19;
    pub const COUNT_EXHAUSTED: u8 = 20;
    pub const NO_ROOM: u8 = 21;
    pub const NO_CHUNKS: u8 = 22;
    pub const INVALID_LINE: u8 = 23;
    pub const RULE_BROKEN: u8 = 24;
    pub const MISSING_ENTRY: u8 = 25;
    pub const WRONG_KIND: u8 = 26;
    pub const OUT_OF_RANGE: u8 = 27;

    /// A refusal whose number has no place of its own.
    pub const fn new(number: u8) -> Self {
        Refusal { number, place: 0 }
    }

    pub const fn at(number: u8, place: usize) -> Self {
        Refusal { number, place }
    }
}

pub type Result<T> = std::result::Result<T, Refusal>;
