//! Meulhaton for Rust: the server's end of Bolt 4.0, 4.1 and 4.2, as safe functions over the proved library.
//!
//! The way of a message: gather bytes until [`read_frame`] has a whole frame, [`read_request`] it, tell the [`Connection`] that it
//! has arrived, then take and report until it is idle or closed; each summary is packed by [`pack_summary`] and written by
//! [`write_chunks`].
//!
//! Every call that can be refused answers a [`Refusal`]: it consumed nothing and changed nothing; [`Refusal::text`] says for people what
//! is wrong. Close the connection after 5 to 15 and 25 to 27 ([`Refusal::closes`]); not after 4 (wait for more bytes), 17 (take first) or
//! 21 (lend a larger buffer). Before there is a connection, 1 waits for the rest of the twenty bytes, 2 ends it, and 3 ends it after four
//! zeros. 18 says that the connection is DEFUNCT, 20 that it has to end; 19, 22 and 24 are the caller's own mistakes.
mod connection;
pub mod raw;
mod refusal;
mod requests;
mod values;
mod wire;

pub use connection::{pack_summary, Answered, Arrival, Connection, Failure, Outcome, Request, State, Summary, Taken};
pub use refusal::Refusal;
pub use requests::{read_request, Fields, Mode, RequestRead, Span, Transaction};
pub use values::{
    pack_boolean, pack_dictionary, pack_integer, pack_string, pack_structure, read_message, read_value, Found, Head,
    MOST_OPEN,
};
pub use wire::{negotiate, read_frame, write_chunks, Frame, Version};
