//! The library's own functions and structs, as the C header has them. The modules beside this one wrap them.
//!
//! # Safety
//!
//! A slice passes as a pointer and then a length. The pointer is not null, also where the length is 0; so many bytes behind it stay
//! live for the call; and what a function writes overlaps nothing else that it is lent. A connection is one whole record, lent to one
//! call at a time. Beyond that any numbers may be passed: they are checked.

#[repr(C)]
#[derive(Clone, Copy, Debug, PartialEq, Eq)]
pub struct Agreement {
    pub refusal: u8,
    pub minor: u8,
    pub place: u64,
}

#[repr(C)]
#[derive(Clone, Copy, Debug, PartialEq, Eq)]
pub struct FrameRead {
    pub refusal: u8,
    pub kind: u8,
    pub place: u64,
    pub length: u64,
    pub consumed: u64,
}

#[repr(C)]
#[derive(Clone, Copy, Debug, PartialEq, Eq)]
pub struct Output {
    pub refusal: u8,
    pub place: u64,
    pub end: u64,
}

#[repr(C)]
#[derive(Clone, Copy, Debug, PartialEq, Eq)]
pub struct HeadImage {
    pub kind: u8,
    pub boolean: u8,
    pub tag: u8,
    pub integer: i64,
    pub bits: u64,
    pub start: u64,
    pub size: u64,
}

#[repr(C)]
#[derive(Clone, Copy, Debug, PartialEq, Eq)]
pub struct ValueRead {
    pub refusal: u8,
    pub place: u64,
    pub end: u64,
    pub head: HeadImage,
}

/// A request: its tag, and n and qid of DISCARD and PULL. `meulhaton_arrive` refuses a kind that is no request's as it refuses an n out of
/// its range: with 27, after 24 and 18.
#[repr(C)]
#[derive(Clone, Copy, Debug, Default, PartialEq, Eq)]
pub struct RequestImage {
    pub n: i64,
    pub qid: i64,
    pub kind: u8,
}

#[repr(C)]
#[derive(Clone, Copy, Debug, PartialEq, Eq)]
pub struct TextImage {
    pub present: u8,
    pub start: u64,
    pub size: u64,
}

#[repr(C)]
#[derive(Clone, Copy, Debug, PartialEq, Eq)]
pub struct PlaceImage {
    pub present: u8,
    pub offset: u64,
}

#[repr(C)]
#[derive(Clone, Copy, Debug, PartialEq, Eq)]
pub struct NumberImage {
    pub present: u8,
    pub value: i64,
}

#[repr(C)]
#[derive(Clone, Copy, Debug, PartialEq, Eq)]
pub struct HelloImage {
    pub user_agent: TextImage,
    pub scheme: TextImage,
    pub principal: TextImage,
    pub credentials: TextImage,
    pub routing: PlaceImage,
}

#[repr(C)]
#[derive(Clone, Copy, Debug, PartialEq, Eq)]
pub struct RunImage {
    pub query: TextImage,
    pub parameters: PlaceImage,
}

#[repr(C)]
#[derive(Clone, Copy, Debug, PartialEq, Eq)]
pub struct TransactionImage {
    pub bookmarks: PlaceImage,
    pub tx_timeout: NumberImage,
    pub tx_metadata: PlaceImage,
    pub mode: u8,
    pub db: TextImage,
}

#[repr(C)]
#[derive(Clone, Copy, Debug, PartialEq, Eq)]
pub struct FieldsImage {
    pub hello: HelloImage,
    pub run: RunImage,
    pub transaction: TransactionImage,
}

#[repr(C)]
#[derive(Clone, Copy, Debug, PartialEq, Eq)]
pub struct RequestRead {
    pub refusal: u8,
    pub place: u64,
    pub request: RequestImage,
    pub fields: FieldsImage,
}

/// All of a connection record but its arrays.
#[repr(C)]
#[derive(Clone, Copy, Debug, PartialEq, Eq)]
pub struct Control {
    pub state: u8,
    /// 1 while the first request waits for the engine's report, else 0.
    pub in_flight: u8,
    /// The place of the first request that waits: below 32, also where none waits.
    pub first: usize,
    /// How many wait: at most 32.
    pub waiting: usize,
    /// How many of `streams`, from the front on, are open: at most 8.
    pub opened: usize,
    /// The number of the next stream of the transaction.
    pub next: u64,
    /// Requests accepted.
    pub accepted: u64,
    /// Summaries handed back.
    pub sent: u64,
}

/// A connection record, all zeros when it is fresh. The requests that wait stand around a ring, the one behind i others in place
/// (first + i) % 32 of the last three arrays: `meulhaton_arrive` writes the place behind the last of them, no other call writes any, and with
/// each summary `first` moves on by one.
///
/// Any numbers may stand in it: each call checks it and refuses with 24 one that breaks a standing rule, among them that state, in_flight and
/// the kinds of the requests that wait name something. What the places hold in which no request waits, and no stream is open, never matters.
#[repr(C)]
#[derive(Clone, Copy, Debug, PartialEq, Eq)]
pub struct Record {
    pub control: Control,
    pub streams: [u64; 8],
    pub kinds: [u8; 32],
    /// n of DISCARD and PULL, else 0.
    pub counts: [i64; 32],
    /// qid of DISCARD and PULL, else 0.
    pub qids: [i64; 32],
}

/// How the engine ended a request: success 0, success with more 1, failure 2. `meulhaton_report` refuses any other number with 19, after 24
/// and 18.
#[repr(C)]
#[derive(Clone, Copy, Debug, PartialEq, Eq)]
pub struct OutcomeImage {
    pub number: u8,
}

#[repr(C)]
#[derive(Clone, Copy, Debug, PartialEq, Eq)]
pub struct SummaryImage {
    pub value: u32,
    pub kind: u8,
}

#[repr(C)]
#[derive(Clone, Copy, Debug, PartialEq, Eq)]
pub struct Reply {
    pub place: u64,
    pub number: u64,
    pub request: RequestImage,
    pub summary: SummaryImage,
    pub refusal: u8,
    pub said: u8,
}

extern "C" {
    pub fn meulhaton_negotiate(input: *const u8, input_length: usize) -> Agreement;
    pub fn meulhaton_read_frame(
        minor: u8,
        input: *const u8,
        input_length: usize,
        buffer: *mut u8,
        buffer_length: usize,
    ) -> FrameRead;
    pub fn meulhaton_write_chunks(
        message: *const u8,
        message_length: usize,
        chunk_size: usize,
        out: *mut u8,
        out_length: usize,
    ) -> Output;
    pub fn meulhaton_read_message(message: *const u8, message_length: usize) -> ValueRead;
    pub fn meulhaton_read_value(message: *const u8, message_length: usize, at: usize, depth: usize) -> ValueRead;
    pub fn meulhaton_pack_boolean(value: bool, out: *mut u8, out_length: usize, at: usize) -> Output;
    pub fn meulhaton_pack_integer(number: i64, out: *mut u8, out_length: usize, at: usize) -> Output;
    pub fn meulhaton_pack_string(
        text: *const u8,
        text_length: usize,
        out: *mut u8,
        out_length: usize,
        at: usize,
    ) -> Output;
    pub fn meulhaton_pack_dictionary(count: usize, out: *mut u8, out_length: usize, at: usize) -> Output;
    pub fn meulhaton_pack_structure(tag: u8, count: usize, out: *mut u8, out_length: usize, at: usize) -> Output;
    pub fn meulhaton_read_request(minor: u8, message: *const u8, message_length: usize) -> RequestRead;
    pub fn meulhaton_pack_summary(summary: SummaryImage, out: *mut u8, out_length: usize, at: usize) -> Output;
    pub fn meulhaton_fresh() -> Record;
    pub fn meulhaton_arrive(connection: *mut Record, request: RequestImage) -> Reply;
    pub fn meulhaton_take(connection: *mut Record) -> Reply;
    pub fn meulhaton_report(connection: *mut Record, outcome: OutcomeImage) -> Reply;
    pub fn meulhaton_close(connection: *mut Record) -> Reply;
}
