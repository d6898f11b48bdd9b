//! What both sides are asked, and how their answers are told so that they can be compared.

use crate::ring::Record;
use reference::connection::{Answer, Arrival, Connection, Kind, Report, State, Turn};
use reference::frame::Frame;
use reference::handshake::Version;
use reference::pack::Summary;
use reference::request::{Batch, Mode, Request};
use reference::value::{Container, Value};
use reference::{Result, frame, handshake, pack, request, value};

/// A value's own bytes, by offsets into its message.
#[derive(Clone, Copy, PartialEq, Eq, Debug)]
pub enum Head {
    Null,
    Boolean(bool),
    Integer(i64),
    Float(u64),
    Bytes(Span),
    String(Span),
    List(Span),
    Dictionary(Span),
    Structure(u8, Span),
}

/// Start and size of content; of a container, where its first item lies and how many there are.
#[derive(Clone, Copy, PartialEq, Eq, Debug)]
pub struct Span {
    pub start: usize,
    pub size: usize,
}

#[derive(Clone, Copy, PartialEq, Eq, Debug)]
pub struct Found {
    pub head: Head,
    pub end: usize,
}

/// A request with its fields; containers are told by the offset of their marker.
#[derive(Clone, Copy, PartialEq, Eq, Debug)]
pub enum Asked {
    Hello {
        user_agent: Span,
        scheme: Option<Span>,
        principal: Option<Span>,
        credentials: Option<Span>,
        routing: Option<usize>,
    },
    Run {
        query: Span,
        parameters: usize,
        extra: Transaction,
    },
    Begin(Transaction),
    Other(Kind),
}

#[derive(Clone, Copy, PartialEq, Eq, Debug)]
pub struct Transaction {
    pub bookmarks: Option<usize>,
    pub tx_timeout: Option<i64>,
    pub tx_metadata: Option<usize>,
    pub mode: Option<Mode>,
    pub db: Option<Span>,
}

#[derive(Clone, Copy, PartialEq, Eq, Debug)]
pub struct RequestImage {
    pub kind: u8,
    pub n: i64,
    pub qid: i64,
}

/// A call as C passes it: any kind and any outcome, whether the number names something or not.
#[derive(Clone, Copy, PartialEq, Eq, Debug)]
pub enum Call {
    Arrive(RequestImage),
    Take,
    Report(u8),
    Close,
}

#[derive(Clone, Copy, PartialEq, Eq, Debug)]
pub enum Reply {
    Arrived(Arrival),
    Turned(Turn),
    Reported(Answer),
    Closed,
}

/// What is packed behind `at`.
#[derive(Clone, Copy, PartialEq, Eq, Debug)]
pub enum Item<'a> {
    Boolean(bool),
    Integer(i64),
    String(&'a [u8]),
    /// The header of a Dictionary of so many entries.
    Dictionary(usize),
    /// The header of a Structure: its tag, and how many fields.
    Structure(u8, usize),
    Summary(Summary),
}

/// One side of the comparison.
pub trait Side {
    fn negotiate(&self, input: &[u8]) -> Result<Version>;
    fn read_frame(&self, version: Version, input: &[u8], buffer: &mut [u8]) -> Result<Frame>;
    fn write_chunks(&self, message: &[u8], chunk: usize, buffer: &mut [u8]) -> Result<usize>;
    fn read_message(&self, message: &[u8]) -> Result<Found>;
    fn read_value(&self, message: &[u8], at: usize, depth: usize) -> Result<Found>;
    fn read_request(&self, version: Version, message: &[u8]) -> Result<Asked>;
    /// Answers the offset behind what was packed.
    fn pack(&self, item: Item, buffer: &mut [u8], at: usize) -> Result<usize>;
}

/// A side with a record of the connection as it lies with the caller.
pub trait Keeper: Side {
    fn fresh(&self) -> Record;
    fn call(&self, record: &mut Record, call: Call) -> Result<Reply>;
}

/// The implementation written from the papers.
pub struct Reference;

impl Side for Reference {
    fn negotiate(&self, input: &[u8]) -> Result<Version> {
        handshake::choose(input)
    }

    fn read_frame(&self, version: Version, input: &[u8], buffer: &mut [u8]) -> Result<Frame> {
        frame::read(version, input, buffer)
    }

    fn write_chunks(&self, message: &[u8], chunk: usize, buffer: &mut [u8]) -> Result<usize> {
        frame::write(message, chunk, buffer)
    }

    fn read_message(&self, message: &[u8]) -> Result<Found> {
        Ok(Found { head: head(message, value::read(message)?), end: message.len() })
    }

    fn read_value(&self, message: &[u8], at: usize, depth: usize) -> Result<Found> {
        let (value, end) = value::read_at(message, at, depth)?;
        Ok(Found { head: head(message, value), end })
    }

    fn read_request(&self, version: Version, message: &[u8]) -> Result<Asked> {
        Ok(asked(message, request::read(version, message)?))
    }

    fn pack(&self, item: Item, buffer: &mut [u8], at: usize) -> Result<usize> {
        let behind = buffer.get_mut(at..).unwrap_or_default();
        let length = match item {
            Item::Boolean(value) => pack::boolean(value, behind),
            Item::Integer(number) => pack::integer(number, behind),
            Item::String(text) => pack::string(text, behind),
            Item::Dictionary(entries) => pack::dictionary_header(entries, behind),
            Item::Structure(tag, fields) => pack::structure_header(fields, tag, behind),
            Item::Summary(summary) => pack::summary(summary, behind),
        }?;
        Ok(at + length)
    }
}

/// The same call on the reference's own record, whose waiting requests are a list.
pub fn call_on_list(connection: &mut Connection, call: Call) -> Result<Reply> {
    Ok(match call {
        Call::Arrive(request) => Reply::Arrived(connection.arrive(request.kind())?),
        Call::Take => Reply::Turned(connection.take()?),
        Call::Report(number) => Reply::Reported(connection.report(report(number))?),
        Call::Close => {
            connection.close()?;
            Reply::Closed
        }
    })
}

pub const STATES: [State; 8] = [
    State::Connected,
    State::Ready,
    State::Streaming,
    State::TxReady,
    State::TxStreaming,
    State::Failed,
    State::Interrupted,
    State::Defunct,
];

/// The tags of the requests.
pub mod tag {
    pub const HELLO: u8 = 0x01;
    pub const GOODBYE: u8 = 0x02;
    pub const RESET: u8 = 0x0F;
    pub const RUN: u8 = 0x10;
    pub const BEGIN: u8 = 0x11;
    pub const COMMIT: u8 = 0x12;
    pub const ROLLBACK: u8 = 0x13;
    pub const DISCARD: u8 = 0x2F;
    pub const PULL: u8 = 0x3F;
    pub const ALL: [u8; 9] = [HELLO, GOODBYE, RESET, RUN, BEGIN, COMMIT, ROLLBACK, DISCARD, PULL];
}

/// The outcome of this number, if there is one.
pub fn report(number: u8) -> Option<Report> {
    [Report::Success, Report::SuccessWithMore, Report::Failure].get(usize::from(number)).copied()
}

impl RequestImage {
    pub fn new(kind: Kind) -> Self {
        let (kind, batch) = match kind {
            Kind::Hello => (tag::HELLO, None),
            Kind::Goodbye => (tag::GOODBYE, None),
            Kind::Reset => (tag::RESET, None),
            Kind::Run => (tag::RUN, None),
            Kind::Begin => (tag::BEGIN, None),
            Kind::Commit => (tag::COMMIT, None),
            Kind::Rollback => (tag::ROLLBACK, None),
            Kind::Discard(batch) => (tag::DISCARD, Some(batch)),
            Kind::Pull(batch) => (tag::PULL, Some(batch)),
        };
        let Batch { n, qid } = batch.unwrap_or(Batch { n: 0, qid: 0 });
        RequestImage { kind, n, qid }
    }

    pub fn kind(self) -> Option<Kind> {
        let batch = Batch { n: self.n, qid: self.qid };
        Some(match self.kind {
            tag::HELLO => Kind::Hello,
            tag::GOODBYE => Kind::Goodbye,
            tag::RESET => Kind::Reset,
            tag::RUN => Kind::Run,
            tag::BEGIN => Kind::Begin,
            tag::COMMIT => Kind::Commit,
            tag::ROLLBACK => Kind::Rollback,
            tag::DISCARD => Kind::Discard(batch),
            tag::PULL => Kind::Pull(batch),
            _ => return None,
        })
    }
}

fn span(message: &[u8], part: &[u8]) -> Span {
    Span { start: part.as_ptr() as usize - message.as_ptr() as usize, size: part.len() }
}

fn items(container: Container) -> Span {
    Span { start: container.start, size: container.size }
}

fn head(message: &[u8], value: Value) -> Head {
    match value {
        Value::Null => Head::Null,
        Value::Boolean(value) => Head::Boolean(value),
        Value::Integer(number) => Head::Integer(number),
        Value::Float(number) => Head::Float(number.to_bits()),
        Value::Bytes(bytes) => Head::Bytes(span(message, bytes)),
        Value::String(text) => Head::String(span(message, text.as_bytes())),
        Value::List(container) => Head::List(items(container)),
        Value::Dictionary(container) => Head::Dictionary(items(container)),
        Value::Structure { tag, fields } => Head::Structure(tag, items(fields)),
    }
}

fn asked(message: &[u8], request: Request) -> Asked {
    let text = |text: &str| span(message, text.as_bytes());
    let place = |container: Container| container.place;
    let transaction = |extra: request::Transaction| Transaction {
        bookmarks: extra.bookmarks.map(place),
        tx_timeout: extra.tx_timeout,
        tx_metadata: extra.tx_metadata.map(place),
        mode: extra.mode,
        db: extra.db.map(text),
    };
    match request {
        Request::Hello(hello) => Asked::Hello {
            user_agent: text(hello.user_agent),
            scheme: hello.scheme.map(text),
            principal: hello.principal.map(text),
            credentials: hello.credentials.map(text),
            routing: hello.routing.map(place),
        },
        Request::Run { query, parameters, extra } => {
            Asked::Run { query: text(query), parameters: parameters.place, extra: transaction(extra) }
        }
        Request::Begin(extra) => Asked::Begin(transaction(extra)),
        Request::Goodbye => Asked::Other(Kind::Goodbye),
        Request::Reset => Asked::Other(Kind::Reset),
        Request::Commit => Asked::Other(Kind::Commit),
        Request::Rollback => Asked::Other(Kind::Rollback),
        Request::Discard(batch) => Asked::Other(Kind::Discard(batch)),
        Request::Pull(batch) => Asked::Other(Kind::Pull(batch)),
    }
}
