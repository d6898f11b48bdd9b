//! The proved library, through its safe wrapper; what the wrapper cannot say, through the functions that it wraps.

use crate::ring;
use crate::ring::Record;
use crate::sides;
use crate::sides::{Asked, Call, Found, Head, Item, Keeper, Reply, RequestImage, Side, Span, Transaction};
use meulhaton as proved;
use reference::connection::{Answer, Arrival, Kind, Report, Turn};
use reference::frame::Frame;
use reference::handshake::Version;
use reference::pack::{Failure, Summary};
use reference::request::{Batch, Mode};
use reference::{Refusal, Result};

pub struct Library;

impl Side for Library {
    fn negotiate(&self, input: &[u8]) -> Result<Version> {
        let version = proved::negotiate(input).map_err(refusal)?;
        Ok(Version::ALL[usize::from(version.minor())])
    }

    fn read_frame(&self, version: Version, input: &[u8], buffer: &mut [u8]) -> Result<Frame> {
        match proved::read_frame(to_version(version), input, buffer).map_err(refusal)? {
            proved::Frame::KeepAlive { consumed } => {
                assert_eq!(consumed, 2);
                Ok(Frame::KeepAlive)
            }
            proved::Frame::Message { length, consumed } => Ok(Frame::Message { length, consumed }),
        }
    }

    fn write_chunks(&self, message: &[u8], chunk: usize, buffer: &mut [u8]) -> Result<usize> {
        proved::write_chunks(message, chunk, buffer).map_err(refusal)
    }

    fn read_message(&self, message: &[u8]) -> Result<Found> {
        proved::read_message(message).map(found).map_err(refusal)
    }

    fn read_value(&self, message: &[u8], at: usize, depth: usize) -> Result<Found> {
        proved::read_value(message, at, depth).map(found).map_err(refusal)
    }

    fn read_request(&self, version: Version, message: &[u8]) -> Result<Asked> {
        proved::read_request(to_version(version), message).map(asked).map_err(refusal)
    }

    fn pack(&self, item: Item, buffer: &mut [u8], at: usize) -> Result<usize> {
        match item {
            Item::Boolean(value) => proved::pack_boolean(value, buffer, at),
            Item::Integer(number) => proved::pack_integer(number, buffer, at),
            Item::String(text) => proved::pack_string(text, buffer, at),
            Item::Dictionary(entries) => proved::pack_dictionary(entries, buffer, at),
            Item::Structure(tag, fields) => proved::pack_structure(tag, fields, buffer, at),
            Item::Summary(summary) => proved::pack_summary(to_summary(summary), buffer, at),
        }
        .map_err(refusal)
    }
}

impl Keeper for Library {
    fn fresh(&self) -> Record {
        *proved::Connection::fresh().record()
    }

    fn call(&self, record: &mut Record, call: Call) -> Result<Reply> {
        let mut connection = proved::Connection::from_record(*record);
        let reply = match call {
            Call::Arrive(request) => arrive(&mut connection, request).map(|arrival| {
                Reply::Arrived(match arrival {
                    proved::Arrival::Queued => Arrival::Queued,
                    proved::Arrival::Closed => Arrival::Closed,
                })
            }),
            Call::Take => connection.take().map(|taken| Reply::Turned(turn(taken))),
            Call::Report(number) => report(&mut connection, number).map(|answered| Reply::Reported(answer(answered))),
            Call::Close => connection.close().map(|()| Reply::Closed),
        };
        *record = *connection.record();
        let requests = connection.requests().map(|request| request.map(kind));
        assert!(requests.eq(ring::waiting(record).map(RequestImage::kind)), "the wrapper reads {record:?}");
        reply.map_err(refusal)
    }
}

/// Through the wrapper where it can say the request, else through the function that it wraps.
fn arrive(
    connection: &mut proved::Connection,
    request: RequestImage,
) -> std::result::Result<proved::Arrival, proved::Refusal> {
    if let Some(kind) = request.kind().filter(|&kind| RequestImage::new(kind) == request) {
        return connection.arrive(to_request(kind));
    }
    let mut record = *connection.record();
    let request = proved::raw::RequestImage { kind: request.kind, n: request.n, qid: request.qid };
    // SAFETY: the pointer is that of one whole record, lent to this call alone.
    let reply = unsafe { proved::raw::meulhaton_arrive(&mut record, request) };
    *connection = proved::Connection::from_record(record);
    match (reply.refusal, reply.said) {
        (0, 1) => Ok(proved::Arrival::Queued),
        (0, 2) => Ok(proved::Arrival::Closed),
        (0, said) => panic!("arrive says {said}"),
        (number, _) => Err(proved::Refusal { number, place: reply.place as usize }),
    }
}

/// The same for an outcome. One that the wrapper cannot say has no answer.
fn report(connection: &mut proved::Connection, number: u8) -> std::result::Result<proved::Answered, proved::Refusal> {
    if let Some(outcome) = sides::report(number) {
        return connection.report(match outcome {
            Report::Success => proved::Outcome::Success,
            Report::SuccessWithMore => proved::Outcome::More,
            Report::Failure => proved::Outcome::Failure,
        });
    }
    let mut record = *connection.record();
    // SAFETY: the pointer is that of one whole record, lent to this call alone.
    let reply = unsafe { proved::raw::meulhaton_report(&mut record, proved::raw::OutcomeImage { number }) };
    *connection = proved::Connection::from_record(record);
    assert_ne!(reply.refusal, 0, "{number} names no outcome, and was answered");
    Err(proved::Refusal { number: reply.refusal, place: reply.place as usize })
}

fn refusal(refusal: proved::Refusal) -> Refusal {
    Refusal::at(refusal.number, refusal.place)
}

fn to_version(version: Version) -> proved::Version {
    match version {
        Version::V4_0 => proved::Version::V4_0,
        Version::V4_1 => proved::Version::V4_1,
        Version::V4_2 => proved::Version::V4_2,
    }
}

fn found(found: proved::Found) -> Found {
    let head = match found.head {
        proved::Head::Null => Head::Null,
        proved::Head::Boolean(value) => Head::Boolean(value),
        proved::Head::Integer(number) => Head::Integer(number),
        proved::Head::Float(bits) => Head::Float(bits),
        proved::Head::Bytes { start, size } => Head::Bytes(Span { start, size }),
        proved::Head::String { start, size } => Head::String(Span { start, size }),
        proved::Head::List { first, count } => Head::List(Span { start: first, size: count }),
        proved::Head::Dictionary { first, count } => Head::Dictionary(Span { start: first, size: count }),
        proved::Head::Structure { tag, first, count } => Head::Structure(tag, Span { start: first, size: count }),
    };
    Found { head, end: found.end }
}

fn span(span: proved::Span) -> Span {
    Span { start: span.start, size: span.size }
}

fn transaction(transaction: proved::Transaction) -> Transaction {
    Transaction {
        bookmarks: transaction.bookmarks,
        tx_timeout: transaction.tx_timeout,
        tx_metadata: transaction.tx_metadata,
        mode: transaction.mode.map(|mode| match mode {
            proved::Mode::Read => Mode::Read,
            proved::Mode::Write => Mode::Write,
        }),
        db: transaction.db.map(span),
    }
}

fn asked(read: proved::RequestRead) -> Asked {
    match (read.request, read.fields) {
        (proved::Request::Hello, proved::Fields::Hello { user_agent, scheme, principal, credentials, routing }) => {
            Asked::Hello {
                user_agent: span(user_agent),
                scheme: scheme.map(span),
                principal: principal.map(span),
                credentials: credentials.map(span),
                routing,
            }
        }
        (proved::Request::Run, proved::Fields::Run { query, parameters, transaction: extra }) => {
            Asked::Run { query: span(query), parameters, extra: transaction(extra) }
        }
        (proved::Request::Begin, proved::Fields::Begin(extra)) => Asked::Begin(transaction(extra)),
        (request, proved::Fields::None) => Asked::Other(kind(request)),
        (request, fields) => panic!("{request:?} with the fields of another: {fields:?}"),
    }
}

fn kind(request: proved::Request) -> Kind {
    match request {
        proved::Request::Hello => Kind::Hello,
        proved::Request::Goodbye => Kind::Goodbye,
        proved::Request::Reset => Kind::Reset,
        proved::Request::Run => Kind::Run,
        proved::Request::Begin => Kind::Begin,
        proved::Request::Commit => Kind::Commit,
        proved::Request::Rollback => Kind::Rollback,
        proved::Request::Discard { n, qid } => Kind::Discard(Batch { n, qid }),
        proved::Request::Pull { n, qid } => Kind::Pull(Batch { n, qid }),
    }
}

fn to_request(kind: Kind) -> proved::Request {
    match kind {
        Kind::Hello => proved::Request::Hello,
        Kind::Goodbye => proved::Request::Goodbye,
        Kind::Reset => proved::Request::Reset,
        Kind::Run => proved::Request::Run,
        Kind::Begin => proved::Request::Begin,
        Kind::Commit => proved::Request::Commit,
        Kind::Rollback => proved::Request::Rollback,
        Kind::Discard(Batch { n, qid }) => proved::Request::Discard { n, qid },
        Kind::Pull(Batch { n, qid }) => proved::Request::Pull { n, qid },
    }
}

fn summary(summary: proved::Summary) -> Summary {
    match summary {
        proved::Summary::Ignored => Summary::Ignored,
        proved::Summary::Success => Summary::Success,
        proved::Summary::HasMore(more) => Summary::HasMore(more),
        proved::Summary::Stream(qid) => Summary::Qid(qid),
        proved::Summary::Failure(failure) => Summary::Failure(match failure {
            proved::Failure::StreamsFull => Failure::StreamFull,
            proved::Failure::StreamUnknown => Failure::StreamUnknown,
            proved::Failure::EngineFailed => Failure::EngineFailed,
        }),
    }
}

fn to_summary(summary: Summary) -> proved::Summary {
    match summary {
        Summary::Ignored => proved::Summary::Ignored,
        Summary::Success => proved::Summary::Success,
        Summary::HasMore(more) => proved::Summary::HasMore(more),
        Summary::Qid(qid) => proved::Summary::Stream(qid),
        Summary::Failure(failure) => proved::Summary::Failure(match failure {
            Failure::StreamFull => proved::Failure::StreamsFull,
            Failure::StreamUnknown => proved::Failure::StreamUnknown,
            Failure::EngineFailed => proved::Failure::EngineFailed,
        }),
    }
}

fn answer(answered: proved::Answered) -> Answer {
    Answer { number: answered.number, summary: summary(answered.summary) }
}

fn turn(taken: proved::Taken) -> Turn {
    match taken {
        proved::Taken::Idle => Turn::Idle,
        proved::Taken::Closed => Turn::Closed,
        proved::Taken::Handed { request, number } => Turn::Handed { kind: kind(request), number },
        proved::Taken::Answered(answered) => Turn::Answered(answer(answered)),
    }
}
