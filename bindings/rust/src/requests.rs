//! Requests: what a message asks for, with its fields.
use crate::connection::Request;
use crate::raw;
use crate::refusal::{unless_refused, Refusal};
use crate::wire::Version;

/// The content of a String: `size` bytes of the message from `start` on.
#[derive(Clone, Copy, Debug, PartialEq, Eq)]
pub struct Span {
    pub start: usize,
    pub size: usize,
}

/// How a transaction is going to access the data.
#[derive(Clone, Copy, Debug, PartialEq, Eq)]
pub enum Mode {
    Read,
    Write,
}

/// What RUN and BEGIN say of their transaction. A List or a Dictionary is given by the offset of its marker, for `read_value`.
#[derive(Clone, Copy, Debug, PartialEq, Eq)]
pub struct Transaction {
    pub bookmarks: Option<usize>,
    pub tx_timeout: Option<i64>,
    pub tx_metadata: Option<usize>,
    pub mode: Option<Mode>,
    pub db: Option<Span>,
}

/// The fields of a request.
#[derive(Clone, Copy, Debug, PartialEq, Eq)]
pub enum Fields {
    Hello {
        user_agent: Span,
        scheme: Option<Span>,
        principal: Option<Span>,
        credentials: Option<Span>,
        routing: Option<usize>,
    },
    Run {
        query: Span,
        parameters: usize,
        transaction: Transaction,
    },
    Begin(Transaction),
    /// The other requests have none but n and qid, which `Request` carries.
    None,
}

/// A request, as `Connection::arrive` takes it, and its fields.
#[derive(Clone, Copy, Debug, PartialEq, Eq)]
pub struct RequestRead {
    pub request: Request,
    pub fields: Fields,
}

fn span(text: raw::TextImage) -> Span {
    Span { start: text.start as usize, size: text.size as usize }
}

fn text(text: raw::TextImage) -> Option<Span> {
    (text.present == 1).then(|| span(text))
}

fn place(place: raw::PlaceImage) -> Option<usize> {
    (place.present == 1).then_some(place.offset as usize)
}

fn transaction(t: raw::TransactionImage) -> Transaction {
    let mode = match t.mode {
        0 => None,
        1 => Some(Mode::Read),
        2 => Some(Mode::Write),
        _ => unreachable!("a mode is absent, r or w"),
    };
    Transaction {
        bookmarks: place(t.bookmarks),
        tx_timeout: (t.tx_timeout.present == 1).then_some(t.tx_timeout.value),
        tx_metadata: place(t.tx_metadata),
        mode,
        db: text(t.db),
    }
}

fn fields(request: Request, f: raw::FieldsImage) -> Fields {
    match request {
        Request::Hello => Fields::Hello {
            user_agent: span(f.hello.user_agent),
            scheme: text(f.hello.scheme),
            principal: text(f.hello.principal),
            credentials: text(f.hello.credentials),
            routing: place(f.hello.routing),
        },
        Request::Run => Fields::Run {
            query: span(f.run.query),
            parameters: f.run.parameters.offset as usize,
            transaction: transaction(f.transaction),
        },
        Request::Begin => Fields::Begin(transaction(f.transaction)),
        _ => Fields::None,
    }
}

/// What a message asks for.
///
/// Refuses as `read_message` does, then with 14 where it is no known request structure, with 15 where it has another number of fields,
/// with 26 at the leftmost field of the wrong kind, and for the first entry that is wrong, in document 01's checking order, with 25 at
/// the Dictionary where it is required and absent or Null, with 26 at the entry where its kind is wrong (of bookmarks, at the first item
/// that is no String), and with 27 at the entry where its number or word is out of range. The connection is to be closed after each of
/// them.
pub fn read_request(version: Version, message: &[u8]) -> Result<RequestRead, Refusal> {
    // SAFETY: the pointer and the length are those of one slice.
    let answer = unsafe { raw::meulhaton_read_request(version.minor(), message.as_ptr(), message.len()) };
    unless_refused(answer.refusal, answer.place, || {
        let request = Request::named(answer.request);
        RequestRead { request, fields: fields(request, answer.fields) }
    })
}
