//! The connection record, and the four calls on it.
use crate::raw;
use crate::raw::{Control, Record, RequestImage, SummaryImage};
use crate::refusal::{unless_refused, Refusal};
use crate::values::packed;

/// Where a connection stands.
#[derive(Clone, Copy, Debug, PartialEq, Eq, Hash)]
pub enum State {
    Connected,
    Ready,
    Streaming,
    TxReady,
    TxStreaming,
    Failed,
    Interrupted,
    Defunct,
}

/// A request as it arrives. Only DISCARD and PULL carry numbers: n records, or -1 for all, of the stream qid, or -1 for the latest.
#[derive(Clone, Copy, Debug, PartialEq, Eq, Hash)]
pub enum Request {
    Hello,
    Goodbye,
    Reset,
    Run,
    Begin,
    Commit,
    Rollback,
    Discard { n: i64, qid: i64 },
    Pull { n: i64, qid: i64 },
}

impl Request {
    pub(crate) fn to_image(self) -> RequestImage {
        let bare = |kind| RequestImage { kind, n: 0, qid: 0 };
        match self {
            Request::Hello => bare(0x01),
            Request::Goodbye => bare(0x02),
            Request::Reset => bare(0x0F),
            Request::Run => bare(0x10),
            Request::Begin => bare(0x11),
            Request::Commit => bare(0x12),
            Request::Rollback => bare(0x13),
            Request::Discard { n, qid } => RequestImage { kind: 0x2F, n, qid },
            Request::Pull { n, qid } => RequestImage { kind: 0x3F, n, qid },
        }
    }

    /// `None` where the kind names no request.
    pub(crate) fn from_image(image: RequestImage) -> Option<Request> {
        let (n, qid) = (image.n, image.qid);
        Some(match image.kind {
            0x01 => Request::Hello,
            0x02 => Request::Goodbye,
            0x0F => Request::Reset,
            0x10 => Request::Run,
            0x11 => Request::Begin,
            0x12 => Request::Commit,
            0x13 => Request::Rollback,
            0x2F => Request::Discard { n, qid },
            0x3F => Request::Pull { n, qid },
            _ => return None,
        })
    }

    /// A request that the library answers with.
    pub(crate) fn named(image: RequestImage) -> Request {
        Request::from_image(image).expect("the library names known requests only")
    }
}

/// How the engine ended a request: with success, with success and more to fetch (PULL and DISCARD only), or with failure.
#[derive(Clone, Copy, Debug, PartialEq, Eq, Hash)]
pub enum Outcome {
    Success,
    More,
    Failure,
}

/// The texts of a FAILURE: "Parts.Stream.Full", "Parts.Stream.Unknown" and "Parts.Engine.Failed".
#[derive(Clone, Copy, Debug, PartialEq, Eq, Hash)]
pub enum Failure {
    StreamsFull,
    StreamUnknown,
    EngineFailed,
}

/// A summary: IGNORED, SUCCESS with nothing, with has_more or with the qid of the stream it opened, or FAILURE.
#[derive(Clone, Copy, Debug, PartialEq, Eq, Hash)]
pub enum Summary {
    Ignored,
    Success,
    HasMore(bool),
    Stream(u32),
    Failure(Failure),
}

impl Summary {
    fn to_image(self) -> SummaryImage {
        let (kind, value) = match self {
            Summary::Ignored => (1, 0),
            Summary::Success => (2, 0),
            Summary::HasMore(more) => (3, more as u32),
            Summary::Stream(qid) => (4, qid),
            Summary::Failure(Failure::StreamsFull) => (5, 0),
            Summary::Failure(Failure::StreamUnknown) => (6, 0),
            Summary::Failure(Failure::EngineFailed) => (7, 0),
        };
        SummaryImage { kind, value }
    }

    fn from_image(image: SummaryImage) -> Summary {
        match image.kind {
            1 => Summary::Ignored,
            2 => Summary::Success,
            3 => Summary::HasMore(image.value == 1),
            4 => Summary::Stream(image.value),
            5 => Summary::Failure(Failure::StreamsFull),
            6 => Summary::Failure(Failure::StreamUnknown),
            7 => Summary::Failure(Failure::EngineFailed),
            _ => unreachable!("the library names known summaries only"),
        }
    }
}

/// Packs a summary from `at` on, and says the offset past it. 60 bytes hold every summary. Refuses with 21 where it does not fit, and
/// has then written nothing.
pub fn pack_summary(summary: Summary, out: &mut [u8], at: usize) -> Result<usize, Refusal> {
    // SAFETY: the pointer and the length are those of one slice.
    packed(unsafe { raw::meulhaton_pack_summary(summary.to_image(), out.as_mut_ptr(), out.len(), at) })
}

/// What `arrive` answers.
#[derive(Clone, Copy, Debug, PartialEq, Eq)]
pub enum Arrival {
    Queued,
    /// A RESET in CONNECTED: it was accepted, and it closed the connection.
    Closed,
}

/// What `take` answers.
#[derive(Clone, Copy, Debug, PartialEq, Eq)]
pub enum Taken {
    /// None waits, or one is in flight.
    Idle,
    /// The connection is DEFUNCT now, and nothing is to be sent for it.
    Closed,
    /// For the engine, which is to report on it.
    Handed { request: Request, number: u64 },
    /// For the client.
    Answered(Answered),
}

/// For the client: the summary of the request with this number, from 1.
#[derive(Clone, Copy, Debug, PartialEq, Eq)]
pub struct Answered {
    pub summary: Summary,
    pub number: u64,
}

/// The record of one connection. A refused call leaves it bit for bit as it was.
#[derive(Clone, Debug, PartialEq, Eq)]
pub struct Connection {
    record: Record,
}

impl Connection {
    /// A fresh record: CONNECTED, with nothing counted, waiting or open.
    pub fn fresh() -> Connection {
        // SAFETY: nothing is lent.
        Connection { record: unsafe { raw::meulhaton_fresh() } }
    }

    /// A record of any numbers. The calls refuse with 24 one that breaks a standing rule, among them that its state, in_flight and waiting
    /// requests name something.
    pub fn from_record(record: Record) -> Connection {
        Connection { record }
    }

    /// The record's numbers.
    pub fn record(&self) -> &Record {
        &self.record
    }

    /// Where the connection stands; `None` where the number names no state, as only `from_record` can make it.
    pub fn state(&self) -> Option<State> {
        Some(match self.record.control.state {
            0 => State::Connected,
            1 => State::Ready,
            2 => State::Streaming,
            3 => State::TxReady,
            4 => State::TxStreaming,
            5 => State::Failed,
            6 => State::Interrupted,
            7 => State::Defunct,
            _ => return None,
        })
    }

    /// How many requests wait, the one in flight included.
    pub fn waiting(&self) -> usize {
        self.record.control.waiting
    }

    /// The requests that wait, in their order, the one in flight first; `None` for a number that names no request, as only `from_record` can
    /// make it.
    pub fn requests(&self) -> impl Iterator<Item = Option<Request>> + '_ {
        let Record { control: Control { first, waiting, .. }, kinds, counts, qids, .. } = &self.record;
        let places = (0..*waiting.min(&32)).map(|behind| first.wrapping_add(behind) % 32);
        places.map(|place| Request::from_image(RequestImage { kind: kinds[place], n: counts[place], qid: qids[place] }))
    }

    /// A request has come. A RESET interrupts what is going on at once. In CONNECTED, until HELLO was reported a success, it closes the
    /// connection, and a HELLO that waits goes unanswered: give HELLO its turn before what comes behind it arrives.
    ///
    /// Refuses, in this order, with 24 where the record breaks a standing rule, 18 where it is DEFUNCT, 27 where n or qid is out of its
    /// range, 20 where 4,294,967,295 requests were accepted, and 17 where 32 wait: then take first, and do not close.
    pub fn arrive(&mut self, request: Request) -> Result<Arrival, Refusal> {
        // SAFETY: the pointer is that of one whole record, lent to this call alone.
        let reply = unsafe { raw::meulhaton_arrive(&mut self.record, request.to_image()) };
        unless_refused(reply.refusal, reply.place, || match reply.said {
            1 => Arrival::Queued,
            2 => Arrival::Closed,
            _ => unreachable!("arrive answers queued or closed"),
        })
    }

    /// The turn of the first request that waits. In FAILED, which a failure leads to, and in INTERRUPTED, while a RESET waits, the requests
    /// from RUN to PULL are answered with IGNORED and not handed over: a client may have sent them before it knew of the failure.
    ///
    /// Refuses with 24, then with 18.
    pub fn take(&mut self) -> Result<Taken, Refusal> {
        // SAFETY: the pointer is that of one whole record, lent to this call alone.
        let reply = unsafe { raw::meulhaton_take(&mut self.record) };
        unless_refused(reply.refusal, reply.place, || match reply.said {
            2 => Taken::Closed,
            3 => Taken::Idle,
            4 => Taken::Handed { request: Request::named(reply.request), number: reply.number },
            5 => Taken::Answered(answered(reply)),
            _ => unreachable!("take answers idle, closed, handed or answered"),
        })
    }

    /// The engine's outcome for the request in flight. After a HELLO that failed the connection is DEFUNCT; after any other failure it is
    /// FAILED, or still INTERRUPTED where a RESET waits, and a RESET leads back to READY.
    ///
    /// Refuses with 24, then with 18, then with 19 where no request is in flight, or where there is more for a request that has none.
    pub fn report(&mut self, outcome: Outcome) -> Result<Answered, Refusal> {
        let outcome = raw::OutcomeImage { number: outcome as u8 };
        // SAFETY: the pointer is that of one whole record, lent to this call alone.
        let reply = unsafe { raw::meulhaton_report(&mut self.record, outcome) };
        unless_refused(reply.refusal, reply.place, || answered(reply))
    }

    /// Ends the connection: nothing waits afterwards, and every further call is refused with 18.
    ///
    /// Refuses with 24, then with 18.
    pub fn close(&mut self) -> Result<(), Refusal> {
        // SAFETY: the pointer is that of one whole record, lent to this call alone.
        let reply = unsafe { raw::meulhaton_close(&mut self.record) };
        unless_refused(reply.refusal, reply.place, || ())
    }
}

fn answered(reply: raw::Reply) -> Answered {
    Answered { summary: Summary::from_image(reply.summary), number: reply.number }
}
