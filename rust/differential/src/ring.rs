//! The record as it lies with the caller, the waiting requests around a ring: what is read out of it, and what a call may
//! change of it.

use crate::sides::{Call, Reply, RequestImage, STATES, tag};
pub use meulhaton::raw::{Control, Record};
use reference::connection::{Arrival, Connection, Turn};

/// How many places the ring has.
pub const PLACES: usize = 32;

pub const FRESH: Record = Record {
    control: Control { state: 0, in_flight: 0, first: 0, waiting: 0, opened: 0, next: 0, accepted: 0, sent: 0 },
    streams: [0; 8],
    kinds: [0; PLACES],
    counts: [0; PLACES],
    qids: [0; PLACES],
};

/// The place that is so many places behind the first.
pub fn place(record: &Record, behind: usize) -> usize {
    (record.control.first % PLACES + behind % PLACES) % PLACES
}

/// The places in which requests wait, in their order.
pub fn used(record: &Record) -> impl Iterator<Item = usize> + use<> {
    let first = record.control.first % PLACES;
    (first..first + record.control.waiting.min(PLACES)).map(|at| at % PLACES)
}

/// The other places.
pub fn unused(record: &Record) -> impl Iterator<Item = usize> + use<> {
    let last = record.control.first % PLACES + PLACES;
    (last - PLACES + record.control.waiting.min(PLACES)..last).map(|at| at % PLACES)
}

pub fn request_at(record: &Record, place: usize) -> RequestImage {
    RequestImage { kind: record.kinds[place], n: record.counts[place], qid: record.qids[place] }
}

pub fn put(record: &mut Record, place: usize, request: RequestImage) {
    (record.kinds[place], record.counts[place], record.qids[place]) = (request.kind, request.n, request.qid);
}

/// Whether a tag names no request, and is not what a fresh record has either.
pub fn is_wrong(kind: u8) -> bool {
    kind != 0 && !tag::ALL.contains(&kind)
}

/// The waiting requests, read around the ring.
pub fn waiting(record: &Record) -> impl Iterator<Item = RequestImage> + '_ {
    used(record).map(|place| request_at(record, place))
}

/// The numbers of the open streams.
pub fn streams(record: &Record) -> &[u64] {
    &record.streams[..record.control.opened.min(record.streams.len())]
}

/// The state, and the tag of the request that a take would look at.
pub fn turn(record: &Record) -> Option<(u8, u8)> {
    let first = waiting(record).next()?;
    (record.control.in_flight == 0).then_some((record.control.state, first.kind))
}

/// What of a record no list can say.
pub fn nameless(record: &Record) -> Option<&'static str> {
    let Control { state, in_flight, first, .. } = record.control;
    if usize::from(state) >= STATES.len() {
        return Some("no state: 24");
    }
    if in_flight > 1 {
        return Some("no truth: 24");
    }
    if first >= PLACES {
        return Some("no place: 24");
    }
    waiting(record).any(|request| request.kind().is_none()).then_some("no waiting kind: 24")
}

/// The reference's connection, with the waiting list read out of the ring; none where a number names nothing.
pub fn listed(record: &Record) -> Option<Connection> {
    if nameless(record).is_some() {
        return None;
    }
    let Control { state, in_flight, waiting: count, opened, next, accepted, sent, .. } = record.control;
    let mut connection = Connection {
        state: STATES[usize::from(state)],
        in_flight: in_flight == 1,
        waiting_count: count as u64,
        open: record.streams,
        open_count: opened as u64,
        next,
        accepted,
        sent,
        ..Connection::default()
    };
    for (kind, request) in connection.waiting.iter_mut().zip(waiting(record)) {
        *kind = request.kind()?;
    }
    Some(connection)
}

/// Whether a record that keeps the rules says what a connection keeps. The order of the open streams means nothing.
pub fn says(record: &Record, connection: &Connection) -> bool {
    let Control { state, in_flight, waiting: count, opened, next, accepted, sent, .. } = record.control;
    let sorted = |streams: &[u64]| {
        let mut streams = streams.to_vec();
        streams.sort_unstable();
        streams
    };
    STATES.get(usize::from(state)) == Some(&connection.state)
        && in_flight == u8::from(connection.in_flight)
        && (count as u64, opened as u64) == (connection.waiting_count, connection.open_count)
        && (next, accepted, sent) == (connection.next, connection.accepted, connection.sent)
        && sorted(streams(record)) == sorted(connection.streams())
        && waiting(record).map(RequestImage::kind).eq(connection.requests().iter().copied().map(Some))
}

/// What a call changed of a record that it may not change, byte for byte but for what the comparison with the list decides.
pub fn wrongly_changed(
    before: &Record,
    after: &Record,
    call: Call,
    answer: &reference::Result<Reply>,
) -> Option<&'static str> {
    let Ok(reply) = answer else {
        return (after != before).then_some("a refused call changes nothing");
    };
    let answered = matches!(reply, Reply::Reported(_) | Reply::Turned(Turn::Answered(_)));
    if after.control.first != place(before, usize::from(answered)) {
        return Some("the first place moves on by one with each summary, and with nothing else");
    }
    let mut stored = *before;
    if let (Call::Arrive(request), Reply::Arrived(Arrival::Queued)) = (call, reply) {
        put(&mut stored, place(before, before.control.waiting), request.kind().map(RequestImage::new)?);
    }
    if (after.kinds, after.counts, after.qids) != (stored.kinds, stored.counts, stored.qids) {
        return Some("a request that is queued is stored behind the last, and no other place changes");
    }
    let written = match call {
        Call::Report(_) => before.control.opened.max(after.control.opened).min(before.streams.len()),
        _ => 0,
    };
    (after.streams[written..] != before.streams[written..]).then_some("a report alone changes streams, those in use")
}
