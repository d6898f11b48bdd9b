//! Each function of the wrapper on cases of document 01. What is refused has to leave the buffer and the record as they were.
use meulhaton::raw::{Control, OutcomeImage, Record, Reply, RequestImage, SummaryImage};
use meulhaton::*;
use std::mem::{offset_of, size_of};

fn refused(number: u8, place: usize) -> Refusal {
    Refusal { number, place }
}

#[test]
fn texts() {
    let text = |number| refused(number, 0).text();
    let none = text(0);
    let numbers: Vec<u8> = (0..=u8::MAX).filter(|&number| text(number) != none).collect();
    assert!(numbers.iter().copied().eq((1..=15).chain(17..=27)));
    assert_eq!((text(16), text(28)), (none, none));
    for (i, &number) in numbers.iter().enumerate() {
        assert!((1..80).contains(&text(number).len()) && !text(number).ends_with('.'), "{number}");
        assert!(numbers[..i].iter().all(|&other| text(other) != text(number)), "{number}");
    }
    assert_eq!(text(25), "a required entry is missing");
    assert_eq!(text(26), "a field or an entry is of the wrong kind, such as a text in place of a number");
    assert_eq!(text(27), "a number is out of its range, or a word is none of those allowed");
    assert_eq!(refused(25, 2).to_string(), "25 at 2: a required entry is missing");
    // C has the same text for no refusal.
    assert!(include_str!("../../c/meulhaton.h").contains(&format!("return \"{none}\";")));
}

#[test]
fn what_closes() {
    let closing = (0..=u8::MAX).filter(|&number| refused(number, 0).closes());
    assert!(closing.eq((5..=15).chain(25..=27)));
}

#[test]
fn handshake() {
    let mut hello = vec![0x60, 0x60, 0xB0, 0x17, 0, 0, 3, 4, 0, 0, 1, 4, 0, 0, 0, 4, 0, 0, 0, 0];
    assert_eq!(negotiate(&hello), Ok(Version::V4_1));
    assert_eq!(Version::V4_1.to_bytes(), [0, 0, 1, 4]);
    assert_eq!(negotiate(&[]), Err(refused(1, 0)));
    assert_eq!(negotiate(&hello[..19]), Err(refused(1, 0)));
    assert_eq!(negotiate(&[0x60, 0x61]), Err(refused(2, 0)));
    hello[10] = 9;
    hello[15] = 5;
    assert_eq!(negotiate(&hello), Err(refused(3, 0)));
}

#[test]
fn frames() {
    let mut buffer = [0xEE; 4];
    assert_eq!(read_frame(Version::V4_0, &[], &mut buffer), Err(refused(4, 0)));
    assert_eq!(read_frame(Version::V4_0, &[0, 0], &mut buffer), Err(refused(5, 0)));
    assert_eq!(read_frame(Version::V4_1, &[0, 0], &mut buffer), Ok(Frame::KeepAlive { consumed: 2 }));
    assert_eq!(read_frame(Version::V4_2, &[0x40, 1], &mut buffer), Err(refused(6, 0)));
    assert_eq!(read_frame(Version::V4_2, &[0, 5], &mut buffer), Err(refused(21, 0)));
    assert_eq!(buffer, [0xEE; 4]);
    assert_eq!(
        read_frame(Version::V4_1, &[0, 1, 0xC0, 0, 0, 7], &mut buffer),
        Ok(Frame::Message { length: 1, consumed: 5 })
    );
    assert_eq!(buffer, [0xC0, 0xEE, 0xEE, 0xEE]);
    assert_eq!(unsafe { raw::meulhaton_read_frame(3, [0u8, 0].as_ptr(), 2, buffer.as_mut_ptr(), 4) }.refusal, 24);
}

#[test]
fn chunks() {
    let mut out = [0xEE; 10];
    assert_eq!(write_chunks(&[1, 2, 3], 2, &mut out), Ok(9));
    assert_eq!(out, [0, 2, 1, 2, 0, 1, 3, 0, 0, 0xEE]);
    let before = out;
    assert_eq!(write_chunks(&[], 2, &mut out), Err(refused(22, 0)));
    assert_eq!(write_chunks(&[1], 0, &mut out), Err(refused(22, 0)));
    assert_eq!(write_chunks(&[1], 65_536, &mut out), Err(refused(22, 0)));
    assert_eq!(write_chunks(&[1; 16_385], 2, &mut out), Err(refused(6, 0)));
    assert_eq!(write_chunks(&[1; 7], 7, &mut out), Err(refused(21, 0)));
    assert_eq!(out, before);
}

#[test]
fn values() {
    let head = |message: &[u8]| read_message(message).map(|found| found.head);
    assert_eq!(head(&[0xC0]), Ok(Head::Null));
    assert_eq!(head(&[0xC2]), Ok(Head::Boolean(false)));
    assert_eq!(head(&[0xC3]), Ok(Head::Boolean(true)));
    assert_eq!(head(&[0x7F]), Ok(Head::Integer(127)));
    assert_eq!(head(&[0xF0]), Ok(Head::Integer(-16)));
    assert_eq!(head(&[0xC8, 0x80]), Ok(Head::Integer(-128)));
    assert_eq!(head(&[0xCB, 0x80, 0, 0, 0, 0, 0, 0, 0]), Ok(Head::Integer(i64::MIN)));
    assert_eq!(head(&[0xC1, 0x3F, 0xF0, 0, 0, 0, 0, 0, 0]), Ok(Head::Float(1f64.to_bits())));
    assert_eq!(head(&[0xCC, 1, 9]), Ok(Head::Bytes { start: 2, size: 1 }));
    assert_eq!(head(&[0x82, 0xC3, 0xA9]), Ok(Head::String { start: 1, size: 2 }));
    assert_eq!(head(&[0x92, 1, 2]), Ok(Head::List { first: 1, count: 2 }));
    assert_eq!(head(&[0xA1, 0x81, 0x61, 1]), Ok(Head::Dictionary { first: 1, count: 1 }));
    assert_eq!(head(&[0xB1, 0x70, 0xA0]), Ok(Head::Structure { tag: 0x70, first: 2, count: 1 }));
    assert_eq!(read_message(&[]), Err(refused(7, 0)));
    assert_eq!(read_message(&[0xEF]), Err(refused(8, 0)));
    assert_eq!(read_message(&[0xC0, 0xC0]), Err(refused(13, 1)));
    assert_eq!(read_message(&[0x82, 0xC3]), Err(refused(7, 0)));
    assert_eq!(read_message(&[0x81, 0x80]), Err(refused(10, 0)));
    assert_eq!(read_message(&[0xA2, 0x81, 0x61, 1, 0xD0, 1, 0x61, 2]), Err(refused(12, 4)));
    assert_eq!(read_message(&[0x91; 17]), Err(refused(9, 16)));
    assert_eq!(read_message(&[0; 16_385]), Err(refused(6, 0)));
    assert_eq!(read_value(&[0x92, 1, 2], 2, 0), Ok(Found { head: Head::Integer(2), end: 3 }));
    assert_eq!(read_value(&[0x92, 1, 2], 0, 0), Err(refused(9, 0)));
}

/// Sixteen Dictionaries inside each other take the most stack, with few keys or with many.
#[test]
fn stack() {
    for count in [1u8, 60, 65, 200] {
        let mut message = vec![0xC0];
        for _ in 0..16 {
            let mut outer = vec![0xD8, count];
            for key in 0..count {
                outer.extend([0x82, 1 + key / 100, 1 + key % 100]);
                if key + 1 < count {
                    outer.push(0xC0);
                }
            }
            outer.extend(message);
            message = outer;
        }
        let read = move || assert!(read_message(&message).is_ok());
        std::thread::Builder::new().stack_size(64 << 10).spawn(read).unwrap().join().unwrap();
    }
}

#[test]
fn packing() {
    let mut out = [0xEE; 8];
    assert_eq!(pack_integer(128, &mut out, 1), Ok(4));
    assert_eq!(out, [0xEE, 0xC9, 0, 0x80, 0xEE, 0xEE, 0xEE, 0xEE]);
    assert_eq!(pack_integer(-17, &mut out, 4), Ok(6));
    assert_eq!(pack_boolean(true, &mut out, 6), Ok(7));
    assert_eq!(out, [0xEE, 0xC9, 0, 0x80, 0xC8, 0xEF, 0xC3, 0xEE]);
    assert_eq!(pack_string("é".as_bytes(), &mut out, 0), Ok(3));
    let before = out;
    assert_eq!(pack_integer(128, &mut out, 6), Err(refused(21, 0)));
    assert_eq!(pack_boolean(true, &mut out, usize::MAX), Err(refused(21, 0)));
    assert_eq!(pack_string(&[0x80], &mut out, 0), Err(refused(10, 0)));
    assert_eq!(pack_string(&[0; 16_385], &mut out, 0), Err(refused(6, 0)));
    assert_eq!(out, before);
    assert_eq!(pack_summary(Summary::Stream(5), &mut out, 0), Ok(8));
    assert_eq!(out, [0xB1, 0x70, 0xA1, 0x83, 0x71, 0x69, 0x64, 0x05]);
    assert_eq!(pack_summary(Summary::HasMore(false), &mut out, 0), Err(refused(21, 0)));
    assert_eq!(out, [0xB1, 0x70, 0xA1, 0x83, 0x71, 0x69, 0x64, 0x05]);
    assert_eq!(pack_structure(0x70, 1, &mut out, 0), Ok(2));
    assert_eq!(pack_dictionary(16, &mut out, 2), Ok(4));
    assert_eq!(out, [0xB1, 0x70, 0xD8, 16, 0x71, 0x69, 0x64, 0x05]);
    assert_eq!(pack_structure(0x70, 16, &mut out, 0), Err(refused(6, 0)));
    assert_eq!(pack_dictionary(16_385, &mut out, 0), Err(refused(6, 0)));
    assert_eq!(pack_dictionary(1, &mut out, 8), Err(refused(21, 0)));
    let mut long = [0; 60];
    assert_eq!(pack_summary(Summary::Failure(Failure::StreamUnknown), &mut long, 0), Ok(60));
    for (kind, value) in [(0, 0), (8, 0), (1, 1), (3, 2), (7, 1)] {
        let answer = unsafe { raw::meulhaton_pack_summary(raw::SummaryImage { kind, value }, out.as_mut_ptr(), 8, 0) };
        assert_eq!(answer, raw::Output { refusal: 24, place: 0, end: 0 });
    }
}

#[test]
fn requests() {
    let read = |message: &[u8]| read_request(Version::V4_1, message);
    let hello = b"\xB1\x01\xA2\x8Auser_agent\x83P/1\x87routing\xA0";
    let fields = Fields::Hello {
        user_agent: Span { start: 15, size: 3 },
        scheme: None,
        principal: None,
        credentials: None,
        routing: Some(26),
    };
    assert_eq!(read(hello), Ok(RequestRead { request: Request::Hello, fields }));
    let run = b"\xB3\x10\x81R\xA0\xA2\x84mode\x81w\x8Atx_timeout\x05";
    let transaction =
        Transaction { bookmarks: None, tx_timeout: Some(5), tx_metadata: None, mode: Some(Mode::Write), db: None };
    let fields = Fields::Run { query: Span { start: 3, size: 1 }, parameters: 4, transaction };
    assert_eq!(read(run), Ok(RequestRead { request: Request::Run, fields }));
    let absent = Transaction { bookmarks: None, tx_timeout: None, tx_metadata: None, mode: None, db: None };
    assert_eq!(read(b"\xB1\x11\xA0"), Ok(RequestRead { request: Request::Begin, fields: Fields::Begin(absent) }));
    let pull = Request::Pull { n: -1, qid: -1 };
    assert_eq!(read(b"\xB1\x3F\xA1\x81n\xFF"), Ok(RequestRead { request: pull, fields: Fields::None }));
    assert_eq!(read(b"\xB0\x02"), Ok(RequestRead { request: Request::Goodbye, fields: Fields::None }));
}

#[test]
fn wrong_requests() {
    let read = |message: &[u8]| read_request(Version::V4_1, message);
    assert_eq!(read(b"\xB1\x3F\xA0"), Err(refused(25, 2)));
    assert_eq!(read(b"\xB1\x3F\xA1\x81n\xC0"), Err(refused(25, 2)));
    assert_eq!(read(b"\xB1\x3F\xA1\x81n\x811"), Err(refused(26, 5)));
    assert_eq!(read(b"\xB1\x3F\xC0"), Err(refused(26, 2)));
    assert_eq!(read(b"\xB3\x10\xC0\xA0\xA1\x84mode\x81x"), Err(refused(26, 2)));
    assert_eq!(read(b"\xB1\x11\xA1\x89bookmarks\x92\x81a\xC0"), Err(refused(26, 16)));
    assert_eq!(read(b"\xB1\x3F\xA1\x81n\x00"), Err(refused(27, 5)));
    assert_eq!(read(b"\xB1\x3F\xA2\x81n\x00\x83qid\xC3"), Err(refused(27, 5)));
    assert_eq!(read(b"\xB1\x11\xA1\x84mode\x80"), Err(refused(27, 8)));
    assert_eq!(read(b"\xB1\x02\xA0"), Err(refused(15, 0)));
    assert_eq!(read(b"\xB0\x55"), Err(refused(14, 0)));
    assert_eq!(read(b"\xB0"), Err(refused(7, 0)));
    assert_eq!(unsafe { raw::meulhaton_read_request(9, b"\xB0\x02".as_ptr(), 2) }.refusal, 24);
}

fn ready() -> Connection {
    let mut c = Connection::fresh();
    assert_eq!(c.arrive(Request::Hello), Ok(Arrival::Queued));
    assert_eq!(c.take(), Ok(Taken::Handed { request: Request::Hello, number: 1 }));
    assert_eq!(c.report(Outcome::Success), Ok(Answered { summary: Summary::Success, number: 1 }));
    assert_eq!(c.state(), Some(State::Ready));
    c
}

#[test]
fn transaction() {
    let mut c = ready();
    let pull = Request::Pull { n: 10, qid: 0 };
    for request in [Request::Begin, Request::Run, pull, Request::Commit, Request::Goodbye] {
        assert_eq!(c.arrive(request), Ok(Arrival::Queued));
    }
    assert_eq!(c.waiting(), 5);
    for (request, number, outcome, summary) in [
        (Request::Begin, 2, Outcome::Success, Summary::Success),
        (Request::Run, 3, Outcome::Success, Summary::Stream(0)),
        (pull, 4, Outcome::Success, Summary::HasMore(false)),
        (Request::Commit, 5, Outcome::Failure, Summary::Failure(Failure::EngineFailed)),
    ] {
        assert_eq!(c.take(), Ok(Taken::Handed { request, number }));
        assert_eq!(c.take(), Ok(Taken::Idle));
        assert_eq!(c.report(outcome), Ok(Answered { summary, number }));
    }
    assert_eq!(c.state(), Some(State::Failed));
    assert_eq!(c.take(), Ok(Taken::Closed));
    assert_eq!(c.state(), Some(State::Defunct));
    assert_eq!(c.close(), Err(refused(18, 0)));
}

/// BEGIN, RUN, PULL and COMMIT in one go, and the BEGIN fails: the rest is ignored, and after a RESET a BEGIN passes.
#[test]
fn begin_fails_in_a_pipeline() {
    let mut c = ready();
    let pull = Request::Pull { n: -1, qid: -1 };
    for request in [Request::Begin, Request::Run, pull, Request::Commit] {
        assert_eq!(c.arrive(request), Ok(Arrival::Queued));
    }
    assert_eq!(c.take(), Ok(Taken::Handed { request: Request::Begin, number: 2 }));
    let summary = Summary::Failure(Failure::EngineFailed);
    assert_eq!(c.report(Outcome::Failure), Ok(Answered { summary, number: 2 }));
    for number in 3..=5 {
        assert_eq!(c.take(), Ok(Taken::Answered(Answered { summary: Summary::Ignored, number })));
        assert_eq!(c.state(), Some(State::Failed));
    }
    assert_eq!(c.take(), Ok(Taken::Idle));
    assert_eq!(c.arrive(Request::Reset), Ok(Arrival::Queued));
    assert_eq!(c.take(), Ok(Taken::Answered(Answered { summary: Summary::Success, number: 6 })));
    assert_eq!(c.state(), Some(State::Ready));
    assert_eq!(c.arrive(Request::Begin), Ok(Arrival::Queued));
    assert_eq!(c.take(), Ok(Taken::Handed { request: Request::Begin, number: 7 }));
    assert_eq!(c.report(Outcome::Success), Ok(Answered { summary: Summary::Success, number: 7 }));
    assert_eq!(c.state(), Some(State::TxReady));
}

#[test]
fn refused_calls_leave_the_record() {
    let mut c = ready();
    let before = c.clone();
    assert_eq!(c.arrive(Request::Pull { n: 0, qid: -1 }), Err(refused(27, 0)));
    assert_eq!(c.report(Outcome::Success), Err(refused(19, 0)));
    assert_eq!(c, before);
    for _ in 0..32 {
        assert_eq!(c.arrive(Request::Run), Ok(Arrival::Queued));
    }
    let full = c.clone();
    assert_eq!(c.arrive(Request::Run), Err(refused(17, 0)));
    assert_eq!(c, full);
    assert_eq!(c.close(), Ok(()));
    assert_eq!(c.waiting(), 0);
}

/// What every kind and every outcome that names nothing is refused with.
fn unnamed(record: &Record) -> (u8, u8) {
    let no_request = RequestImage { kind: 0, n: 0, qid: 0 };
    let refused = |refusal| Reply {
        refusal,
        said: 0,
        summary: SummaryImage { kind: 0, value: 0 },
        place: 0,
        number: 0,
        request: no_request,
    };
    let mut after = *record;
    let first = unsafe { raw::meulhaton_arrive(&mut after, no_request) }.refusal;
    let second = unsafe { raw::meulhaton_report(&mut after, OutcomeImage { number: 3 }) }.refusal;
    for number in 0..=u8::MAX {
        if ![0x01, 0x02, 0x0F, 0x10, 0x11, 0x12, 0x13, 0x2F, 0x3F].contains(&number) {
            let request = RequestImage { kind: number, n: 1, qid: -1 };
            assert_eq!(unsafe { raw::meulhaton_arrive(&mut after, request) }, refused(first));
        }
        if number > 2 {
            assert_eq!(unsafe { raw::meulhaton_report(&mut after, OutcomeImage { number }) }, refused(second));
        }
    }
    assert_eq!(&after, record);
    (first, second)
}

#[test]
fn unnamed_kinds_and_outcomes() {
    let mut c = ready();
    assert_eq!(unnamed(c.record()), (27, 19));
    for _ in 0..32 {
        assert_eq!(c.arrive(Request::Run), Ok(Arrival::Queued));
    }
    assert_eq!(unnamed(c.record()), (27, 19));
    assert_eq!(c.take(), Ok(Taken::Handed { request: Request::Run, number: 2 }));
    assert_eq!(unnamed(c.record()), (27, 19));
    let mut broken = *c.record();
    broken.control.sent += 1;
    assert_eq!(unnamed(&broken), (24, 24));
    let mut nameless = *c.record();
    nameless.kinds[31] = 0;
    assert_eq!(unnamed(&nameless), (24, 24));
    assert_eq!(c.close(), Ok(()));
    assert_eq!(unnamed(c.record()), (18, 18));
    let mut defunct = *c.record();
    defunct.control.waiting = 1;
    assert_eq!(unnamed(&defunct), (24, 24));
}

// Only DISCARD and PULL carry numbers: what else stands there is not looked at.
#[test]
fn numbers_of_other_kinds_never_matter() {
    let mut record = *ready().record();
    let reply = unsafe { raw::meulhaton_arrive(&mut record, RequestImage { kind: 0x10, n: 0, qid: i64::MIN }) };
    assert_eq!((reply.refusal, reply.said), (0, 1));
    let mut c = ready();
    assert_eq!(c.arrive(Request::Run), Ok(Arrival::Queued));
    assert_eq!(c.record(), &record);
}

/// The record's layout is that of the C header.
#[test]
fn layout() {
    assert_eq!((size_of::<Control>(), size_of::<Record>()), (56, 664));
    assert_eq!((offset_of!(Control, state), offset_of!(Control, in_flight), offset_of!(Control, first)), (0, 1, 8));
    assert_eq!((offset_of!(Control, waiting), offset_of!(Control, opened), offset_of!(Control, next)), (16, 24, 32));
    assert_eq!((offset_of!(Control, accepted), offset_of!(Control, sent)), (40, 48));
    assert_eq!((offset_of!(Record, control), offset_of!(Record, streams), offset_of!(Record, kinds)), (0, 56, 120));
    assert_eq!((offset_of!(Record, counts), offset_of!(Record, qids)), (152, 408));
}

fn zeros() -> Record {
    let control = Control { state: 0, in_flight: 0, first: 0, waiting: 0, opened: 0, next: 0, accepted: 0, sent: 0 };
    Record { control, streams: [0; 8], kinds: [0; 32], counts: [0; 32], qids: [0; 32] }
}

#[test]
fn a_fresh_record_is_zeros() {
    assert_eq!(Connection::fresh().record(), &zeros());
    assert_eq!(Connection::fresh().requests().count(), 0);
}

#[test]
fn bad_records_are_refused() {
    type Damage = fn(&mut Record);
    let damages: [Damage; 14] = [
        |r| r.control.state = 8,
        |r| r.control.state = 255,
        |r| r.control.state = 4,
        |r| r.control.in_flight = 2,
        |r| r.control.in_flight = 1,
        |r| r.control.first = 32,
        |r| r.control.first = 33,
        |r| r.control.first = usize::MAX,
        |r| r.control.waiting = 33,
        |r| r.control.waiting = usize::MAX,
        |r| r.kinds[1] = 0x14,
        |r| r.kinds[1] = 0,
        |r| r.control.opened = 9,
        |r| r.control.accepted = 7,
    ];
    let mut good = ready();
    assert_eq!(good.arrive(Request::Commit), Ok(Arrival::Queued));
    let mut closed = good.clone();
    assert_eq!(closed.close(), Ok(()));
    let bounds: [Damage; 4] =
        [|r| r.control.state = 8, |r| r.control.in_flight = 2, |r| r.control.first = 32, |r| r.control.waiting = 1];
    let damaged = damages.map(|damage| (&good, damage));
    for (good, damage) in damaged.into_iter().chain(bounds.map(|damage| (&closed, damage))) {
        let mut record = *good.record();
        damage(&mut record);
        let mut c = Connection::from_record(record);
        assert_eq!(c.take(), Err(refused(24, 0)));
        assert_eq!(c.arrive(Request::Run), Err(refused(24, 0)));
        assert_eq!(c.report(Outcome::Success), Err(refused(24, 0)));
        assert_eq!(c.close(), Err(refused(24, 0)));
        assert_eq!(c.record(), &record);
    }
    // Whatever stands in it, what waits can be read.
    let waiting = |damage: Damage| {
        let mut record = *good.record();
        damage(&mut record);
        Connection::from_record(record).requests().collect::<Vec<_>>()
    };
    assert_eq!(waiting(|r| r.kinds[1] = 0x14), [None]);
    assert_eq!(waiting(|r| r.control.first = usize::MAX).len(), 1);
    assert_eq!(waiting(|r| r.control.waiting = usize::MAX).len(), 32);
}

// What lies in the other places never matters, and no call but an arrive that uses one changes it.
#[test]
fn unused_places_never_matter() {
    for kind in [0xAA, 0x0F, 0x3F] {
        let mut record = *ready().record();
        record.streams = [77; 8];
        (record.kinds, record.counts, record.qids) = ([kind; 32], [-9; 32], [1 << 40; 32]);
        let mut c = Connection::from_record(record);
        assert_eq!(c.report(Outcome::Success), Err(refused(19, 0)));
        assert_eq!(c.take(), Ok(Taken::Idle));
        assert_eq!(c.record(), &record);
        assert_eq!(c.arrive(Request::Run), Ok(Arrival::Queued));
        (record.kinds[1], record.counts[1], record.qids[1]) = (0x10, 0, 0);
        assert_eq!(c.take(), Ok(Taken::Handed { request: Request::Run, number: 2 }));
        assert_eq!(c.report(Outcome::More), Err(refused(19, 0)));
        assert_eq!(c.report(Outcome::Success), Ok(Answered { summary: Summary::Success, number: 2 }));
        assert_eq!(c.state(), Some(State::Streaming));
        assert_eq!(c.close(), Ok(()));
        let Record { control, streams, kinds, counts, qids } = *c.record();
        assert_eq!((control.first, control.waiting), (2, 0));
        assert_eq!((streams, kinds, counts, qids), (record.streams, record.kinds, record.counts, record.qids));
    }
}

/// 32 wait, all are served, and 32 wait again: from each first place on, the requests come in their order and stay where they are.
#[test]
fn around_the_ring() {
    for first in 0..32 {
        let mut record = *ready().record();
        record.control.first = first;
        let mut c = Connection::from_record(record);
        let request = |turn: i64| match turn % 2 {
            0 => Request::Run,
            _ => Request::Pull { n: turn, qid: -1 },
        };
        for round in 0..3 {
            let turns = 32 * round..32 * (round + 1);
            for turn in turns.clone() {
                assert_eq!(c.arrive(request(turn)), Ok(Arrival::Queued));
            }
            assert_eq!(c.arrive(Request::Run), Err(refused(17, 0)));
            let full = *c.record();
            for turn in turns.clone() {
                assert!(c.requests().eq((turn..turns.end).map(|later| Some(request(later)))));
                let number = turn as u64 + 2;
                assert_eq!(c.take(), Ok(Taken::Handed { request: request(turn), number }));
                assert_eq!(c.report(Outcome::Success).map(|answered| answered.number), Ok(number));
                assert_eq!(c.record().control.first, (first + turn as usize + 1) % 32);
            }
            assert_eq!((c.waiting(), c.requests().count()), (0, 0));
            let Record { control, streams, kinds, counts, qids } = *c.record();
            assert_eq!(control.first, first);
            assert_eq!((streams, kinds, counts, qids), (full.streams, full.kinds, full.counts, full.qids));
        }
    }
}
