//! Asks the proved library and the reference the same, on random inputs from fixed seeds and on texts with something odd
//! at every place, and fails at the first difference. `differential [SEED]` tries other inputs.

mod compare;
mod complaints;
mod conversation;
mod generate;
mod library;
mod random;
mod records;
mod ring;
mod sides;

use compare::{Comparison, Difference, REFUSALS, REPLIES, Tally};
use library::Library;
use sides::{Keeper, Reference, Side};
use std::process::ExitCode;
use std::time::Instant;

/// Every part, with a share of its random cases.
fn compare<A: Keeper, B: Side>(left: &A, right: &B, seed: u64, share: u64) -> Result<Tally, Difference> {
    type Part<'s, A, B> = (&'static str, u64, fn(&mut Comparison<'s, A, B>) -> Result<(), Difference>);
    let parts: [Part<A, B>; 10] = [
        ("handshakes", 20_000, Comparison::handshake),
        ("frames", 60_000, Comparison::frame),
        ("chunks", 40_000, Comparison::chunks),
        ("values", 200_000, Comparison::value),
        ("long values", 2_000, Comparison::long_value),
        ("requests", 200_000, Comparison::request),
        ("packing", 100_000, Comparison::packing),
        ("conversations", 20_000, Comparison::conversation),
        ("rounds", 4_000, Comparison::rounds),
        ("records", 200_000, Comparison::record),
    ];
    let mut total = Tally::default();
    let mut add = |name, cases, start: Instant, tally: Tally| {
        let (accepted, refused, seconds) =
            (tally.accepted, tally.refused.values().sum::<u64>(), start.elapsed().as_secs_f64());
        println!("{name:14} {cases:>7} cases {accepted:>8} accepted {refused:>8} refused {seconds:7.2} s");
        total.add(tally);
    };
    for (index, (name, cases, part)) in parts.into_iter().enumerate() {
        let start = Instant::now();
        let mut comparison = Comparison::new(left, right, seed + index as u64);
        for _ in 0..cases / share {
            part(&mut comparison)?;
        }
        add(name, cases / share, start, comparison.tally);
    }
    let start = Instant::now();
    let mut comparison = Comparison::new(left, right, seed);
    let mut texts = 0;
    for length in 0..=generate::ODD_TEXTS {
        texts += comparison.texts(length)?;
    }
    add("texts", texts, start, comparison.tally);
    Ok(total)
}

/// How often each complaint about a request must have come.
const COMPLAINTS_LEAST: u64 = 50;

/// What came, and whether everything came that there is.
fn complete(tally: &Tally) -> bool {
    every_reply(tally) & every_turn(tally) & every_ring(tally) & every_complaint(tally)
}

fn every_ring(tally: &Tally) -> bool {
    let counts = (0..ring::PLACES).map(|first| tally.full.get(&first).copied().unwrap_or(0));
    let least = counts.min().unwrap_or_default();
    println!("full rings: from each first place on, at least {least} times");
    least > 0
}

fn every_turn(tally: &Tally) -> bool {
    let counted: Vec<_> =
        conversation::turns().map(|turn| (tally.turned.get(&turn).copied().unwrap_or(0), turn)).collect();
    let (least, (state, tag)) = counted.iter().min().copied().unwrap_or_default();
    println!("turns: {}, each at least {least} times, as {tag:02X} in state {state}", counted.len());
    least > 0
}

fn every_complaint(tally: &Tally) -> bool {
    let counted = complaints::all().map(|(tag, complaint)| {
        let count = tally.complained.get(&(tag, complaint)).copied().unwrap_or(0);
        (format!("{tag:02X} {complaint:?}"), count)
    });
    let counted: Vec<(String, u64)> = counted.collect();
    let counts: Vec<String> = counted.iter().map(|(name, count)| format!("{name}: {count}")).collect();
    println!("complaints: {}", counts.join(", "));
    let rare = counted.iter().find(|(_, count)| *count < COMPLAINTS_LEAST);
    rare.inspect(|(name, _)| println!("HARDLY MET: {name}")).is_none()
}

fn every_reply(tally: &Tally) -> bool {
    let refused = REFUSALS.map(|number| (number.to_string(), tally.refused.get(&number).copied().unwrap_or(0)));
    let replied = REPLIES.map(|name| (name.to_owned(), tally.replied.get(name).copied().unwrap_or(0)));
    for (what, counts) in [("refusals", &refused[..]), ("replies", &replied)] {
        let counts: Vec<String> = counts.iter().map(|(name, count)| format!("{name}: {count}")).collect();
        println!("{what}: {}", counts.join(", "));
    }
    let missing = refused.iter().chain(&replied).find(|(_, count)| *count == 0);
    missing.inspect(|(name, _)| println!("NEVER MET: {name}")).is_none()
}

fn main() -> ExitCode {
    let seed = std::env::args().nth(1).and_then(|seed| seed.parse().ok()).unwrap_or(1);
    match compare(&Library, &Reference, seed, 1) {
        Ok(tally) if complete(&tally) => ExitCode::SUCCESS,
        Ok(_) => ExitCode::FAILURE,
        Err(difference) => {
            println!("DIFFERENT (left: library, right: reference)\n{difference}");
            ExitCode::FAILURE
        }
    }
}

#[cfg(test)]
mod tests {
    use super::*;
    use crate::conversation::{DEFUNCT, FAILED, INTERRUPTED, READY};
    use crate::ring::{Control, PLACES, Record};
    use crate::sides::{Asked, Call, Found, Item, Reply, RequestImage, STATES, call_on_list, tag};
    use reference::connection::{Arrival, Kind, Turn};
    use reference::frame::Frame;
    use reference::handshake::Version;
    use reference::{Refusal, Result};

    macro_rules! faults {
        ($($fault:ident,)*) => {
            /// The reference with one fault.
            #[derive(Clone, Copy, PartialEq, Debug)]
            enum Fault {
                $($fault,)*
            }

            const FAULTS: &[Fault] = &[$(Fault::$fault,)*];
        };
    }

    faults! {
        PreambleAfterLength,
        WritesBeforeRefusing,
        ForgetsLastHeader,
        PlaceOfRepeat,
        AlwaysNull,
        AbsentIsZero,
        NegativeIsWide,
        SixteenFields,
        AlwaysIdle,
        LosesCount,
        BreaksForNoKind,
        FailsForNoOutcome,
        KindAndRangeExchanged,
        NullFieldIsAbsent,
        AbsentAtItsNull,
        ArrivesAsWrongKind,
        ClosesForCommitInFailed,
        IgnoresHelloInFailed,
        HandsOverCommitInFailed,
        IgnoredBeginSetsNext,
        MissesFourthOfEight,
        PassesNineForEight,
        ReachesPastTheText,
        // Of the ring.
        UsesAPlaceTooFar,
        SkipsTheLastPlace,
        LeavesFirst,
        ClosingClearsFirst,
        MovesTheQueueUp,
        ClearsTheServedPlace,
        StoresNumbersOfAll,
        ClosingClearsStreams,
        SeesUnusedReset,
        BreaksForUnusedReset,
        BreaksForUnusedPlace,
        CountsFirstAround,
        StateAboveIsDefunct,
        TruthAboveIsTrue,
        NamelessIsPull,
    }

    impl Fault {
        /// Makes of a text that is refused what a check with this fault takes it for; `behind` follows it in the message.
        fn seen(self, text: &mut [u8], behind: &[u8]) {
            let whole = text.len() - text.len() % 8;
            match self {
                Fault::MissesFourthOfEight => {
                    text[..whole].iter_mut().skip(3).step_by(8).for_each(|byte| *byte &= 0x7F)
                }
                Fault::PassesNineForEight => text.iter_mut().skip(8).step_by(9).for_each(|byte| *byte &= 0x7F),
                Fault::ReachesPastTheText if behind.first().is_some_and(|byte| byte >> 6 == 2) => {
                    text.iter_mut().rev().take(1).for_each(|byte| *byte &= 0x7F);
                }
                _ => {}
            }
        }

        /// A take, where this fault changes it.
        fn take(self, record: &mut Record) -> Option<Result<Reply>> {
            let turned = |turn| Some(Ok(Reply::Turned(turn)));
            match (self, ring::turn(record)?) {
                (Fault::AlwaysIdle, _) => turned(Turn::Idle),
                (Fault::ClosesForCommitInFailed, (FAILED, tag::COMMIT)) => {
                    Some(call_by_list(record, Call::Close).map(|_| Reply::Turned(Turn::Closed)))
                }
                (Fault::HandsOverCommitInFailed, (FAILED, tag::COMMIT)) => {
                    record.control.in_flight = 1;
                    turned(Turn::Handed { kind: Kind::Commit, number: record.control.sent + 1 })
                }
                (Fault::IgnoresHelloInFailed, (FAILED, tag::HELLO)) => {
                    let place = ring::place(record, 0);
                    let hello = ring::request_at(record, place);
                    ring::put(record, place, RequestImage::new(Kind::Run));
                    let reply = call_by_list(record, Call::Take);
                    ring::put(record, place, hello);
                    Some(reply)
                }
                (Fault::IgnoredBeginSetsNext, (FAILED, tag::BEGIN)) => {
                    let reply = call_by_list(record, Call::Take);
                    if reply.is_ok() {
                        record.control.next = 0;
                    }
                    Some(reply)
                }
                _ => None,
            }
        }

        /// A record that this fault takes another one for.
        fn taken_for(self, mut record: Record) -> Record {
            let control = &mut record.control;
            match self {
                Fault::CountsFirstAround => control.first %= PLACES,
                Fault::StateAboveIsDefunct => control.state = control.state.min(DEFUNCT),
                Fault::TruthAboveIsTrue => control.in_flight = control.in_flight.min(1),
                Fault::NamelessIsPull => {
                    for place in ring::used(&record) {
                        if ring::request_at(&record, place).kind().is_none() {
                            record.kinds[place] = tag::PULL;
                        }
                    }
                }
                _ => {}
            }
            record
        }

        /// Whether this fault refuses a record for what stands in its unused places.
        fn refuses(self, record: &Record) -> bool {
            ring::unused(record).map(|place| record.kinds[place]).any(|kind| match self {
                Fault::BreaksForUnusedReset => kind == tag::RESET && record.control.state != INTERRUPTED,
                Fault::BreaksForUnusedPlace => ring::is_wrong(kind),
                _ => false,
            })
        }

        /// What this fault makes of a record after a call that was not refused.
        fn spoil(self, before: &Record, record: &mut Record, call: Call, reply: &Reply) {
            let stored = ring::place(before, before.control.waiting);
            let elsewhere = match self {
                Fault::UsesAPlaceTooFar => (stored + 1) % PLACES,
                Fault::SkipsTheLastPlace if stored == PLACES - 1 => 0,
                _ => stored,
            };
            match (call, reply) {
                (Call::Arrive(request), Reply::Arrived(Arrival::Queued)) => {
                    let queued = ring::request_at(record, stored);
                    ring::put(record, stored, ring::request_at(before, stored));
                    ring::put(record, elsewhere, queued);
                    if self == Fault::StoresNumbersOfAll {
                        ring::put(record, elsewhere, request);
                    }
                }
                (_, Reply::Reported(_) | Reply::Turned(Turn::Answered(_))) => {
                    self.spoil_answered(before, record, reply)
                }
                (_, Reply::Arrived(Arrival::Closed) | Reply::Turned(Turn::Closed) | Reply::Closed) => match self {
                    Fault::ClosingClearsFirst => record.control.first = 0,
                    Fault::ClosingClearsStreams => record.streams = [0; 8],
                    _ => {}
                },
                _ => {}
            }
        }

        fn spoil_answered(self, before: &Record, record: &mut Record, reply: &Reply) {
            let unused_reset = ring::unused(before).any(|place| before.kinds[place] == tag::RESET);
            let was_reset = ring::turn(before) == Some((INTERRUPTED, tag::RESET)) && matches!(reply, Reply::Turned(_));
            match self {
                Fault::LosesCount if matches!(reply, Reply::Reported(_)) => record.control.sent -= 1,
                Fault::LeavesFirst => record.control.first = before.control.first,
                Fault::ClearsTheServedPlace => {
                    ring::put(record, before.control.first, RequestImage { kind: 0, n: 0, qid: 0 })
                }
                Fault::MovesTheQueueUp => {
                    let waiting: Vec<_> = ring::waiting(record).collect();
                    record.control.first = before.control.first;
                    for (behind, request) in waiting.into_iter().enumerate() {
                        let place = ring::place(record, behind);
                        ring::put(record, place, request);
                    }
                }
                Fault::SeesUnusedReset if was_reset && unused_reset && record.control.state == READY => {
                    record.control.state = INTERRUPTED;
                }
                _ => {}
            }
        }

        /// The refusal of a request as a side with this fault gives it.
        fn refusal(self, message: &[u8], refusal: Refusal) -> Refusal {
            let null = message.iter().skip(refusal.place).position(|&byte| byte == 0xC0);
            match (self, refusal.number) {
                (Fault::KindAndRangeExchanged, 26) => Refusal { number: 27, ..refusal },
                (Fault::KindAndRangeExchanged, 27) => Refusal { number: 26, ..refusal },
                (Fault::NullFieldIsAbsent, 26) if null == Some(0) => Refusal { number: 25, ..refusal },
                (Fault::AbsentAtItsNull, 25) => Refusal { place: refusal.place + null.unwrap_or(0), ..refusal },
                _ => refusal,
            }
        }
    }

    impl Side for Fault {
        fn negotiate(&self, input: &[u8]) -> Result<Version> {
            if *self == Fault::PreambleAfterLength && input.len() < 20 {
                return Err(Refusal::new(1));
            }
            Reference.negotiate(input)
        }

        fn read_frame(&self, version: Version, input: &[u8], buffer: &mut [u8]) -> Result<Frame> {
            let answer = Reference.read_frame(version, input, buffer);
            if *self == Fault::WritesBeforeRefusing && answer.is_err() && !buffer.is_empty() {
                buffer[0] = !buffer[0];
            }
            answer
        }

        fn write_chunks(&self, message: &[u8], chunk: usize, buffer: &mut [u8]) -> Result<usize> {
            let length = Reference.write_chunks(message, chunk, buffer)?;
            Ok(if *self == Fault::ForgetsLastHeader { length - 2 } else { length })
        }

        fn read_message(&self, message: &[u8]) -> Result<Found> {
            let mut message = message.to_vec();
            if let Err(Refusal { number: 10, place }) = Reference.read_message(&message) {
                let (start, size) = match message[place] {
                    marker @ 0x80..=0x8F => (place + 1, marker & 0x0F),
                    0xD0 => (place + 2, message[place + 1]),
                    _ => (place, 0),
                };
                let (text, behind) = message[start..].split_at_mut(usize::from(size));
                self.seen(text, behind);
            }
            let mut found = Reference.read_message(&message).map_err(|mut refusal| {
                refusal.place += usize::from(*self == Fault::PlaceOfRepeat && refusal.number == 12);
                refusal
            })?;
            if *self == Fault::AlwaysNull {
                found.head = sides::Head::Null;
            }
            Ok(found)
        }

        fn read_value(&self, message: &[u8], at: usize, depth: usize) -> Result<Found> {
            Reference.read_value(message, at, depth)
        }

        fn read_request(&self, version: Version, message: &[u8]) -> Result<Asked> {
            let asked = Reference.read_request(version, message);
            let mut asked = asked.map_err(|refusal| self.refusal(message, refusal))?;
            if let Asked::Begin(extra) = &mut asked
                && *self == Fault::AbsentIsZero
            {
                extra.tx_timeout.get_or_insert(0);
            }
            Ok(asked)
        }

        fn pack(&self, item: Item, buffer: &mut [u8], at: usize) -> Result<usize> {
            match item {
                Item::Integer(number @ -128..0) if *self == Fault::NegativeIsWide => {
                    let room = buffer.get_mut(at..at + 2).ok_or(Refusal::new(21))?;
                    room.copy_from_slice(&[0xC8, number as u8]);
                    Ok(at + 2)
                }
                Item::Structure(tag, 16) if *self == Fault::SixteenFields => {
                    Reference.pack(Item::Structure(tag, 0), buffer, at)
                }
                _ => Reference.pack(item, buffer, at),
            }
        }
    }

    impl Keeper for Fault {
        fn fresh(&self) -> Record {
            ring::FRESH
        }

        fn call(&self, record: &mut Record, call: Call) -> Result<Reply> {
            let call = match call {
                Call::Take => match self.take(record) {
                    Some(reply) => return reply,
                    None => call,
                },
                Call::Arrive(request) if *self == Fault::BreaksForNoKind && request.kind().is_none() => {
                    return Err(Refusal::new(24));
                }
                Call::Report(3..) if *self == Fault::FailsForNoOutcome => Call::Report(2),
                call => call,
            };
            if self.refuses(record) {
                return Err(Refusal::new(24));
            }
            let mut after = self.taken_for(*record);
            let reply = call_by_list(&mut after, call).map_err(|refusal| match refusal.number {
                27 if *self == Fault::ArrivesAsWrongKind => Refusal::new(26),
                _ => refusal,
            })?;
            self.spoil(record, &mut after, call, &reply);
            *record = after;
            Ok(reply)
        }
    }

    impl Keeper for Reference {
        fn fresh(&self) -> Record {
            ring::FRESH
        }

        fn call(&self, record: &mut Record, call: Call) -> Result<Reply> {
            call_by_list(record, call)
        }
    }

    /// A call on the ring by way of the reference's list.
    fn call_by_list(record: &mut Record, call: Call) -> Result<Reply> {
        let mut list = ring::listed(record).ok_or(Refusal::new(24))?;
        let reply = call_on_list(&mut list, call)?;
        if let (Call::Arrive(request), Reply::Arrived(Arrival::Queued)) = (call, reply) {
            let place = ring::place(record, record.control.waiting);
            ring::put(record, place, RequestImage::new(request.kind().expect("queued")));
        }
        record.control = Control {
            state: STATES.iter().position(|&state| state == list.state).expect("a state") as u8,
            in_flight: u8::from(list.in_flight),
            first: ring::place(record, (list.sent - record.control.sent) as usize),
            waiting: list.requests().len(),
            opened: list.streams().len(),
            next: list.next,
            accepted: list.accepted,
            sent: list.sent,
        };
        record.streams[..list.streams().len()].copy_from_slice(list.streams());
        Ok(reply)
    }

    #[test]
    fn equal_sides_agree() {
        assert!(compare(&Reference, &Reference, 7, 20).is_ok());
    }

    #[test]
    fn texts_find_the_faults_of_their_check() {
        for fault in [Fault::MissesFourthOfEight, Fault::PassesNineForEight, Fault::ReachesPastTheText] {
            let mut comparison = Comparison::new(&fault, &Reference, 7);
            assert!((0..=generate::ODD_TEXTS).any(|length| comparison.texts(length).is_err()), "{fault:?}");
        }
    }

    #[test]
    fn every_fault_is_found() {
        for fault in FAULTS {
            assert!(compare(fault, &Reference, 7, 20).is_err(), "{fault:?}");
        }
    }
}
