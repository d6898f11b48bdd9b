//! Calls on connection records: a client and an engine that mostly fit each other, rings that fill and empty, and records
//! that are broken or made of random numbers.

use crate::compare::{Comparison, Difference};
use crate::random::Random;
use crate::records;
use crate::ring;
use crate::ring::{PLACES, Record};
use crate::sides::{Call, Keeper, Reply, RequestImage, Side, call_on_list, report, tag};
use reference::Refusal;
use reference::connection::{Arrival, Connection, Kind, Turn};
use reference::pack::{Failure, Summary};
use reference::request::Batch;

impl<A: Keeper, B: Side> Comparison<'_, A, B> {
    /// The same call on a record and on the reference's connection, which must go on saying the same. A record that says
    /// what no connection can is refused with 24.
    fn call(&mut self, record: &mut Record, list: Option<&mut Connection>, call: Call) -> Result<(), Difference> {
        let before = *record;
        let ours = self.left.call(record, call);
        let wrong = ring::wrongly_changed(&before, record, call, &ours);
        let (theirs, says) = match list {
            Some(list) => {
                let old = *list;
                let theirs = call_on_list(list, call);
                let says = if theirs.is_ok() { ring::says(record, list) } else { *list == old };
                (theirs, says)
            }
            None => (Err(Refusal::new(Refusal::RULE_BROKEN)), true),
        };
        let unnamed = unnamed(call, &ours);
        let reply = self.equal(|| format!("{call:?} on {before:?}"), ours, theirs)?;
        let wrong =
            wrong.or((!says).then_some("the list read out of the ring is the old list, and the numbers are the same"));
        if let Some(wrong) = wrong {
            return Err(format!("{call:?} on {before:?}\n  after: {record:?}\n  not kept: {wrong}"));
        }
        self.count(&before, reply.as_ref(), unnamed);
        Ok(())
    }

    /// What came of a call on a record.
    fn count(&mut self, record: &Record, reply: Option<&Reply>, unnamed: Option<&'static str>) {
        let mut met = |name| *self.tally.replied.entry(name).or_default() += 1;
        [reply.map(name), unnamed, ring::nameless(record)].into_iter().flatten().for_each(&mut met);
        let Some(reply) = reply else { return };
        if ring::unused(record).any(|place| ring::is_wrong(record.kinds[place])) {
            met("unused: no kind");
        }
        if ring::unused(record).any(|place| record.kinds[place] == tag::RESET) {
            met("unused: RESET");
        }
        if let (Reply::Turned(_), Some(turn)) = (reply, ring::turn(record)) {
            *self.tally.turned.entry(turn).or_default() += 1;
        }
        if record.control.waiting == PLACES {
            *self.tally.full.entry(record.control.first).or_default() += 1;
        }
    }

    /// A fresh record, and the reference's. The ring may begin at any place, and the unused places may hold anything.
    fn fresh(&mut self) -> Result<(Record, Connection), Difference> {
        let mut record = self.left.fresh();
        if record != ring::FRESH {
            return Err(format!("fresh\n  left: {record:?}"));
        }
        if self.random.once_in(2) {
            record.control.first = self.random.below(PLACES);
            records::fill_unused(&mut self.random, &mut record);
        }
        Ok((record, Connection::default()))
    }

    /// A list of calls from the fresh record, with other records beside it.
    pub fn conversation(&mut self) -> Result<(), Difference> {
        let (mut record, mut list) = self.fresh()?;
        let mut client = Client { script: vec![Kind::Hello], patience: self.random.pick(&[0, 1, 3, 40]) };
        let mut left_over = self.random.between(1, 400);
        while left_over > 0 {
            left_over -= 1;
            if self.random.once_in(1_500) {
                move_numbers(&mut self.random, &mut record, &mut list);
            }
            if self.random.once_in(50) {
                records::fill_unused(&mut self.random, &mut record);
            }
            let call = client.next_call(&mut self.random, &record);
            self.call(&mut record, Some(&mut list), call)?;
            if self.random.once_in(4) {
                let beside = records::beside(&mut self.random, record);
                let call = client.next_call(&mut self.random, &record);
                self.call(&mut { beside }, ring::listed(&beside).as_mut(), call)?;
            }
            if record.control.state == DEFUNCT {
                left_over = left_over.min(3);
            }
        }
        Ok(())
    }

    /// Requests come until the ring is full or almost so, all or most are served, and requests come again.
    pub fn rounds(&mut self) -> Result<(), Difference> {
        let (mut record, mut list) = self.fresh()?;
        let mut client = Client { script: vec![], patience: 0 };
        let mut round = vec![Kind::Hello];
        for _ in 0..self.random.between(2, 8) {
            for kind in round.drain(..) {
                self.call(&mut record, Some(&mut list), Call::Arrive(RequestImage::new(kind)))?;
            }
            let stay = if self.random.once_in(3) { self.random.below(PLACES) } else { 0 };
            while record.control.waiting > stay {
                let call = match record.control.in_flight {
                    0 => Call::Take,
                    _ => Call::Report(if self.random.once_in(60) { 2 } else { 0 }),
                };
                self.call(&mut record, Some(&mut list), call)?;
            }
            if record.control.state == DEFUNCT {
                return Ok(());
            }
            if self.random.once_in(3) {
                records::fill_unused(&mut self.random, &mut record);
            }
            if record.control.state == FAILED {
                round.push(Kind::Reset);
                client.script.clear();
            }
            let free = PLACES - record.control.waiting - round.len();
            let come = free.saturating_sub(self.random.pick(&[0, 0, 0, 1, 5]));
            round.extend((0..come).map(|_| client.fitting(&mut self.random)));
            // One for which there is no place.
            round.extend((come == free).then_some(Kind::Run));
        }
        Ok(())
    }

    /// Every call on a record of random numbers: wholly random ones, or such that most keep the rules.
    pub fn record(&mut self) -> Result<(), Difference> {
        let record = records::any(&mut self.random);
        let mut client = Client { script: vec![], patience: 0 };
        let request = client.request(&mut self.random, &record);
        let outcome = self.random.pick(&[0, 0, 1, 2, 3]);
        for call in [Call::Arrive(request), Call::Take, Call::Report(outcome), Call::Close] {
            self.call(&mut { record }, ring::listed(&record).as_mut(), call)?;
        }
        Ok(())
    }
}

fn name(reply: &Reply) -> &'static str {
    match reply {
        Reply::Arrived(Arrival::Queued) => "queued",
        Reply::Arrived(Arrival::Closed) | Reply::Turned(Turn::Closed) | Reply::Closed => "closed",
        Reply::Turned(Turn::Idle) => "idle",
        Reply::Turned(Turn::Handed { .. }) => "handed",
        Reply::Turned(Turn::Answered(answer)) | Reply::Reported(answer) => match answer.summary {
            Summary::Success => "SUCCESS",
            Summary::HasMore(true) => "has more",
            Summary::HasMore(false) => "has no more",
            Summary::Qid(_) => "qid",
            Summary::Ignored => "IGNORED",
            Summary::Failure(Failure::StreamFull) => "full",
            Summary::Failure(Failure::StreamUnknown) => "unknown",
            Summary::Failure(Failure::EngineFailed) => "failed",
        },
    }
}

/// How a call was refused whose kind or outcome names nothing, or whose n or qid is out of its range.
fn unnamed(call: Call, answer: &reference::Result<Reply>) -> Option<&'static str> {
    let number = answer.as_ref().err()?.number;
    match call {
        Call::Arrive(request) if request.kind().is_none() => match number {
            27 => Some("no kind: 27"),
            18 => Some("no kind: 18"),
            _ => Some("no kind: 24"),
        },
        Call::Arrive(_) if number == 27 => Some("n or qid: 27"),
        Call::Report(outcome) if report(outcome).is_none() => match number {
            19 => Some("no outcome: 19"),
            18 => Some("no outcome: 18"),
            _ => Some("no outcome: 24"),
        },
        _ => None,
    }
}

/// Takes both to where counts and numbers end.
fn move_numbers(random: &mut Random, record: &mut Record, list: &mut Connection) {
    let control = &mut record.control;
    let by = (u64::from(u32::MAX) - control.accepted).saturating_sub(random.below(5) as u64);
    control.accepted += by;
    control.sent += by;
    if random.once_in(2) {
        control.next = control.next.max(65_530 + random.below(7) as u64);
    }
    (list.accepted, list.sent, list.next) = (control.accepted, control.sent, control.next);
}

/// Numbers of states in a record.
pub const CONNECTED: u8 = 0;
pub const READY: u8 = 1;
pub const STREAMING: u8 = 2;
pub const TX_READY: u8 = 3;
pub const TX_STREAMING: u8 = 4;
pub const FAILED: u8 = 5;
pub const INTERRUPTED: u8 = 6;
pub const DEFUNCT: u8 = 7;

/// Every turn that there can be, the state and the request's tag. DEFUNCT has none, and a RESET waits in INTERRUPTED
/// alone.
pub fn turns() -> impl Iterator<Item = (u8, u8)> {
    let turns = (0..DEFUNCT).flat_map(|state| tag::ALL.map(move |tag| (state, tag)));
    turns.filter(|&(state, tag)| tag != tag::RESET || state == INTERRUPTED)
}

fn batch(random: &mut Random, record: &Record) -> Batch {
    let streams = ring::streams(record);
    let qid = match random.below(8) {
        0..=2 if !streams.is_empty() => random.pick(streams) as i64,
        0..=5 => -1,
        6 => random.below(10) as i64,
        _ => random.pick(&[-2, i64::MIN, i64::MAX, 65_536, 0]),
    };
    Batch { n: random.pick(&[-1, 1, 1, 5, 1000, i64::MAX, 0, -2]), qid }
}

/// Who calls: requests that fit each other for the most part, and an engine that reports at some time.
struct Client {
    /// What arrives next, from its end.
    script: Vec<Kind>,
    /// How often something arrives before a request gets its turn.
    patience: usize,
}

impl Client {
    /// Now and then of a kind that is none, or with numbers that it does not carry.
    fn request(&mut self, random: &mut Random, record: &Record) -> RequestImage {
        let Batch { n, qid } = batch(random, record);
        match random.below(100) {
            0..=1 => RequestImage { kind: random.pick(&[0x00, 0x03, 0x0E, 0x14, 0x3E, 0x40, 0x70, 0xFF]), n, qid },
            2 => match self.kind(random, record) {
                kind @ (Kind::Discard(_) | Kind::Pull(_)) => RequestImage::new(kind),
                kind => RequestImage { n, qid, ..RequestImage::new(kind) },
            },
            _ => RequestImage::new(self.kind(random, record)),
        }
    }

    fn kind(&mut self, random: &mut Random, record: &Record) -> Kind {
        let batch = batch(random, record);
        if random.once_in(25) {
            let any = [Kind::Hello, Kind::Goodbye, Kind::Commit, Kind::Rollback, Kind::Begin, Kind::Discard(batch)];
            return random.pick(&any);
        }
        if random.once_in(25) {
            return Kind::Reset;
        }
        if record.control.state == FAILED && random.once_in(3) {
            self.script.clear();
            return Kind::Reset;
        }
        if self.script.is_empty() {
            self.extend_script(random, batch);
        }
        self.script.pop().unwrap_or(Kind::Run)
    }

    /// What closes no connection to which nothing else comes but a RESET in FAILED, with a script from its beginning behind it.
    fn fitting(&mut self, random: &mut Random) -> Kind {
        if random.once_in(30) {
            self.script.clear();
            return Kind::Reset;
        }
        if self.script.is_empty() {
            self.extend_script(random, Batch { n: -1, qid: -1 });
        }
        self.script.pop().unwrap_or(Kind::Run)
    }

    fn extend_script(&mut self, random: &mut Random, batch: Batch) {
        let all = Batch { n: -1, qid: -1 };
        if random.once_in(2) {
            return self.script.extend([Kind::Pull(all), Kind::Run]);
        }
        let streams = random.pick(&[1, 2, 3, 8, 9, 10]);
        self.script.push(random.pick(&[Kind::Commit, Kind::Rollback]));
        for qid in 0..streams {
            let batch = if random.once_in(9) { batch } else { Batch { n: 5, qid: qid as i64 } };
            self.script.push(random.pick(&[Kind::Pull(batch), Kind::Discard(batch)]));
        }
        self.script.extend(vec![Kind::Run; streams]);
        self.script.push(Kind::Begin);
    }

    fn next_call(&mut self, random: &mut Random, record: &Record) -> Call {
        let reports = [0, 0, 0, 1, 2];
        match random.below(60) {
            0 if random.once_in(8) => Call::Close,
            0 if random.once_in(4) => Call::Report(random.pick(&[3, 4, 127, 128, 255])),
            0..=1 => Call::Report(random.pick(&reports)),
            2..=3 => Call::Take,
            _ if record.control.waiting > 0 && random.below(self.patience + 1) == 0 => match record.control.in_flight {
                0 => Call::Take,
                _ if random.once_in(4) => Call::Report(random.pick(&reports)),
                _ => Call::Report(0),
            },
            _ => Call::Arrive(self.request(random, record)),
        }
    }
}
