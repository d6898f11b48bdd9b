//! The connection record and its calls: arrive, take, report and close.

use crate::pack::{Failure, Summary};
use crate::request::Batch;
use crate::{Refusal, Result};

pub const WAITING_MAX: usize = 32;
pub const OPEN_MAX: usize = 8;
/// One more than the last number that a stream can get.
pub const NEXT_MAX: u64 = 65_536;
pub const ACCEPTED_MAX: u64 = 4_294_967_295;

#[derive(Clone, Copy, PartialEq, Eq, Debug)]
pub enum State {
    Connected,
    Ready,
    Streaming,
    TxReady,
    TxStreaming,
    Failed,
    Interrupted,
    Defunct,
}

/// What waits of a request: its kind, and of DISCARD and PULL which records of which stream.
#[derive(Clone, Copy, PartialEq, Eq, Debug)]
pub enum Kind {
    Hello,
    Goodbye,
    Reset,
    Run,
    Begin,
    Commit,
    Rollback,
    Discard(Batch),
    Pull(Batch),
}

impl Kind {
    fn in_range(self) -> bool {
        match self {
            Kind::Discard(batch) | Kind::Pull(batch) => Batch::n_in_range(batch.n) && Batch::qid_in_range(batch.qid),
            _ => true,
        }
    }

    fn is_batch(self) -> bool {
        matches!(self, Kind::Discard(_) | Kind::Pull(_))
    }

    /// The six requests RUN to PULL.
    fn is_work(self) -> bool {
        !matches!(self, Kind::Hello | Kind::Goodbye | Kind::Reset)
    }
}

#[derive(Clone, Copy, PartialEq, Eq, Debug)]
pub enum Arrival {
    Queued,
    Closed,
}

#[derive(Clone, Copy, PartialEq, Eq, Debug)]
pub enum Turn {
    Idle,
    /// The request's turn has come: the engine works on it and reports.
    Handed {
        kind: Kind,
        number: u64,
    },
    Answered(Answer),
    Closed,
}

/// A summary and the number of the request that it answers, from 1.
#[derive(Clone, Copy, PartialEq, Eq, Debug)]
pub struct Answer {
    pub number: u64,
    pub summary: Summary,
}

#[derive(Clone, Copy, PartialEq, Eq, Debug)]
pub enum Report {
    Success,
    SuccessWithMore,
    Failure,
}

/// A connection. The fields are open to the caller who keeps it, so every call looks at the standing rules first.
/// What stands past the counts never matters.
#[derive(Clone, Copy, PartialEq, Eq, Debug)]
pub struct Connection {
    pub state: State,
    pub waiting: [Kind; WAITING_MAX],
    pub waiting_count: u64,
    pub in_flight: bool,
    /// Numbers of the open streams of a transaction; the stream of STREAMING has none.
    pub open: [u64; OPEN_MAX],
    pub open_count: u64,
    /// Number of the transaction's next stream.
    pub next: u64,
    pub accepted: u64,
    pub sent: u64,
}

/// What take does with the first waiting request.
enum Decision {
    HandOver,
    Answer { summary: Summary, leads_to: State },
    Close,
}

impl Default for Connection {
    fn default() -> Self {
        Connection {
            state: State::Connected,
            waiting: [Kind::Goodbye; WAITING_MAX],
            waiting_count: 0,
            in_flight: false,
            open: [0; OPEN_MAX],
            open_count: 0,
            next: 0,
            accepted: 0,
            sent: 0,
        }
    }
}

impl Connection {
    /// Queues a request; `None` is a number that names no kind, which is out of its range as an n can be. Refusals: 24, 18, 27, 20, 17.
    pub fn arrive(&mut self, kind: impl Into<Option<Kind>>) -> Result<Arrival> {
        self.usable()?;
        let Some(kind) = kind.into().filter(|kind| kind.in_range()) else {
            return Err(Refusal::new(Refusal::OUT_OF_RANGE));
        };
        if self.accepted == ACCEPTED_MAX {
            return Err(Refusal::new(Refusal::COUNT_EXHAUSTED));
        }
        let count = self.waiting_count as usize;
        if count == WAITING_MAX {
            return Err(Refusal::new(Refusal::QUEUE_FULL));
        }
        self.accepted += 1;
        if kind == Kind::Reset && self.state == State::Connected {
            self.enter(State::Defunct);
            return Ok(Arrival::Closed);
        }
        self.waiting[count] = kind;
        self.waiting_count += 1;
        if kind == Kind::Reset {
            self.state = State::Interrupted;
            self.open_count = 0;
        }
        Ok(Arrival::Queued)
    }

    /// Gives the first waiting request its turn. Refusals: 24, 18.
    pub fn take(&mut self) -> Result<Turn> {
        self.usable()?;
        let Some(&kind) = self.requests().first() else { return Ok(Turn::Idle) };
        if self.in_flight {
            return Ok(Turn::Idle);
        }
        Ok(match self.decide(kind) {
            Decision::HandOver => {
                self.in_flight = true;
                Turn::Handed { kind, number: self.sent + 1 }
            }
            Decision::Answer { summary, leads_to } => Turn::Answered(self.answer(summary, leads_to)),
            Decision::Close => {
                self.enter(State::Defunct);
                Turn::Closed
            }
        })
    }

    /// The engine's word on the request in flight; `None` is a word that fits no request. Refusals: 24, 18, 19.
    pub fn report(&mut self, report: impl Into<Option<Report>>) -> Result<Answer> {
        self.usable()?;
        let (report, kind) = match (report.into(), self.requests().first()) {
            (Some(report), Some(&kind)) if self.in_flight && (report != Report::SuccessWithMore || kind.is_batch()) => {
                (report, kind)
            }
            _ => return Err(Refusal::new(Refusal::NOT_IN_FLIGHT)),
        };
        self.in_flight = false;
        let interrupted = self.state == State::Interrupted;
        let summary = match (report, kind) {
            (Report::Failure, _) => Summary::Failure(Failure::EngineFailed),
            (_, Kind::Discard(_) | Kind::Pull(_)) => Summary::HasMore(report == Report::SuccessWithMore),
            (_, Kind::Run) if matches!(self.state, State::TxReady | State::TxStreaming) => {
                Summary::Qid(self.next as u32)
            }
            _ => Summary::Success,
        };
        let leads_to = match report {
            _ if interrupted => State::Interrupted,
            Report::SuccessWithMore => self.state,
            Report::Failure if kind == Kind::Hello => State::Defunct,
            Report::Failure => State::Failed,
            Report::Success => self.succeed(kind),
        };
        Ok(self.answer(summary, leads_to))
    }

    /// Refusals: 24, 18.
    pub fn close(&mut self) -> Result<()> {
        self.usable()?;
        self.enter(State::Defunct);
        Ok(())
    }

    /// The waiting requests, the one in flight first.
    pub fn requests(&self) -> &[Kind] {
        &self.waiting[..self.waiting_count as usize]
    }

    /// The numbers of the open streams.
    pub fn streams(&self) -> &[u64] {
        &self.open[..self.open_count as usize]
    }

    fn usable(&self) -> Result<()> {
        if !self.keeps_rules() {
            return Err(Refusal::new(Refusal::RULE_BROKEN));
        }
        if self.state == State::Defunct {
            return Err(Refusal::new(Refusal::DEFUNCT));
        }
        Ok(())
    }

    /// The standing rules.
    pub fn keeps_rules(&self) -> bool {
        self.counts_fit() && self.streams_fit() && self.requests_fit() && self.flight_fits()
    }

    fn counts_fit(&self) -> bool {
        self.waiting_count <= WAITING_MAX as u64
            && self.open_count <= OPEN_MAX as u64
            && self.next <= NEXT_MAX
            && self.accepted <= ACCEPTED_MAX
            && match self.state {
                State::Defunct => self.waiting_count == 0 && self.sent <= self.accepted,
                _ => self.sent.checked_add(self.waiting_count) == Some(self.accepted),
            }
    }

    fn streams_fit(&self) -> bool {
        let streams = self.streams();
        (self.state == State::TxStreaming) != streams.is_empty()
            && streams.iter().enumerate().all(|(i, stream)| *stream < self.next && !streams[..i].contains(stream))
    }

    fn requests_fit(&self) -> bool {
        let requests = self.requests();
        requests.iter().all(|kind| kind.in_range())
            && (self.state == State::Interrupted) == requests.contains(&Kind::Reset)
    }

    fn flight_fits(&self) -> bool {
        if !self.in_flight {
            return true;
        }
        match self.requests().first() {
            None => false,
            Some(kind) if self.state == State::Interrupted => kind.is_work(),
            Some(&kind) => matches!(self.decide(kind), Decision::HandOver),
        }
    }

    fn decide(&self, kind: Kind) -> Decision {
        let fails = |failure| Decision::Answer { summary: Summary::Failure(failure), leads_to: State::Failed };
        let ignored = Decision::Answer { summary: Summary::Ignored, leads_to: self.state };
        match (self.state, kind) {
            (_, Kind::Goodbye) => Decision::Close,
            (State::Interrupted, Kind::Reset) => {
                let another = self.requests()[1..].contains(&Kind::Reset);
                let leads_to = if another { State::Interrupted } else { State::Ready };
                Decision::Answer { summary: Summary::Success, leads_to }
            }
            // 000, "Message Exchange": after a failure "the server must ignore all subsequent requests".
            (State::Failed | State::Interrupted, kind) if kind.is_work() => ignored,
            (State::TxReady | State::TxStreaming, Kind::Run) => {
                if self.streams().len() == OPEN_MAX || self.next == NEXT_MAX {
                    fails(Failure::StreamFull)
                } else {
                    Decision::HandOver
                }
            }
            (State::Streaming, Kind::Pull(batch) | Kind::Discard(batch)) if batch.qid != -1 => {
                fails(Failure::StreamUnknown)
            }
            (State::TxStreaming, Kind::Pull(batch) | Kind::Discard(batch)) if self.stream_named(batch).is_none() => {
                fails(Failure::StreamUnknown)
            }
            (State::Connected, Kind::Hello)
            | (State::Ready, Kind::Run | Kind::Begin)
            | (State::Streaming | State::TxStreaming, Kind::Pull(_) | Kind::Discard(_))
            | (State::TxReady, Kind::Commit | Kind::Rollback) => Decision::HandOver,
            _ => Decision::Close,
        }
    }

    /// Where the stream that is named stands among the open ones. -1 is the latest, which may have ended.
    fn stream_named(&self, batch: Batch) -> Option<usize> {
        let number = if batch.qid == -1 { self.next.checked_sub(1)? } else { batch.qid as u64 };
        self.streams().iter().position(|&stream| stream == number)
    }

    /// What a success does to streams and numbers, and the state that it leads to.
    fn succeed(&mut self, kind: Kind) -> State {
        match (self.state, kind) {
            (State::Ready, Kind::Run) => State::Streaming,
            (State::Ready, Kind::Begin) => {
                self.next = 0;
                State::TxReady
            }
            (State::TxReady | State::TxStreaming, Kind::Run) => {
                self.open[self.open_count as usize] = self.next;
                self.open_count += 1;
                self.next += 1;
                State::TxStreaming
            }
            (State::TxStreaming, Kind::Pull(batch) | Kind::Discard(batch)) => {
                if let Some(index) = self.stream_named(batch) {
                    self.open.copy_within(index + 1..self.open_count as usize, index);
                    self.open_count -= 1;
                }
                if self.open_count == 0 { State::TxReady } else { State::TxStreaming }
            }
            // HELLO, COMMIT, ROLLBACK, and the last batch of an auto-commit transaction.
            _ => State::Ready,
        }
    }

    /// Hands back the summary of the first waiting request, which is thereby done.
    fn answer(&mut self, summary: Summary, leads_to: State) -> Answer {
        self.waiting.copy_within(1..self.waiting_count as usize, 0);
        self.waiting_count -= 1;
        self.sent += 1;
        let number = self.sent;
        self.enter(leads_to);
        Answer { number, summary }
    }

    fn enter(&mut self, state: State) {
        self.state = state;
        if matches!(state, State::Failed | State::Defunct) {
            self.open_count = 0;
        }
        if state == State::Defunct {
            self.waiting_count = 0;
            self.in_flight = false;
        }
    }
}

#[cfg(test)]
mod tests {
    use super::*;
    use Kind::{Begin, Commit, Goodbye, Hello, Reset, Rollback, Run};

    const PULL: Kind = Kind::Pull(Batch { n: -1, qid: -1 });

    fn pull(qid: i64) -> Kind {
        Kind::Pull(Batch { n: 1, qid })
    }

    /// Arrives, takes, and reports success where the engine was asked.
    fn serve(connection: &mut Connection, kind: Kind) -> Summary {
        connection.arrive(kind).unwrap();
        match connection.take().unwrap() {
            Turn::Handed { kind: handed, .. } => {
                assert_eq!(handed, kind);
                connection.report(Report::Success).unwrap().summary
            }
            Turn::Answered(answer) => answer.summary,
            turn => panic!("{turn:?}"),
        }
    }

    fn after(kinds: &[Kind]) -> Connection {
        let mut connection = Connection::default();
        for &kind in kinds {
            serve(&mut connection, kind);
            assert!(connection.keeps_rules());
        }
        connection
    }

    #[test]
    fn fresh() {
        let mut fresh = Connection::default();
        assert!(fresh.keeps_rules());
        assert_eq!(fresh.take(), Ok(Turn::Idle));
        assert_eq!(fresh.report(Report::Success), Err(Refusal::new(19)));
    }

    #[test]
    fn auto_commit() {
        let mut connection = after(&[Hello, Run]);
        assert_eq!(connection.state, State::Streaming);
        connection.arrive(PULL).unwrap();
        assert_eq!(connection.take(), Ok(Turn::Handed { kind: PULL, number: 3 }));
        assert_eq!(connection.take(), Ok(Turn::Idle));
        let answer = Answer { number: 3, summary: Summary::HasMore(true) };
        assert_eq!(connection.report(Report::SuccessWithMore), Ok(answer));
        assert_eq!(connection.state, State::Streaming);
        assert_eq!(serve(&mut connection, PULL), Summary::HasMore(false));
        assert_eq!(connection.state, State::Ready);
    }

    #[test]
    fn only_minus_one_names_the_stream_of_streaming() {
        let mut connection = after(&[Hello, Run]);
        assert_eq!(serve(&mut connection, pull(0)), Summary::Failure(Failure::StreamUnknown));
        assert_eq!(connection.state, State::Failed);
        assert_eq!(serve(&mut connection, Run), Summary::Ignored);
    }

    #[test]
    fn transaction_with_two_streams() {
        let mut connection = after(&[Hello, Begin]);
        assert_eq!(serve(&mut connection, Run), Summary::Qid(0));
        assert_eq!(serve(&mut connection, Run), Summary::Qid(1));
        assert_eq!(serve(&mut connection, pull(0)), Summary::HasMore(false));
        assert_eq!(connection.state, State::TxStreaming);
        assert_eq!(connection.streams(), [1]);
        assert_eq!(serve(&mut connection, PULL), Summary::HasMore(false));
        assert_eq!(connection.state, State::TxReady);
        assert_eq!(serve(&mut connection, Commit), Summary::Success);
        assert_eq!((connection.state, connection.next), (State::Ready, 2));
        assert_eq!(serve(&mut connection, Begin), Summary::Success);
        assert_eq!(connection.next, 0);
        assert_eq!(serve(&mut connection, Rollback), Summary::Success);
    }

    #[test]
    fn latest_stream_may_have_ended() {
        let mut connection = after(&[Hello, Begin, Run, Run, pull(1)]);
        assert_eq!(serve(&mut connection, PULL), Summary::Failure(Failure::StreamUnknown));
        assert_eq!((connection.state, connection.streams().len()), (State::Failed, 0));
    }

    #[test]
    fn ninth_stream() {
        let eight = after(&[Hello, Begin, Run, Run, Run, Run, Run, Run, Run, Run]);
        assert_eq!(serve(&mut { eight }, Run), Summary::Failure(Failure::StreamFull));
        let mut one_ended = eight;
        serve(&mut one_ended, pull(3));
        assert_eq!(serve(&mut one_ended, Run), Summary::Qid(8));
    }

    #[test]
    fn last_number() {
        let mut connection = after(&[Hello, Begin]);
        connection.next = 65_535;
        assert_eq!(serve(&mut connection, Run), Summary::Qid(65_535));
        assert_eq!(serve(&mut connection, Run), Summary::Failure(Failure::StreamFull));
    }

    #[test]
    fn resets() {
        let mut connection = after(&[Hello, Begin, Run]);
        for kind in [Run, Commit, Reset, Run, Reset, Begin] {
            connection.arrive(kind).unwrap();
        }
        assert_eq!((connection.state, connection.streams().len()), (State::Interrupted, 0));
        let mut summaries = Vec::new();
        while let Turn::Answered(answer) = connection.take().unwrap() {
            summaries.push((answer.number, answer.summary));
        }
        use Summary::{Ignored, Success};
        assert_eq!(summaries, [(4, Ignored), (5, Ignored), (6, Success), (7, Ignored), (8, Success)]);
        // The BEGIN behind the last RESET was handed over.
        assert_eq!((connection.state, connection.in_flight), (State::Ready, true));
    }

    #[test]
    fn reset_while_in_flight() {
        let mut connection = after(&[Hello, Begin]);
        connection.arrive(Run).unwrap();
        connection.take().unwrap();
        connection.arrive(Reset).unwrap();
        assert_eq!(connection.take(), Ok(Turn::Idle));
        assert_eq!(connection.report(Report::Success).map(|answer| answer.summary), Ok(Summary::Success));
        assert_eq!((connection.state, connection.next), (State::Interrupted, 0));
        assert_eq!(connection.take(), Ok(Turn::Answered(Answer { number: 4, summary: Summary::Success })));
        assert_eq!(connection.state, State::Ready);
    }

    #[test]
    fn closing() {
        let mut connection = Connection::default();
        assert_eq!(connection.arrive(Reset), Ok(Arrival::Closed));
        assert_eq!((connection.state, connection.accepted, connection.sent), (State::Defunct, 1, 0));
        assert_eq!(connection.arrive(Run), Err(Refusal::new(18)));
        assert_eq!(connection.take(), Err(Refusal::new(18)));
        assert_eq!(connection.report(Report::Success), Err(Refusal::new(18)));
        assert_eq!(connection.close(), Err(Refusal::new(18)));

        let mut goodbye = after(&[Hello]);
        goodbye.arrive(Goodbye).unwrap();
        goodbye.arrive(Run).unwrap();
        assert_eq!(goodbye.take(), Ok(Turn::Closed));
        assert_eq!((goodbye.state, goodbye.waiting_count, goodbye.accepted), (State::Defunct, 0, 3));

        let mut early = Connection::default();
        early.arrive(Run).unwrap();
        assert_eq!(early.take(), Ok(Turn::Closed));

        let mut failed = Connection::default();
        failed.arrive(Hello).unwrap();
        failed.take().unwrap();
        let answer = Answer { number: 1, summary: Summary::Failure(Failure::EngineFailed) };
        assert_eq!(failed.report(Report::Failure), Ok(answer));
        assert_eq!((failed.state, failed.sent), (State::Defunct, 1));
    }

    #[test]
    fn arrive_refusals_in_order() {
        let mut full = after(&[Hello]);
        for _ in 0..32 {
            full.arrive(Run).unwrap();
        }
        assert_eq!(full.arrive(Run), Err(Refusal::new(17)));
        full.accepted = ACCEPTED_MAX;
        full.sent = ACCEPTED_MAX - 32;
        assert_eq!(full.arrive(Run), Err(Refusal::new(20)));
        assert_eq!(full.arrive(pull(-2)), Err(Refusal::new(27)));
        let mut defunct = full;
        defunct.close().unwrap();
        assert_eq!(defunct.arrive(pull(-2)), Err(Refusal::new(18)));
        full.sent += 1;
        assert_eq!(full.arrive(pull(-2)), Err(Refusal::new(24)));
    }

    #[test]
    fn numbers_that_arrive() {
        let ready = after(&[Hello]);
        for (n, qid) in [(-1, -1), (1, 0), (i64::MAX, i64::MAX)] {
            let batch = Batch { n, qid };
            assert_eq!({ ready }.arrive(Kind::Pull(batch)), Ok(Arrival::Queued));
            assert_eq!({ ready }.arrive(Kind::Discard(batch)), Ok(Arrival::Queued));
        }
        for (n, qid) in [(0, -1), (-2, -1), (i64::MIN, 0), (1, -2), (-1, i64::MIN), (0, -2)] {
            let batch = Batch { n, qid };
            assert_eq!({ ready }.arrive(Kind::Pull(batch)), Err(Refusal::new(27)));
            assert_eq!({ ready }.arrive(Kind::Discard(batch)), Err(Refusal::new(27)));
        }
    }

    #[test]
    fn no_kind_and_no_outcome() {
        let mut connection = after(&[Hello]);
        for _ in 0..32 {
            connection.arrive(Run).unwrap();
        }
        connection.take().unwrap();
        assert_eq!(connection.arrive(None), Err(Refusal::new(27)));
        assert_eq!(connection.report(None), Err(Refusal::new(19)));
        connection.accepted = ACCEPTED_MAX;
        connection.sent = ACCEPTED_MAX - 32;
        assert_eq!(connection.arrive(None), Err(Refusal::new(27)));
        let mut broken = connection;
        broken.sent += 1;
        assert_eq!(broken.arrive(None), Err(Refusal::new(24)));
        assert_eq!(broken.report(None), Err(Refusal::new(24)));
        connection.close().unwrap();
        assert_eq!(connection.arrive(None), Err(Refusal::new(18)));
        assert_eq!(connection.report(None), Err(Refusal::new(18)));
        connection.waiting_count = 1;
        assert_eq!(connection.arrive(None), Err(Refusal::new(24)));
        assert_eq!(connection.report(None), Err(Refusal::new(24)));
    }

    #[test]
    fn more_is_for_batches() {
        let mut connection = Connection::default();
        connection.arrive(Hello).unwrap();
        connection.take().unwrap();
        assert_eq!(connection.report(Report::SuccessWithMore), Err(Refusal::new(19)));
        assert!(connection.report(Report::Success).is_ok());
    }

    #[test]
    fn broken_rules() {
        let whole = after(&[Hello, Begin, Run, Run]);
        type Breaking = fn(&mut Connection);
        let breakings: [Breaking; 10] = [
            |c| c.waiting_count = 33,
            |c| c.open_count = 9,
            |c| c.open[1] = c.open[0],
            |c| c.open[1] = c.next,
            |c| c.next = 65_537,
            |c| c.state = State::Interrupted,
            |c| c.state = State::Ready,
            |c| c.in_flight = true,
            |c| c.sent = u64::MAX,
            |c| c.open_count = 0,
        ];
        for breaks in breakings {
            let mut broken = whole;
            breaks(&mut broken);
            assert_eq!(broken.take(), Err(Refusal::new(24)));
        }
        let mut past = whole;
        past.open[2] = u64::MAX;
        past.waiting[0] = pull(-9);
        assert_eq!(past.take(), Ok(Turn::Idle));
    }

    /// The driver's pipeline of document 02, request 2.
    #[test]
    fn begin_fails_in_a_pipeline() {
        let mut connection = after(&[Hello]);
        for kind in [Begin, Run, PULL, Commit] {
            connection.arrive(kind).unwrap();
        }
        assert_eq!(connection.take(), Ok(Turn::Handed { kind: Begin, number: 2 }));
        let answer = Answer { number: 2, summary: Summary::Failure(Failure::EngineFailed) };
        assert_eq!(connection.report(Report::Failure), Ok(answer));
        for number in 3..=5 {
            assert_eq!(connection.take(), Ok(Turn::Answered(Answer { number, summary: Summary::Ignored })));
        }
        assert_eq!(connection.take(), Ok(Turn::Idle));
        assert_eq!(connection.state, State::Failed);
        assert_eq!(serve(&mut connection, Reset), Summary::Success);
        let summaries = [Begin, Run, PULL, Commit].map(|kind| serve(&mut connection, kind));
        assert_eq!(summaries, [Summary::Success, Summary::Qid(0), Summary::HasMore(false), Summary::Success]);
        assert_eq!((connection.state, connection.sent), (State::Ready, 10));
    }

    /// FAILED, however it was reached.
    #[test]
    fn failed_ignores_work() {
        let fails = |kinds: &[Kind], last: Kind| {
            let mut connection = after(kinds);
            connection.arrive(last).unwrap();
            if matches!(connection.take(), Ok(Turn::Handed { .. })) {
                connection.report(Report::Failure).unwrap();
            }
            connection
        };
        let full = [Hello, Begin, Run, Run, Run, Run, Run, Run, Run, Run];
        for failed in [
            fails(&[Hello], Run),
            fails(&[Hello], Begin),
            fails(&[Hello, Run], PULL),
            fails(&[Hello, Begin, Run, PULL], Commit),
            fails(&[Hello, Begin, Run], pull(1)),
            fails(&full, Run),
        ] {
            assert_eq!(failed.state, State::Failed);
            for kind in [Run, Begin, Commit, Rollback, Kind::Discard(Batch { n: 1, qid: 0 }), PULL] {
                let mut ignoring = failed;
                assert_eq!(serve(&mut ignoring, kind), Summary::Ignored);
                assert_eq!((ignoring.state, ignoring.next), (State::Failed, failed.next));
            }
            for kind in [Hello, Goodbye] {
                let mut closing = failed;
                closing.arrive(kind).unwrap();
                assert_eq!(closing.take(), Ok(Turn::Closed));
            }
            let mut again = failed;
            assert_eq!(serve(&mut again, Reset), Summary::Success);
            assert_eq!((again.state, again.next), (State::Ready, failed.next));
        }
    }
}
