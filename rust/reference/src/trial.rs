//! The bench trial program: from all the bytes of its input to all the bytes of its output.

use crate::connection::{Answer, Arrival, Connection, Kind, Report, Turn};
use crate::frame::{self, Frame};
use crate::handshake::{self, Version};
use crate::request::{self, Request};
use crate::{MESSAGE_MAX, Refusal, Result, pack};

/// The most characters of a line.
const LINE_MAX: usize = 40_000;

/// The lines of a stream: each ends with 0A, which the last may lack.
fn lines(input: &[u8]) -> impl Iterator<Item = &[u8]> {
    input.split_inclusive(|&byte| byte == b'\n').map(|line| line.strip_suffix(b"\n").unwrap_or(line))
}

fn digit(character: u8) -> Option<u8> {
    match character {
        b'0'..=b'9' => Some(character - b'0'),
        b'A'..=b'F' => Some(character - b'A' + 10),
        _ => None,
    }
}

/// The bytes of a line of upper-case hexadecimal digits.
fn decode(line: &[u8]) -> Result<Vec<u8>> {
    if line.len() > LINE_MAX || line.len() % 2 != 0 {
        return Err(Refusal::new(Refusal::INVALID_LINE));
    }
    let pair = |pair: &[u8]| Some(digit(pair[0])? << 4 | digit(pair[1])?);
    line.chunks_exact(2).map(pair).collect::<Option<_>>().ok_or(Refusal::new(Refusal::INVALID_LINE))
}

fn kind(request: Request) -> Kind {
    match request {
        Request::Hello(_) => Kind::Hello,
        Request::Goodbye => Kind::Goodbye,
        Request::Reset => Kind::Reset,
        Request::Run { .. } => Kind::Run,
        Request::Begin(_) => Kind::Begin,
        Request::Commit => Kind::Commit,
        Request::Rollback => Kind::Rollback,
        Request::Discard(batch) => Kind::Discard(batch),
        Request::Pull(batch) => Kind::Pull(batch),
    }
}

#[derive(Default)]
struct Trial {
    version: Option<Version>,
    connection: Connection,
    output: Vec<u8>,
}

impl Trial {
    fn send(&mut self, bytes: &[u8]) {
        self.output.extend(bytes.iter().flat_map(|byte| format!("{byte:02X}").into_bytes()));
        self.output.push(b'\n');
    }

    fn send_summary(&mut self, answer: Answer) -> Result<()> {
        let (mut message, mut chunks) = ([0; 128], [0; 132]);
        let length = pack::summary(answer.summary, &mut message)?;
        let length = frame::write(&message[..length], length, &mut chunks)?;
        self.send(&chunks[..length]);
        Ok(())
    }

    fn greet(&mut self, bytes: &[u8]) -> Result<bool> {
        let version = handshake::choose(bytes).inspect_err(|refusal| {
            if refusal.number == Refusal::NOTHING_IN_COMMON {
                self.send(&[0; 4]);
            }
        })?;
        if bytes.len() > handshake::LENGTH {
            return Err(Refusal::new(Refusal::INVALID_LINE));
        }
        self.version = Some(version);
        self.send(&version.to_bytes());
        Ok(true)
    }

    /// After a frame, takes and reports until idle or closed.
    fn answer(&mut self, version: Version, bytes: &[u8]) -> Result<bool> {
        let mut buffer = [0; MESSAGE_MAX];
        let frame = frame::read(version, bytes, &mut buffer)?;
        let (message, consumed) = match frame {
            Frame::Message { length, consumed } => (Some(&buffer[..length]), consumed),
            Frame::KeepAlive => (None, 2),
        };
        if consumed < bytes.len() {
            return Err(Refusal::new(Refusal::INVALID_LINE));
        }
        let Some(message) = message else { return Ok(true) };
        let arrival = self.connection.arrive(kind(request::read(version, message)?))?;
        if arrival == Arrival::Closed {
            return Ok(false);
        }
        loop {
            match self.connection.take()? {
                Turn::Idle => return Ok(true),
                Turn::Closed => return Ok(false),
                Turn::Handed { .. } => {
                    let answer = self.connection.report(Report::Success)?;
                    self.send_summary(answer)?;
                }
                Turn::Answered(answer) => self.send_summary(answer)?,
            }
        }
    }

    /// Whether the run goes on.
    fn line(&mut self, line: &[u8]) -> Result<bool> {
        let bytes = decode(line)?;
        match self.version {
            None => self.greet(&bytes),
            Some(version) => self.answer(version, &bytes),
        }
    }
}

/// What the program writes for its whole input.
pub fn run(input: &[u8]) -> Vec<u8> {
    let mut trial = Trial::default();
    for line in lines(input) {
        match trial.line(line) {
            Ok(true) => {}
            Ok(false) => break,
            Err(refusal) => {
                trial.send(&[refusal.number]);
                break;
            }
        }
    }
    trial.output
}

#[cfg(test)]
mod tests {
    use super::*;

    #[test]
    fn one_run_whole() {
        let input = b"6060B01700000104000000040000000000000000\n\
            0012B101A18A757365725F6167656E7483502F310000\n\
            0000\n\
            0006B3108152A0A00000\n\
            0006B13FA1816EFF0000\n\
            0002B0020000";
        let output = b"00000104\n0003B170A00000\n0003B170A00000\n000DB170A1886861735F6D6F7265C20000\n";
        assert_eq!(run(input), output);
        assert_eq!(run(&[input, &b"\n"[..]].concat()), output);
    }

    #[test]
    fn lines_of_a_stream() {
        assert_eq!(lines(b"").count(), 0);
        assert_eq!(lines(b"\n").collect::<Vec<_>>(), [b""]);
        assert_eq!(lines(b"a\n\nb").collect::<Vec<_>>(), [&b"a"[..], b"", b"b"]);
    }

    /// A PULL with no n, with an n that is text, and with an n of 0; nothing behind them is read.
    #[test]
    fn entries_that_are_wrong() {
        for (pull, refusal) in
            [("0003B13FA00000", "19"), ("0007B13FA1816E81310000", "1A"), ("0006B13FA1816E000000", "1B")]
        {
            let input = format!("6060B01700000104000000040000000000000000\n{pull}\n0002B0020000\n");
            assert_eq!(run(input.as_bytes()), format!("00000104\n{refusal}\n").into_bytes());
        }
    }

    #[test]
    fn four_zeros_before_3() {
        assert_eq!(run(b"6060B01700000005000000000000000000000000"), b"00000000\n03\n");
    }
}
