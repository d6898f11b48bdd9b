//! A conversation over the library: bytes are gathered until there is a frame, its request arrives, and whatever
//! waits gets its turn and its summary. Where a refusal ends it, the log has a line that says why.

use meulhaton::{Arrival, Connection, Frame, Outcome, Refusal, Request, State, Summary, Taken, Version};
use std::io::{self, Read, Write};

const HANDSHAKE_SHORT: u8 = 1;
const NOTHING_IN_COMMON: u8 = 3;
const FRAME_INCOMPLETE: u8 = 4;
const QUEUE_FULL: u8 = 17;
const DEFUNCT: u8 = 18;
const REQUEST_LIMIT_REACHED: u8 = 20;
const NO_ROOM: u8 = 21;

/// The bytes of a handshake.
const HANDSHAKE: usize = 20;
/// A summary is sent in one chunk.
const CHUNK_SIZE: usize = 65_535;

/// What to do after all that has come was looked at.
#[derive(PartialEq)]
enum Next {
    ReadMore,
    Close,
}

/// Serves one client until it leaves, says GOODBYE, or has to be left.
///
/// The engine does the work of each request that is handed to it, one after the other, and says how it came out.
pub fn serve(
    input: &mut impl Read,
    output: &mut impl Write,
    log: &mut impl Write,
    engine: impl FnMut(Request) -> Outcome,
) -> io::Result<()> {
    let mut gathered = Gathered { input, bytes: Vec::new() };
    let Some(version) = shake_hands(&mut gathered, output, log)? else { return output.flush() };
    let mut conversation = Conversation::new(version, output, log, engine);
    loop {
        let next = conversation.hear(&mut gathered.bytes)?;
        conversation.output.flush()?;
        if next == Next::Close || !gathered.more()? {
            // Refused with 18 where it is closed already.
            let _ = conversation.connection.close();
            return Ok(());
        }
    }
}

/// Bytes that have come and were not consumed.
struct Gathered<'i, R> {
    input: &'i mut R,
    bytes: Vec<u8>,
}

impl<R: Read> Gathered<'_, R> {
    /// Waits for more bytes; false at the end of the input.
    fn more(&mut self) -> io::Result<bool> {
        let mut bytes = [0; 8192];
        let count = self.input.read(&mut bytes)?;
        self.bytes.extend_from_slice(&bytes[..count]);
        Ok(count > 0)
    }
}

/// The version agreed on, or none where the connection ends here.
fn shake_hands(
    gathered: &mut Gathered<impl Read>,
    output: &mut impl Write,
    log: &mut impl Write,
) -> io::Result<Option<Version>> {
    loop {
        match meulhaton::negotiate(&gathered.bytes) {
            Ok(version) => {
                gathered.bytes.drain(..HANDSHAKE);
                output.write_all(&version.to_bytes())?;
                return Ok(Some(version));
            }
            Err(Refusal { number: HANDSHAKE_SHORT, .. }) if gathered.more()? => {}
            Err(refusal) => {
                if refusal.number == NOTHING_IN_COMMON {
                    output.write_all(&[0; 4])?;
                }
                tell(log, refusal);
                return Ok(None);
            }
        }
    }
}

struct Conversation<'o, W, L, E> {
    version: Version,
    connection: Connection,
    output: &'o mut W,
    log: &'o mut L,
    engine: E,
    /// Lent to the library, and enlarged where it says that there is no room.
    message: Vec<u8>,
    summary: Vec<u8>,
    chunks: Vec<u8>,
}

impl<'o, W: Write, L: Write, E: FnMut(Request) -> Outcome> Conversation<'o, W, L, E> {
    fn new(version: Version, output: &'o mut W, log: &'o mut L, engine: E) -> Self {
        let buffer = || vec![0; 64];
        Conversation {
            version,
            connection: Connection::fresh(),
            output,
            log,
            engine,
            message: buffer(),
            summary: buffer(),
            chunks: buffer(),
        }
    }

    /// Lets all requests arrive that are there whole, then answers them. What is left of `bytes` is no whole frame.
    fn hear(&mut self, bytes: &mut Vec<u8>) -> io::Result<Next> {
        let mut heard = 0;
        let next = loop {
            let frame =
                with_room(&mut self.message, |buffer| meulhaton::read_frame(self.version, &bytes[heard..], buffer));
            match frame {
                Ok(Frame::KeepAlive { consumed }) => heard += consumed,
                Ok(Frame::Message { length, consumed }) => {
                    heard += consumed;
                    if self.arrive(length)? == Next::Close {
                        break Next::Close;
                    }
                }
                Err(Refusal { number: FRAME_INCOMPLETE, .. }) => break Next::ReadMore,
                Err(refusal) => break self.refused(refusal)?,
            }
        };
        bytes.drain(..heard);
        match self.answer()? {
            Next::ReadMore => Ok(next),
            Next::Close => Ok(Next::Close),
        }
    }

    /// The message's request joins those that wait; where too many wait, they get their turn first.
    fn arrive(&mut self, length: usize) -> io::Result<Next> {
        let read = match meulhaton::read_request(self.version, &self.message[..length]) {
            Ok(read) => read,
            Err(refusal) => return self.refused(refusal),
        };
        loop {
            match self.connection.arrive(read.request) {
                // HELLO gets its turn at once: a RESET that arrives before it has had it closes the connection.
                Ok(Arrival::Queued) if self.connection.state() == Some(State::Connected) => return self.answer(),
                Ok(Arrival::Queued) => return Ok(Next::ReadMore),
                Err(Refusal { number: QUEUE_FULL, .. }) => {
                    if self.answer()? == Next::Close {
                        return Ok(Next::Close);
                    }
                }
                Ok(Arrival::Closed) => return Ok(Next::Close),
                Err(refusal) => return self.refused(refusal),
            }
        }
    }

    /// The log says what is wrong with what the client sent, and the connection closes. Any other refusal is not the
    /// client's.
    fn refused(&mut self, refusal: Refusal) -> io::Result<Next> {
        if refusal.closes() || refusal.number == REQUEST_LIMIT_REACHED {
            tell(self.log, refusal);
            return Ok(Next::Close);
        }
        Err(unexpected(refusal))
    }

    /// Gives the waiting requests their turns until none waits.
    fn answer(&mut self) -> io::Result<Next> {
        loop {
            let summary = match self.connection.take() {
                Ok(Taken::Idle) => return Ok(Next::ReadMore),
                Ok(Taken::Answered(answered)) => answered.summary,
                Ok(Taken::Handed { request, .. }) => match self.connection.report((self.engine)(request)) {
                    Ok(answered) => answered.summary,
                    Err(refusal) => return Err(unexpected(refusal)),
                },
                Ok(Taken::Closed) | Err(Refusal { number: DEFUNCT, .. }) => return Ok(Next::Close),
                Err(refusal) => return Err(unexpected(refusal)),
            };
            self.send(summary)?;
        }
    }

    fn send(&mut self, summary: Summary) -> io::Result<()> {
        let length = with_room(&mut self.summary, |buffer| meulhaton::pack_summary(summary, buffer, 0));
        let length = length.map_err(unexpected)?;
        let message = &self.summary[..length];
        let length = with_room(&mut self.chunks, |buffer| meulhaton::write_chunks(message, CHUNK_SIZE, buffer));
        self.output.write_all(&self.chunks[..length.map_err(unexpected)?])
    }
}

/// Calls with a larger buffer for as long as there is no room.
fn with_room<T>(buffer: &mut Vec<u8>, mut call: impl FnMut(&mut [u8]) -> Result<T, Refusal>) -> Result<T, Refusal> {
    loop {
        match call(buffer) {
            Err(Refusal { number: NO_ROOM, .. }) => buffer.resize(2 * buffer.len(), 0),
            answer => return answer,
        }
    }
}

/// A log that cannot be written is no reason to treat the client differently.
fn tell(log: &mut impl Write, refusal: Refusal) {
    let _ = writeln!(log, "refused: {refusal}");
}

/// The calls are made so that no other refusal comes: a summary, say, always fits a message, and a message its chunks.
fn unexpected(refusal: Refusal) -> io::Error {
    io::Error::other(format!("refused: {refusal}"))
}
