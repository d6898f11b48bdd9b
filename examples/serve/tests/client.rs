//! Drives `serve` through a pipe with a client written from source document 000: pipelined, with keep-alives between
//! messages and writes cut at random. Answer k must be the one that belongs to request k.

use meulhaton::{Outcome, Request};
use std::io::{Read, Write};
use std::process::{Command, Stdio};
use std::thread;
use std::time::Duration;

/// Marsaglia's xorshift.
struct Random(u64);

impl Random {
    fn below(&mut self, end: usize) -> usize {
        self.0 ^= self.0 << 13;
        self.0 ^= self.0 >> 7;
        self.0 ^= self.0 << 17;
        (self.0 >> 33) as usize % end
    }
}

const PREAMBLE: [u8; 4] = [0x60, 0x60, 0xB0, 0x17];

fn handshake(minor: u8) -> Vec<u8> {
    [&PREAMBLE[..], &[0, 0, minor, 4], &[0; 12]].concat()
}

/// A request that a client can send, and the answer that belongs to it.
#[derive(Clone, Debug)]
struct Exchange {
    request: Vec<u8>,
    answer: Vec<u8>,
}

const SUCCESS: &[u8] = b"\xB1\x70\xA0";
const NO_MORE: &[u8] = b"\xB1\x70\xA1\x88has_more\xC2";
const IGNORED: &[u8] = b"\xB0\x7E";

fn exchange(request: impl Into<Vec<u8>>, answer: impl Into<Vec<u8>>) -> Exchange {
    Exchange { request: request.into(), answer: answer.into() }
}

fn hello() -> Exchange {
    exchange(*b"\xB1\x01\xA2\x8Auser_agent\x8DExample/4.1.0\x86scheme\x84none", SUCCESS)
}

/// RUN "RETURN $x" {"x": text} {}
fn run(text: &str, answer: impl Into<Vec<u8>>) -> Exchange {
    let size = (text.len() as u16).to_be_bytes();
    exchange([b"\xB3\x10\x89RETURN $x\xA1\x81x\xD1", &size[..], text.as_bytes(), b"\xA0"].concat(), answer)
}

fn qid(number: usize) -> Vec<u8> {
    assert!(number < 128);
    [b"\xB1\x70\xA1\x83qid", &[number as u8][..]].concat()
}

fn failure(text: &str) -> Vec<u8> {
    let text = [&[0xD0, text.len() as u8][..], text.as_bytes()].concat();
    [b"\xB1\x7F\xA2\x84code", &text[..], b"\x87message", &text].concat()
}

fn begin() -> Exchange {
    exchange(*b"\xB1\x11\xA1\x84mode\x81r", SUCCESS)
}

fn pull() -> Exchange {
    exchange(*b"\xB1\x3F\xA1\x81n\xFF", NO_MORE)
}

fn batch(tag: u8, number: usize) -> Exchange {
    exchange([&[0xB1, tag][..], b"\xA2\x81n\xC9\x03\xE8\x83qid", &[number as u8]].concat(), NO_MORE)
}

fn plain(tag: u8) -> Exchange {
    exchange([0xB0, tag], SUCCESS)
}

fn commit() -> Exchange {
    plain(0x12)
}

fn reset() -> Exchange {
    plain(0x0F)
}

fn goodbye() -> Exchange {
    exchange([0xB0, 0x02], [])
}

/// Streams of one transaction, opened and consumed in random order, beside auto-commit transactions.
fn work(random: &mut Random) -> Vec<Exchange> {
    if random.below(3) == 0 {
        return vec![run(&"x".repeat([3, 30, 300][random.below(3)]), SUCCESS), pull()];
    }
    let mut exchanges = vec![begin()];
    let (mut next, mut open) = (0, Vec::new());
    for _ in 0..random.below(12) {
        if open.len() < 8 && (open.is_empty() || random.below(2) == 0) {
            exchanges.push(run("part", qid(next)));
            open.push(next);
            next += 1;
        } else {
            let number = open.swap_remove(random.below(open.len()));
            exchanges.push(batch([0x2F, 0x3F][random.below(2)], number));
        }
    }
    exchanges.extend(open.into_iter().map(|number| batch(0x3F, number)));
    exchanges.push(plain([0x12, 0x13][random.below(2)]));
    exchanges
}

/// Chunks of a size of the client's choice, and an end.
fn frame(message: &[u8], chunk: usize) -> Vec<u8> {
    let mut bytes = Vec::new();
    for part in message.chunks(chunk) {
        bytes.extend((part.len() as u16).to_be_bytes());
        bytes.extend(part);
    }
    bytes.extend([0, 0]);
    bytes
}

/// The client's side of a conversation in raw bytes, with keep-alives if the version has them.
fn raw(random: &mut Random, minor: u8, exchanges: &[Exchange]) -> Vec<u8> {
    [handshake(minor), frames(random, minor, exchanges)].concat()
}

fn frames(random: &mut Random, minor: u8, exchanges: &[Exchange]) -> Vec<u8> {
    let mut bytes = Vec::new();
    for exchange in exchanges {
        if minor > 0 {
            bytes.extend(vec![0; 2 * [0, 0, 1, 3][random.below(4)]]);
        }
        let chunk = [1, 2, 7, 100, 65_535][random.below(5)];
        bytes.extend(frame(&exchange.request, chunk));
    }
    bytes
}

/// Writes cut at random: of one byte, of a few, or of all that is left.
fn cut(random: &mut Random, bytes: &[u8]) -> Vec<Vec<u8>> {
    let most = [1, 10, 200, bytes.len()][random.below(4)];
    let mut pieces = Vec::new();
    let mut rest = bytes;
    while !rest.is_empty() {
        let (piece, behind) = rest.split_at((1 + random.below(most)).min(rest.len()));
        pieces.push(piece.to_vec());
        rest = behind;
    }
    pieces
}

/// Sends `pieces` one by one and gathers what comes back until the server closes.
fn talk(pieces: Vec<Vec<u8>>) -> Vec<u8> {
    talk_after(&[], 0, pieces)
}

/// Sends `first`, waits for `awaited` bytes, and only then goes on.
fn talk_after(first: &[u8], awaited: usize, pieces: Vec<Vec<u8>>) -> Vec<u8> {
    talk_and_log(first, awaited, pieces).0
}

/// What comes back, and what the server logs.
fn talk_and_log(first: &[u8], awaited: usize, pieces: Vec<Vec<u8>>) -> (Vec<u8>, String) {
    let mut server = Command::new(env!("CARGO_BIN_EXE_serve"))
        .stdin(Stdio::piped())
        .stdout(Stdio::piped())
        .stderr(Stdio::piped())
        .spawn()
        .expect("serve runs");
    let mut to_server = server.stdin.take().expect("a pipe");
    let mut from_server = server.stdout.take().expect("a pipe");
    let mut answers = vec![0; awaited];
    to_server.write_all(first).expect("serve reads");
    from_server.read_exact(&mut answers).expect("serve answers");
    let few = pieces.len() < 2_000;
    let client = thread::spawn(move || {
        for piece in pieces {
            // The server may have closed before the last piece.
            if to_server.write_all(&piece).is_err() {
                break;
            }
            if few {
                thread::sleep(Duration::from_micros(20));
            }
        }
    });
    from_server.read_to_end(&mut answers).expect("serve answers");
    client.join().expect("the client ends");
    let ended = server.wait_with_output().expect("serve ends");
    let log = String::from_utf8_lossy(&ended.stderr).into_owned();
    assert!(ended.status.success(), "{log}");
    (answers, log)
}

/// Takes the version and then the messages out of what the server sent.
fn messages(minor: u8, mut bytes: &[u8]) -> Vec<Vec<u8>> {
    let (version, rest) = bytes.split_at(4);
    assert_eq!(version, [0, 0, minor, 4]);
    bytes = rest;
    let (mut messages, mut message) = (Vec::new(), Vec::new());
    while !bytes.is_empty() {
        let size = usize::from(u16::from_be_bytes([bytes[0], bytes[1]]));
        message.extend(&bytes[2..2 + size]);
        bytes = &bytes[2 + size..];
        if size == 0 {
            messages.push(std::mem::take(&mut message));
        }
    }
    assert!(message.is_empty());
    messages
}

/// The answers to `exchanges` in whole, whatever the cuts.
fn answers(random: &mut Random, minor: u8, exchanges: &[Exchange]) -> Vec<Vec<u8>> {
    let bytes = raw(random, minor, exchanges);
    messages(minor, &talk(cut(random, &bytes)))
}

fn expected(exchanges: &[Exchange]) -> Vec<Vec<u8>> {
    exchanges.iter().map(|exchange| exchange.answer.clone()).filter(|answer| !answer.is_empty()).collect()
}

#[test]
fn session_of_document_01() {
    let sent = b"\x60\x60\xB0\x17\0\0\x01\x04\0\0\0\x04\0\0\0\0\0\0\0\0\0\x12\xB1\x01\xA1\x8Auser_agent\x83P/1\0\0\0\0\
        \0\x06\xB3\x10\x81R\xA0\xA0\0\0\0\x06\xB1\x3F\xA1\x81n\xFF\0\0\0\x02\xB0\x02\0\0";
    let received = b"\0\0\x01\x04\0\x03\xB1\x70\xA0\0\0\0\x03\xB1\x70\xA0\0\0\0\x0D\xB1\x70\xA1\x88has_more\xC2\0\0";
    assert_eq!(talk(vec![sent.to_vec()]), received);
    assert_eq!(talk(sent.iter().map(|&byte| vec![byte]).collect()), received);
}

#[test]
fn answer_k_belongs_to_request_k() {
    let mut random = Random(0x4D65_756C_6861_746F);
    for round in 0..60 {
        let minor = [0, 1, 2][round % 3];
        let mut exchanges = vec![hello()];
        for _ in 0..random.below(40) {
            exchanges.extend(work(&mut random));
        }
        if random.below(2) == 0 {
            exchanges.push(goodbye());
        }
        assert_eq!(answers(&mut random, minor, &exchanges), expected(&exchanges));
    }
}

#[test]
fn hundred_requests_in_one_write() {
    let mut exchanges = vec![hello()];
    for _ in 0..50 {
        exchanges.extend([run("part", SUCCESS), pull()]);
    }
    let bytes = raw(&mut Random(5), 1, &exchanges);
    assert_eq!(messages(1, &talk(vec![bytes])), expected(&exchanges));
}

#[test]
fn messages_up_to_the_longest() {
    // A RUN has 19 bytes beside its text.
    for (length, passes) in [(16_384, true), (16_385, false)] {
        let exchanges = [hello(), run(&"x".repeat(length - 19), SUCCESS), pull()];
        assert_eq!(exchanges[1].request.len(), length);
        let answers = answers(&mut Random(9), 1, &exchanges);
        assert_eq!(answers, expected(&exchanges[..if passes { 3 } else { 1 }]));
    }
}

/// The answers to `exchanges`, which are sent once the HELLO before them was answered.
fn answers_after_hello(exchanges: &[Exchange], cut: impl FnOnce(&[u8]) -> Vec<Vec<u8>>) -> Vec<Vec<u8>> {
    let mut random = Random(11);
    let first = raw(&mut random, 1, &[hello()]);
    let bytes = frames(&mut random, 1, exchanges);
    let mut answers = messages(1, &talk_after(&first, 4 + frame(SUCCESS, 9).len(), cut(&bytes)));
    assert_eq!(answers.remove(0), SUCCESS);
    answers
}

/// HELLO is answered before the RESET behind it, wherever the input is cut.
#[test]
fn reset_right_behind_hello() {
    let exchanges = [hello(), reset(), run("part", SUCCESS), pull()];
    for seed in 1..9 {
        assert_eq!(answers(&mut Random(seed), 1, &exchanges), expected(&exchanges));
    }
    let bytes = raw(&mut Random(12), 1, &exchanges);
    assert_eq!(messages(1, &talk(vec![bytes])), expected(&exchanges));
}

#[test]
fn reset_jumps_ahead() {
    let exchanges = [
        exchange(run("part", []).request, IGNORED),
        exchange(pull().request, IGNORED),
        reset(),
        exchange(commit().request, IGNORED),
        reset(),
        begin(),
        run("part", qid(0)),
    ];
    assert_eq!(answers_after_hello(&exchanges, |bytes| vec![bytes.to_vec()]), expected(&exchanges));
}

/// What is ahead of a RESET is answered as ever until the RESET has come, and ignored from there up to the RESET.
#[test]
fn resets_in_the_pipeline() {
    let mut random = Random(0x5265_7365_7473);
    for _ in 0..40 {
        let mut exchanges = Vec::new();
        for _ in 0..random.below(20) {
            let mut part = work(&mut random);
            if random.below(2) == 0 {
                part.truncate(random.below(part.len()));
                part.push(reset());
            }
            exchanges.extend(part);
        }
        let is_reset = |exchange: &Exchange| exchange.request == reset().request;
        let ahead = exchanges.iter().rposition(is_reset).unwrap_or(0);
        let answers = answers_after_hello(&exchanges, |bytes| cut(&mut random, bytes));
        assert_eq!(answers.len(), exchanges.len());
        let mut ignoring = false;
        for (k, (answer, exchange)) in answers.iter().zip(&exchanges).enumerate() {
            let fits = if is_reset(exchange) {
                ignoring = false;
                *answer == exchange.answer
            } else if answer == IGNORED {
                ignoring = true;
                k < ahead
            } else {
                *answer == exchange.answer && !ignoring
            };
            assert!(fits, "answer {} to {:02X?}: {answer:02X?}", k + 1, exchange.request);
        }
    }
}

#[test]
fn failures_until_reset() {
    let exchanges = [
        hello(),
        begin(),
        run("part", qid(0)),
        exchange(batch(0x3F, 7).request, failure("Parts.Stream.Unknown")),
        exchange(run("part", []).request, IGNORED),
        exchange(pull().request, IGNORED),
    ];
    assert_eq!(answers(&mut Random(3), 2, &exchanges), expected(&exchanges));
    let mut nine = vec![hello(), begin()];
    nine.extend((0..8).map(|number| run("part", qid(number))));
    nine.push(run("part", failure("Parts.Stream.Full")));
    assert_eq!(answers(&mut Random(4), 0, &nine), expected(&nine));
}

/// A driver sends BEGIN, RUN, PULL and COMMIT in one go. Where the engine fails the BEGIN, what comes behind it is
/// ignored; then a RESET, and the same once more.
#[test]
fn begin_fails_in_a_pipeline() {
    let in_one_go = [
        hello(),
        exchange(begin().request, failure("Parts.Engine.Failed")),
        exchange(run("part", []).request, IGNORED),
        exchange(pull().request, IGNORED),
        exchange(commit().request, IGNORED),
    ];
    let once_more = [reset(), begin(), run("part", qid(0)), pull(), commit()];
    let mut random = Random(16);
    let first = raw(&mut random, 1, &in_one_go);
    let second = frames(&mut random, 1, &once_more);
    let (mut answers, mut log, mut begins) = (Vec::new(), Vec::new(), 0);
    let engine = |request| {
        begins += usize::from(request == Request::Begin);
        if request == Request::Begin && begins == 1 { Outcome::Failure } else { Outcome::Success }
    };
    // A read gives nothing of the second part before the first is at its end, and answered.
    serve::serve(&mut first.chain(&second[..]), &mut answers, &mut log, engine).expect("serve ends");
    assert_eq!(messages(1, &answers), expected(&[in_one_go, once_more].concat()));
    assert_eq!((begins, log), (2, Vec::new()));
}

/// In FAILED the work of every kind is ignored; HELLO does not fit the state.
#[test]
fn failed_ignores_work_and_closes_for_hello() {
    let work = [run("part", []), begin(), commit(), plain(0x13), batch(0x2F, 0), pull()];
    let mut exchanges =
        vec![hello(), run("part", SUCCESS), exchange(batch(0x3F, 7).request, failure("Parts.Stream.Unknown"))];
    exchanges.extend(work.map(|ignored| exchange(ignored.request, IGNORED)));
    exchanges.extend([exchange(hello().request, []), exchange(pull().request, [])]);
    for seed in 1..9 {
        assert_eq!(answers(&mut Random(seed), 2, &exchanges), expected(&exchanges));
    }
}

/// Each of these is refused with 7 to 15 or 25 to 27; what came before is answered, and nothing after.
#[test]
fn closes_after_refusals() {
    for refused in [
        &[0xEF][..],
        &[0x92, 0x01],
        &[0x81, 0xFF],
        &[0xB1, 0x3F, 0xA1, 0x01, 0x01],
        &[0xB0, 0x0F, 0x00],
        &[0xB0, 0x66],
        &[0xB0, 0x3F],
        b"\xB1\x3F\xA1\x81n\x00",
        &[0x91; 18],
        b"\xB3\x10\x80\xA2\x81a\x01\x81a\x02\xA0",
    ] {
        let exchanges = [hello(), run("part", SUCCESS), exchange(refused, []), pull()];
        assert_eq!(answers(&mut Random(6), 1, &exchanges), expected(&exchanges[..2]));
    }
    // An empty message in 4.0.
    let bytes = [raw(&mut Random(7), 0, &[hello()]), vec![0, 0], frame(&goodbye().request, 9)].concat();
    assert_eq!(messages(0, &talk(vec![bytes])), [SUCCESS]);
}

/// A PULL with no n, with an n that is text, and with an n of 0: what came before is answered, nothing after, and the
/// log tells them apart.
#[test]
fn closes_after_a_wrong_entry() {
    for (pull_refused, line) in [
        (&b"\xB1\x3F\xA0"[..], "refused: 25 at 2: a required entry is missing\n"),
        (
            b"\xB1\x3F\xA1\x81n\x811",
            "refused: 26 at 5: a field or an entry is of the wrong kind, such as a text in place of a number\n",
        ),
        (
            b"\xB1\x3F\xA1\x81n\x00",
            "refused: 27 at 5: a number is out of its range, or a word is none of those allowed\n",
        ),
    ] {
        let exchanges = [hello(), begin(), run("part", qid(0)), exchange(pull_refused, []), pull(), commit()];
        let bytes = raw(&mut Random(14), 2, &exchanges);
        for pieces in [vec![bytes.clone()], cut(&mut Random(15), &bytes)] {
            let (answers, log) = talk_and_log(&[], 0, pieces);
            assert_eq!(messages(2, &answers), expected(&exchanges[..3]));
            assert_eq!(log, line);
        }
    }
}

#[test]
fn closes_where_a_request_does_not_fit_the_state() {
    let exchanges = [hello(), exchange(commit().request, []), run("part", SUCCESS)];
    assert_eq!(answers(&mut Random(8), 1, &exchanges), [SUCCESS]);
    assert_eq!(answers(&mut Random(8), 1, &[exchange(reset().request, []), hello()]), Vec::<Vec<u8>>::new());
}

#[test]
fn nothing_is_answered_behind_goodbye() {
    let exchanges = [hello(), goodbye(), run("part", SUCCESS), exchange([0xEF], [])];
    for seed in 1..9 {
        assert_eq!(answers(&mut Random(seed), 1, &exchanges), [SUCCESS]);
    }
}

/// What is whole is answered, and the rest of a message that never comes is not waited for.
#[test]
fn input_that_ends_in_a_message() {
    let whole = [hello(), run("part", SUCCESS)];
    let before = raw(&mut Random(13), 1, &whole);
    let last = frame(&pull().request, 4);
    for end in 1..last.len() {
        let bytes = [&before[..], &last[..end]].concat();
        assert_eq!(messages(1, &talk(vec![bytes])), expected(&whole));
    }
}

#[test]
fn handshakes() {
    assert_eq!(talk(vec![[&PREAMBLE[..], &[0, 0, 0, 6], &[0; 12]].concat()]), [0, 0, 0, 0]);
    assert_eq!(talk(vec![b"GET / HTTP/1.1\r\n".to_vec()]), []);
    assert_eq!(talk(vec![PREAMBLE.to_vec()]), []);
    assert_eq!(talk(vec![[&PREAMBLE[..], &[0, 0, 3, 4, 0, 0, 2, 4], &[0; 8]].concat()]), [0, 0, 2, 4]);
    let (_, log) = talk_and_log(&[], 0, vec![b"GET / HTTP/1.1\r\n".to_vec()]);
    assert_eq!(log, "refused: 2 at 0: the handshake does not begin with 60 60 B0 17\n");
}
