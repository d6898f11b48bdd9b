//! Inputs at the edges, written from document 01, and random ones.

/// Random numbers from a fixed seed: Marsaglia's xorshift.
pub struct Random(u64);

impl Random {
    pub fn new(seed: u64) -> Self {
        Random(seed.wrapping_mul(0x9E37_79B9_7F4A_7C15) | 1)
    }

    pub fn between(&mut self, least: usize, most: usize) -> usize {
        self.0 ^= self.0 << 13;
        self.0 ^= self.0 >> 7;
        self.0 ^= self.0 << 17;
        least + (self.0 >> 32) as usize % (most - least + 1)
    }

    fn pick<'a>(&mut self, from: &[&'a [u8]]) -> &'a [u8] {
        from[self.between(0, from.len() - 1)]
    }
}

fn line(bytes: &[u8]) -> Vec<u8> {
    bytes.iter().flat_map(|byte| format!("{byte:02X}").into_bytes()).chain([b'\n']).collect()
}

/// A message in chunks of so many bytes.
fn frame(message: &[u8], chunk: usize) -> Vec<u8> {
    let chunks = message.chunks(chunk).flat_map(|part| [&(part.len() as u16).to_be_bytes(), part].concat());
    chunks.chain([0, 0]).collect()
}

fn message(bytes: &[u8]) -> Vec<u8> {
    line(&frame(bytes, 16_384))
}

/// The handshake that proposes Bolt 4.minor alone.
fn handshake(minor: u8) -> Vec<u8> {
    let mut bytes = [0; 20];
    bytes[..8].copy_from_slice(&[0x60, 0x60, 0xB0, 0x17, 0, 0, minor, 4]);
    line(&bytes)
}

const HELLO: &[u8] = b"\xB1\x01\xA1\x8Auser_agent\x83P/1";
const GOODBYE: &[u8] = b"\xB0\x02";
const RESET: &[u8] = b"\xB0\x0F";
const RUN: &[u8] = b"\xB3\x10\x81R\xA0\xA0";
const BEGIN: &[u8] = b"\xB1\x11\xA0";
const COMMIT: &[u8] = b"\xB0\x12";
const ROLLBACK: &[u8] = b"\xB0\x13";
const DISCARD: &[u8] = b"\xB1\x2F\xA1\x81n\xFF";
const PULL: &[u8] = b"\xB1\x3F\xA1\x81n\xFF";
const PULL_OF_NONE: &[u8] = b"\xB1\x3F\xA2\x81n\x01\x83qid\x09";

/// Messages that are refused, one for each number from 7 on, and for places where two could be given.
fn refused_messages() -> Vec<Vec<u8>> {
    let mut all: Vec<Vec<u8>> = [
        &b"\x82\xC3"[..],
        b"\xEF",
        b"\x81\x80",
        b"\xA1\x90",
        b"\xA2\x81a\x01\xD0\x01a\x02",
        b"\xD8\x02\x81a\x01\x81a\x02",
        b"\xC0\xC0",
        b"\xC0",
        b"\xB1\x70\xA0",
        b"\xB0\x10",
        b"\xB2\x02\xC0\xC0",
    ]
    .map(<[u8]>::to_vec)
    .into();
    all.push([&[0x91; 16][..], &[0x90]].concat());
    all.extend(WRONG_ENTRIES.map(<[u8]>::to_vec));
    all
}

/// Requests with a required entry that is absent, with a field, an entry or an item of the wrong kind, with a number or a
/// word out of range, and with two of these.
const WRONG_ENTRIES: [&[u8]; 22] = [
    b"\xB1\x3F\xA0",
    b"\xB1\x2F\xA1\x83qid\x00",
    b"\xB1\x3F\xA1\x81n\xC0",
    b"\xB1\x01\xA0",
    b"\xB1\x01\xA2\x8Auser_agent\xC0\x86scheme\x01",
    b"\xB1\x01\xC0",
    b"\xB1\x01\xA1\x8Auser_agent\x01",
    b"\xB1\x01\xA2\x8Auser_agent\x80\x87routing\x90",
    b"\xB1\x3F\xC0",
    b"\xB1\x3F\xA1\x81n\x811",
    b"\xB3\x10\xC0\xA0\xA0",
    b"\xB3\x10\x81R\xC0\xA1\x84mode\x81x",
    b"\xB3\x10\x81R\xA0\xA1\x84mode\x01",
    b"\xB1\x11\xA1\x89bookmarks\x92\x81a\xC0",
    b"\xB1\x11\xA2\x84mode\x81x\x89bookmarks\xA0",
    b"\xB1\x3F\xA1\x81n\x00",
    b"\xB1\x3F\xA2\x81n\x00\x83qid\xC3",
    b"\xB1\x2F\xA2\x83qid\xFE\x81n\x01",
    b"\xB1\x11\xA1\x8Atx_timeout\xFF",
    b"\xB1\x11\xA1\x84mode\x80",
    b"\xB3\x10\x81R\xA0\xA1\x84mode\x82rw",
    b"\xB1\x11\xA2\x82db\x01\x84mode\x81R",
];

/// A RUN that takes so many bytes with its query.
fn long_run(size: usize) -> Vec<u8> {
    let query = size - 7;
    [&[0xB3, 0x10, 0xD1][..], &(query as u16).to_be_bytes(), &vec![b'R'; query], &[0xA0, 0xA0]].concat()
}

/// A line of 40,000 characters that is a frame: 13,332 bytes in 3,333 chunks, each with its header, and the end.
fn longest_line() -> Vec<u8> {
    let frame = frame(&long_run(13_332), 4);
    assert_eq!(frame.len(), 20_000);
    line(&frame)
}

fn longer(line: &[u8], by: &[u8]) -> Vec<u8> {
    [&line[..line.len() - 1], by, b"\n"].concat()
}

/// A conversation of so many lines that fit each other for the most part, one in which there may be anything.
fn conversation(random: &mut Random, length: usize) -> Vec<u8> {
    let mut input = handshake(random.between(0, 2) as u8);
    input.extend(message(HELLO));
    let usual = [RUN, PULL, RUN, DISCARD, BEGIN, RUN, RUN, PULL, PULL, COMMIT, BEGIN, ROLLBACK, RESET, PULL_OF_NONE];
    for _ in 0..length {
        match random.between(0, 60) {
            0 => input.extend(message(GOODBYE)),
            1 => {
                let refused = refused_messages();
                input.extend(message(&refused[random.between(0, refused.len() - 1)]));
            }
            2..=6 => input.extend(line(&[0, 0])),
            7 => input.extend(longer(&message(RUN), b"\r")),
            8..=12 => {
                let size = random.between(1, 7);
                input.extend(line(&frame(random.pick(&usual), size)));
            }
            _ => input.extend(message(random.pick(&usual))),
        }
    }
    if random.between(0, 1) == 0 {
        input.pop();
    }
    input
}

/// A conversation behind handshake and HELLO.
fn greeted(minor: u8, behind: &[u8]) -> Vec<u8> {
    [handshake(minor), message(HELLO), behind.to_vec()].concat()
}

/// A transaction that ends in FAILED, with its ninth stream.
fn failed() -> Vec<u8> {
    [message(BEGIN), message(RUN).repeat(9)].concat()
}

/// The run that document 01 has whole.
fn one_run() -> Vec<u8> {
    [handshake(1), message(HELLO), line(&[0, 0]), message(RUN), message(PULL), message(GOODBYE)].concat()
}

/// Input that ends early, lines that are no handshake or no frame, and frames at the edges.
fn edges() -> Vec<Vec<u8>> {
    vec![
        Vec::new(),
        b"\n".to_vec(),
        b"\n\n".to_vec(),
        b"\0".to_vec(),
        b"\0\n".to_vec(),
        b"6".to_vec(),
        b"6060B01".to_vec(),
        line(&[0x60, 0x60, 0xB0]),
        line(&[0x60, 0x61]),
        line(&[0; 20]),
        handshake(3),
        handshake(3).to_ascii_lowercase(),
        handshake(1).to_ascii_lowercase(),
        longer(&handshake(1), b"00"),
        longer(&handshake(3), b"00"),
        longer(&handshake(1), b"\0\0"),
        longer(&handshake(1), b"\r"),
        [handshake(1), b"\n".to_vec()].concat(),
        [handshake(1), b"\0".to_vec()].concat(),
        [handshake(1), b"\0\n".to_vec()].concat(),
        [handshake(1), handshake(1)].concat(),
        [handshake(1), message(RESET), message(HELLO)].concat(),
        [one_run(), message(RUN)].concat(),
        one_run().iter().flat_map(|&byte| if byte == b'\n' { vec![b'\r', b'\n'] } else { vec![byte] }).collect(),
        greeted(0, &line(&[0, 0])),
        greeted(1, &line(&[0])),
        greeted(1, &line(&[0, 3, 0xB0])),
        greeted(1, &line(&[0x40, 0x01])),
        greeted(1, &line(&[0, 0, 0])),
        greeted(1, &longer(&message(RUN), b"00")),
        greeted(1, &message(RUN).repeat(3)),
        greeted(2, &[failed(), message(PULL), message(RESET), message(RUN)].concat()),
        greeted(
            2,
            &[failed(), [RUN, BEGIN, COMMIT, ROLLBACK, DISCARD, PULL, RESET, RUN].map(message).concat()].concat(),
        ),
        greeted(2, &[failed(), message(COMMIT), message(HELLO), message(RUN)].concat()),
        greeted(2, &line(&[0, 0]).repeat(30_000)),
    ]
}

/// Every input.
pub fn cases(random: &mut Random) -> Vec<Vec<u8>> {
    let mut all = edges();
    for refused in refused_messages() {
        all.push(greeted(1, &[message(&refused), message(RUN)].concat()));
    }
    let longest = longest_line();
    for first in [&longest, &vec![b'0'; 40_000]] {
        for by in [&b""[..], b"0", b"00", b"000"] {
            all.push(greeted(1, &[longer(&[&first[..40_000], b"\n"].concat(), by), message(PULL)].concat()));
            all.push(greeted(1, &[&first[..40_000], by].concat()));
        }
    }
    all.push(greeted(1, &[&[b'0'; 200_000][..], b"\n", &message(PULL)].concat()));
    all.push(greeted(1, &[longest.clone(), message(PULL)].concat().repeat(4)));
    let one_run = one_run();
    all.push(one_run[..one_run.len() - 1].to_vec());
    all.push(one_run);
    all.extend((0..60).map(|_| {
        let length = random.between(1, 40);
        conversation(random, length)
    }));
    all.extend((0..4).map(|_| conversation(random, 6_000)));
    all
}
