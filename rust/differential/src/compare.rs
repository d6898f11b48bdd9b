//! The comparisons: the same call on both sides, answers and lent memory equal.

use crate::complaints::{Complaint, complaint};
use crate::generate;
use crate::random::Random;
use crate::sides::{Found, Head, Item, Side};
use reference::Result;
use reference::handshake::Version;
use reference::pack::{Failure, Summary};
use std::collections::BTreeMap;
use std::fmt::{Debug, Write};

/// The first difference between two sides, ready to be printed.
pub type Difference = String;

/// How often something came of the calls.
#[derive(Default)]
pub struct Tally {
    pub accepted: u64,
    /// By the refusal's number.
    pub refused: BTreeMap<u8, u64>,
    /// By what a call on a record replied.
    pub replied: BTreeMap<&'static str, u64>,
    /// By the state and the tag of the request whose turn came in it.
    pub turned: BTreeMap<(u8, u8), u64>,
    /// By the first place of a ring in which 32 requests wait, and on which a call was made and not refused.
    pub full: BTreeMap<usize, u64>,
    /// By the request's tag, and what was wrong in it.
    pub complained: BTreeMap<(u8, Complaint), u64>,
}

impl Tally {
    pub fn add(&mut self, other: Tally) {
        self.accepted += other.accepted;
        for (number, count) in other.refused {
            *self.refused.entry(number).or_default() += count;
        }
        for (name, count) in other.replied {
            *self.replied.entry(name).or_default() += count;
        }
        for (turn, count) in other.turned {
            *self.turned.entry(turn).or_default() += count;
        }
        for (first, count) in other.full {
            *self.full.entry(first).or_default() += count;
        }
        for (complaint, count) in other.complained {
            *self.complained.entry(complaint).or_default() += count;
        }
    }
}

/// The refusals that a comparison of everything must have met.
pub const REFUSALS: [u8; 25] =
    [1, 2, 3, 4, 5, 6, 7, 8, 9, 10, 11, 12, 13, 14, 15, 17, 18, 19, 20, 21, 22, 24, 25, 26, 27];

/// The replies that it must have met, the refusals of a kind, an outcome, an n or a qid that names nothing, those of a
/// record that says what no list can, and what stood in unused places of records that were not refused.
pub const REPLIES: [&str; 25] = [
    "queued",
    "closed",
    "idle",
    "handed",
    "SUCCESS",
    "has more",
    "has no more",
    "qid",
    "IGNORED",
    "full",
    "unknown",
    "failed",
    "n or qid: 27",
    "no kind: 27",
    "no kind: 18",
    "no kind: 24",
    "no outcome: 19",
    "no outcome: 18",
    "no outcome: 24",
    "no state: 24",
    "no truth: 24",
    "no place: 24",
    "no waiting kind: 24",
    "unused: no kind",
    "unused: RESET",
];

/// Two sides and what they have been asked so far.
pub struct Comparison<'s, A, B> {
    pub left: &'s A,
    pub right: &'s B,
    pub random: Random,
    pub tally: Tally,
}

pub fn hex(bytes: &[u8]) -> String {
    bytes.iter().fold(String::new(), |mut text, byte| {
        let _ = write!(text, "{byte:02X}");
        text
    })
}

impl<'s, A: Side, B: Side> Comparison<'s, A, B> {
    pub fn new(left: &'s A, right: &'s B, seed: u64) -> Self {
        Comparison { left, right, random: Random::new(seed), tally: Tally::default() }
    }

    /// The answer that both give, counted.
    pub fn equal<T: PartialEq + Debug>(
        &mut self,
        what: impl FnOnce() -> String,
        left: Result<T>,
        right: Result<T>,
    ) -> std::result::Result<Option<T>, Difference> {
        if left != right {
            return Err(format!("{}\n  left:  {left:?}\n  right: {right:?}", what()));
        }
        match &left {
            Ok(_) => self.tally.accepted += 1,
            Err(refusal) => *self.tally.refused.entry(refusal.number).or_default() += 1,
        }
        Ok(left.ok())
    }

    /// A call that writes: both lent buffers start with the same random bytes and must end with the same.
    fn equal_writing<T: PartialEq + Debug>(
        &mut self,
        what: impl Fn() -> String,
        room: usize,
        left: impl FnOnce(&A, &mut [u8]) -> Result<T>,
        right: impl FnOnce(&B, &mut [u8]) -> Result<T>,
    ) -> std::result::Result<Option<T>, Difference> {
        let before = self.random.bytes(room);
        let (mut ours, mut theirs) = (before.clone(), before.clone());
        let (left, right) = (left(self.left, &mut ours), right(self.right, &mut theirs));
        if ours != theirs || (left.is_err() && ours != before) {
            let (before, ours, theirs) = (hex(&before), hex(&ours), hex(&theirs));
            return Err(format!("{}\n  buffer: {before}\n  left:   {ours}\n  right:  {theirs}", what()));
        }
        self.equal(what, left, right)
    }

    pub fn handshake(&mut self) -> std::result::Result<(), Difference> {
        let mut input = vec![0x60, 0x60, 0xB0, 0x17];
        for _ in 0..4 {
            let minor = self.random.below(4) as u8;
            let proposal =
                self.random.pick(&[[0; 4], [0, 0, minor, 4], [0, 1, minor, 4], [0, 0, 0, minor], [1, 0, 0, 4]]);
            input.extend(proposal);
        }
        if self.random.once_in(4) {
            generate::damage(&mut self.random, &mut input);
        }
        let (left, right) = (self.left.negotiate(&input), self.right.negotiate(&input));
        self.equal(|| format!("handshake {}", hex(&input)), left, right).map(drop)
    }

    pub fn frame(&mut self) -> std::result::Result<(), Difference> {
        let random = &mut self.random;
        let length = if random.once_in(20) { random.between(16_000, 16_400) } else { random.length(600) };
        let message = random.bytes(length);
        let mut input = generate::chunks(random, &message);
        if random.once_in(6) {
            input.splice(0..0, [0, 0]);
        }
        if random.once_in(3) {
            let cut = random.below(input.len() + 1);
            input.truncate(cut);
        }
        if random.once_in(4) {
            generate::damage(random, &mut input);
        }
        let behind = random.length(20);
        input.extend(random.bytes(behind));
        let room = if random.once_in(3) { random.length(700) } else { length + random.length(9) };
        let version = random.pick(&Version::ALL);
        self.equal_writing(
            || format!("frame {version:?} room {room} {}", hex(&input)),
            room,
            |side, buffer| side.read_frame(version, &input, buffer),
            |side, buffer| side.read_frame(version, &input, buffer),
        )
        .map(drop)
    }

    pub fn chunks(&mut self) -> std::result::Result<(), Difference> {
        let random = &mut self.random;
        let length = if random.once_in(20) { random.between(16_300, 16_400) } else { random.length(600) };
        let message = random.bytes(length);
        let chunk =
            if random.once_in(8) { random.pick(&[0, 1, 65_535, 65_536, usize::MAX]) } else { random.length(700) };
        let needed = length + 2 * length.div_ceil(chunk.max(1)) + 2;
        let room = if random.once_in(4) { random.below(needed + 1) } else { needed + random.below(5) };
        self.equal_writing(
            || format!("chunks of {chunk} room {room} {}", hex(&message)),
            room,
            |side, buffer| side.write_chunks(&message, chunk, buffer),
            |side, buffer| side.write_chunks(&message, chunk, buffer),
        )
        .map(drop)
    }

    fn input(&mut self) -> Vec<u8> {
        let random = &mut self.random;
        let mut bytes = match random.below(20) {
            0..=8 => generate::message(random),
            9..=16 => generate::request(random),
            17 => {
                let length = random.length(60);
                random.bytes(length)
            }
            _ => generate::broken_text(random),
        };
        if random.once_in(2) {
            generate::damage(random, &mut bytes);
        }
        bytes
    }

    pub fn value(&mut self) -> std::result::Result<(), Difference> {
        let message = self.input();
        self.value_of(&message)?;
        let at = if self.random.once_in(50) { usize::MAX } else { self.random.below(message.len() + 3) };
        let depth = self.random.pick(&[0, 1, 2, 3, 15, 16, 17, usize::MAX]);
        self.value_at(&message, at, depth).map(drop)
    }

    pub fn long_value(&mut self) -> std::result::Result<(), Difference> {
        let mut message = generate::long_message(&mut self.random);
        if self.random.once_in(2) {
            generate::damage(&mut self.random, &mut message);
        }
        let (left, right) = (self.left.read_message(&message), self.right.read_message(&message));
        self.equal(|| format!("value {}", hex(&message)), left, right)?;
        self.request_of(&message)
    }

    /// Texts of a length, each with one thing that is not ASCII at one place: packed, read alone, and read with another
    /// value behind it. A Dictionary's marker would continue a sequence that the text's end cuts off.
    /// How many there were.
    pub fn texts(&mut self, length: usize) -> std::result::Result<u64, Difference> {
        let mut count = 0;
        for text in generate::odd_texts(length) {
            count += 1;
            self.equal_writing(
                || format!("packing {}", hex(&text)),
                length + 3,
                |side, buffer| side.pack(Item::String(&text), buffer, 0),
                |side, buffer| side.pack(Item::String(&text), buffer, 0),
            )?;
            let string = generate::string(&text);
            self.value_of(&string)?;
            for behind in [0xA0, 0xC0] {
                self.value_of(&[&[0x92], &string[..], &[behind]].concat())?;
            }
        }
        Ok(count)
    }

    /// The whole value, and then each value in it.
    fn value_of(&mut self, message: &[u8]) -> std::result::Result<(), Difference> {
        let (left, right) = (self.left.read_message(message), self.right.read_message(message));
        match self.equal(|| format!("value {}", hex(message)), left, right)? {
            Some(root) => self.items_of(message, root, 16).map(drop),
            None => Ok(()),
        }
    }

    fn value_at(&mut self, message: &[u8], at: usize, depth: usize) -> std::result::Result<Option<Found>, Difference> {
        let (left, right) = (self.left.read_value(message, at, depth), self.right.read_value(message, at, depth));
        self.equal(|| format!("value at {at} with depth {depth} {}", hex(message)), left, right)
    }

    fn items_of(&mut self, message: &[u8], found: Found, depth: usize) -> std::result::Result<(), Difference> {
        let (items, count) = match found.head {
            Head::List(items) | Head::Structure(_, items) => (items, items.size),
            Head::Dictionary(entries) => (entries, 2 * entries.size),
            _ => return Ok(()),
        };
        let mut at = items.start;
        for _ in 0..count {
            let item = self.value_at(message, at, depth - 1)?.ok_or("an item of a value that was read is refused")?;
            self.items_of(message, item, depth - 1)?;
            at = item.end;
        }
        if at == found.end { Ok(()) } else { Err(format!("items end at {at}, not at {} {}", found.end, hex(message))) }
    }

    pub fn request(&mut self) -> std::result::Result<(), Difference> {
        let mut message = generate::request(&mut self.random);
        if self.random.once_in(3) {
            generate::damage(&mut self.random, &mut message);
        }
        self.request_of(&message)
    }

    fn request_of(&mut self, message: &[u8]) -> std::result::Result<(), Difference> {
        let version = self.random.pick(&Version::ALL);
        let (left, right) = (self.left.read_request(version, message), self.right.read_request(version, message));
        if let Some(complaint) = right.err().and_then(|refusal| complaint(message, refusal)) {
            *self.tally.complained.entry(complaint).or_default() += 1;
        }
        self.equal(|| format!("request {version:?} {}", hex(message)), left, right).map(drop)
    }

    pub fn packing(&mut self) -> std::result::Result<(), Difference> {
        let random = &mut self.random;
        let mut text = generate::text(random, 500);
        match random.below(20) {
            0..=3 => text = generate::broken_text(random),
            4 => text = vec![random.pick(&[b'x', 0x80]); random.between(16_380, 16_386)],
            _ => {}
        }
        let failures = [Failure::StreamFull, Failure::StreamUnknown, Failure::EngineFailed];
        let few = random.length(300);
        let count = random.pick(&[few, few, 15, 16, 255, 256, 16_384, 16_385, 65_536, usize::MAX]);
        let item = match random.below(11) {
            0 => Item::Boolean(random.once_in(2)),
            1..=3 => Item::Integer(random.integer()),
            4..=6 => Item::String(&text),
            7 => Item::Dictionary(count),
            8 => Item::Structure(random.byte(), if random.once_in(4) { count } else { random.below(17) }),
            _ => Item::Summary(match random.below(6) {
                0 => Summary::Success,
                1 => Summary::Ignored,
                2 => Summary::HasMore(random.once_in(2)),
                3 => Summary::Qid(random.integer() as u32),
                _ => Summary::Failure(random.pick(&failures)),
            }),
        };
        let at = random.length(40);
        let needed = at + if let Item::String(text) = item { text.len() + 3 } else { 60 };
        let room = if random.once_in(3) { random.below(needed) } else { needed };
        let at = if random.once_in(50) { usize::MAX } else { at };
        self.equal_writing(
            || format!("packing at {at} room {room} {item:?}"),
            room,
            |side, buffer| side.pack(item, buffer, at),
            |side, buffer| side.pack(item, buffer, at),
        )
        .map(drop)
    }
}
