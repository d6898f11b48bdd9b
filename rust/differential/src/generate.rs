//! Inputs: values packed in any accepted form, requests, frames, and what damages them.

use crate::random::Random;

/// Writes random values, now and then a wrong one.
pub struct Writer<'r> {
    pub random: &'r mut Random,
    pub bytes: Vec<u8>,
    /// How long the whole may grow before only scalars follow.
    pub budget: usize,
}

const TEXTS: [&str; 8] = ["", "a", "n", "part", "Düse 4", "€ 12,50", "部品番号", "🜁🜂"];

impl Writer<'_> {
    /// A size in any form that holds it, small or wide.
    fn size(&mut self, small: u8, wide: u8, size: usize) {
        let narrowest = match size {
            0..=15 => 0,
            16..=255 => 1,
            256..=65_535 => 2,
            _ => 3,
        };
        match if self.random.once_in(4) { self.random.between(narrowest, 3) } else { narrowest } {
            0 => self.bytes.push(small + size as u8),
            1 => self.bytes.extend([wide, size as u8]),
            2 => self.bytes.extend([&[wide + 1][..], &(size as u16).to_be_bytes()].concat()),
            _ => self.bytes.extend([&[wide + 2][..], &(size as u32).to_be_bytes()].concat()),
        }
    }

    pub fn string(&mut self, text: &[u8]) {
        self.size(0x80, 0xD0, text.len());
        self.bytes.extend(text);
    }

    pub fn text(&mut self) {
        let text = text(self.random, 20);
        self.string(&text);
    }

    /// An Integer in any form that holds it.
    pub fn integer(&mut self, number: i64) {
        let narrowest =
            [i8::MIN as i64..=i8::MAX as i64, i16::MIN as i64..=i16::MAX as i64, i32::MIN as i64..=i32::MAX as i64]
                .iter()
                .position(|range| range.contains(&number))
                .unwrap_or(3);
        if (-16..=127).contains(&number) && !self.random.once_in(4) {
            return self.bytes.push(number as u8);
        }
        let width = if self.random.once_in(3) { self.random.between(narrowest, 3) } else { narrowest };
        self.bytes.push(0xC8 + width as u8);
        self.bytes.extend(&number.to_be_bytes()[8 - (1 << width)..]);
    }

    pub fn scalar(&mut self) {
        match self.random.below(10) {
            0 => self.bytes.push(0xC0),
            1 => self.bytes.push(self.random.pick(&[0xC2, 0xC3])),
            2 => {
                self.bytes.push(0xC1);
                let bits = self.random.bytes(8);
                self.bytes.extend(bits);
            }
            3..=5 => {
                let number = self.random.integer();
                self.integer(number);
            }
            6 => {
                let size = self.random.length(300);
                match size {
                    0..=15 => self.bytes.extend([0xCC, size as u8]),
                    _ => self.size(0xCC, 0xCC, size),
                }
                let content = self.random.bytes(size);
                self.bytes.extend(content);
            }
            _ => self.text(),
        }
    }

    pub fn value(&mut self, depth: usize) {
        if depth == 0 || self.bytes.len() > self.budget || self.random.once_in(2) {
            if self.random.once_in(60) {
                return self.wrong();
            }
            return self.scalar();
        }
        let most = if self.random.once_in(20) { 40 } else { 5 };
        let size = self.random.below(most);
        match self.random.below(3) {
            0 => {
                self.size(0x90, 0xD4, size);
                for _ in 0..size {
                    self.value(depth - 1);
                }
            }
            1 => self.dictionary(size, depth - 1),
            _ => {
                let size = size.min(15);
                self.bytes.extend([0xB0 + size as u8, self.random.pick(&[0x01, 0x10, 0x4E, 0x58, 0xFF])]);
                for _ in 0..size {
                    self.value(depth - 1);
                }
            }
        }
    }

    pub fn dictionary(&mut self, size: usize, depth: usize) {
        self.size(0xA0, 0xD8, size);
        let repeats = self.random.once_in(30);
        for index in 0..size {
            let name = if repeats { self.random.below(size) } else { index };
            let key = format!("{}{name}", self.random.pick(&["k", "key", "p"]));
            match self.random.below(200) {
                0 => self.value(depth),
                _ => self.string(key.as_bytes()),
            }
            self.value(depth);
        }
    }

    /// Values that are refused wherever they stand.
    fn wrong(&mut self) {
        match self.random.below(4) {
            0 => self.bytes.push(self.random.pick(&[0xC4, 0xC7, 0xCF, 0xD3, 0xD7, 0xDB, 0xDC, 0xDD, 0xE0, 0xEF])),
            1 => {
                let content = broken_text(self.random);
                self.string(&content);
            }
            2 => self.bytes.extend([self.random.pick(&[0xCE, 0xD2, 0xD6, 0xDA]), 0xFF, 0xFF, 0xFF, 0xFF]),
            _ => {
                let nested = self.random.between(10, 20);
                for _ in 0..nested {
                    let opening = self.random.pick(&[&[0x91][..], &[0xA1, 0x81, 0x61], &[0xB1, 0x01], &[0xD4, 1]]);
                    self.bytes.extend(opening);
                }
                self.bytes.push(0xC0);
            }
        }
    }
}

/// Valid UTF-8 of sequences of every length.
pub fn text(random: &mut Random, most: usize) -> Vec<u8> {
    if random.once_in(3) {
        return random.pick(&TEXTS).as_bytes().to_vec();
    }
    let length = random.length(most);
    let mut text = String::new();
    let most = random.pick(&[0x7F, 0x7F, 0x7FF, 0xFFFF, 0x10_FFFF]);
    while text.len() < length {
        text.extend(char::from_u32(random.below(most + 1) as u32));
    }
    text.into_bytes()
}

/// Sequences at the borders of what RFC 3629 allows, among valid ones.
pub fn broken_text(random: &mut Random) -> Vec<u8> {
    let mut bytes = text(random, 10);
    let broken: &[u8] = random.pick(&[
        &[0x80][..],
        &[0xC0, 0x80],
        &[0xC1, 0xBF],
        &[0xC2],
        &[0xE0, 0x9F, 0xBF],
        &[0xE0, 0xA0],
        &[0xED, 0xA0, 0x80],
        &[0xED, 0xBF, 0xBF],
        &[0xEF, 0xBF],
        &[0xF0, 0x8F, 0xBF, 0xBF],
        &[0xF0, 0x90, 0x80],
        &[0xF4, 0x90, 0x80, 0x80],
        &[0xF5, 0x80, 0x80, 0x80],
        &[0xF8, 0x88, 0x80, 0x80, 0x80],
        &[0xFF],
    ]);
    bytes.extend(broken);
    bytes.extend(text(random, 10));
    bytes
}

/// The longest text that is tried with something odd at every place.
pub const ODD_TEXTS: usize = 80;

/// ASCII of a length, and the same with something odd at each place: a character of two, three or four bytes, or one damaged byte.
pub fn odd_texts(length: usize) -> impl Iterator<Item = Vec<u8>> {
    let ascii: Vec<u8> = (b' '..=b'~').cycle().take(length).collect();
    let odd: [&[u8]; 8] =
        ["\u{80}".as_bytes(), "€".as_bytes(), "\u{10FFFF}".as_bytes(), &[0x80], &[0xBF], &[0xC3], &[0xE2], &[0xFF]];
    let changed = (0..length).flat_map(move |place| odd.map(|odd| (place, odd)));
    let fits = changed.filter(move |(place, odd)| place + odd.len() <= length);
    let texts = fits.map({
        let ascii = ascii.clone();
        move |(place, odd)| {
            let mut text = ascii.clone();
            text[place..place + odd.len()].copy_from_slice(odd);
            text
        }
    });
    texts.chain([ascii])
}

/// A String of that content, which has at most 255 bytes.
pub fn string(content: &[u8]) -> Vec<u8> {
    let size = content.len() as u8;
    let marker = if size < 16 { vec![0x80 | size] } else { vec![0xD0, size] };
    [&marker, content].concat()
}

/// One value, short or long.
pub fn message(random: &mut Random) -> Vec<u8> {
    let budget = random.pick(&[20, 60, 200, 1_000]);
    let depth = random.pick(&[1, 3, 6, 18]);
    let mut writer = Writer { random, bytes: Vec::new(), budget };
    writer.value(depth);
    writer.bytes
}

/// Dictionaries inside each other, so that any number of keys is open at once. More keys follow each inner one, and
/// now and then the last is an earlier one again.
fn open_keys(random: &mut Random, levels: usize, bytes: &mut Vec<u8>) {
    let size = random.pick(&[1, 2, 20, 31, 32, 33, 63, 64, 65, 100]);
    let inner = random.below(size);
    let last = if random.once_in(4) { random.below(size) } else { size - 1 };
    bytes.extend([0xD8, size as u8]);
    for index in 0..size {
        let name = if index + 1 == size { last } else { index };
        bytes.extend([0x82, b'!' + (name / 90) as u8, b'!' + (name % 90) as u8]);
        if index == inner && 0 < levels {
            open_keys(random, levels - 1, bytes);
        } else {
            bytes.push(0x01);
        }
    }
}

/// A message near the longest one, by long content, many items or many keys; or one with many keys open at once.
pub fn long_message(random: &mut Random) -> Vec<u8> {
    let length = random.pick(&[16_384, 16_384, 16_383, 16_385, 12_000, 20_000]);
    let mut bytes = Vec::new();
    match random.below(5) {
        0 => {
            bytes.extend([0xD1, ((length - 3) >> 8) as u8, (length - 3) as u8]);
            bytes.resize(length, b'a' + random.byte() % 26);
        }
        1 => {
            bytes.extend([0xD5, ((length - 3) >> 8) as u8, (length - 3) as u8]);
            bytes.resize(length, random.pick(&[0x01, 0xC0, 0x90, 0xA0, 0x80]));
        }
        2 => {
            let count = (length - 3) / 4;
            bytes.extend([0xD9, (count >> 8) as u8, count as u8]);
            for i in 0..count {
                bytes.extend([0x82, b'!' + (i / 90) as u8, b'!' + (i % 90) as u8, 0x01]);
            }
        }
        3 => {
            let levels = random.below(5);
            open_keys(random, levels, &mut bytes);
        }
        _ => {
            let mut writer = Writer { random, bytes, budget: length };
            writer.bytes.extend([0xB3, 0x10]);
            writer.text();
            writer.dictionary(200, 2);
            writer.bytes.push(0xA0);
            bytes = writer.bytes;
        }
    }
    bytes
}

/// A request with the fields and entries of its kind, most of them as they should be.
pub fn request(random: &mut Random) -> Vec<u8> {
    let (tag, fields): (u8, &[u8]) = random.pick(&[
        (0x01, &b"e"[..]),
        (0x01, b"e"),
        (0x02, b""),
        (0x0F, b""),
        (0x10, b"qpe"),
        (0x10, b"qpe"),
        (0x11, b"e"),
        (0x12, b""),
        (0x13, b""),
        (0x2F, b"e"),
        (0x3F, b"e"),
        (0x3F, b"e"),
        (0x66, b"e"),
    ]);
    let mut fields = fields.to_vec();
    if random.once_in(20) {
        fields.resize(random.below(5), b'e');
    }
    let mut writer = Writer { random, bytes: vec![0xB0 + fields.len() as u8, tag], budget: 200 };
    for field in fields {
        match field {
            _ if writer.random.once_in(80) => writer.bytes.push(0xC0),
            _ if writer.random.once_in(25) => writer.value(2),
            b'q' => writer.text(),
            b'p' => {
                let size = writer.random.below(4);
                writer.dictionary(size, 3);
            }
            _ => extra(&mut writer, tag),
        }
    }
    writer.bytes
}

fn extra(writer: &mut Writer, tag: u8) {
    let own: &[&str] = match tag {
        0x01 => &["user_agent", "scheme", "principal", "credentials", "routing"],
        0x2F | 0x3F => &["n", "qid"],
        _ => &["bookmarks", "tx_timeout", "tx_metadata", "mode", "db"],
    };
    let mut names: Vec<&str> = own.iter().copied().filter(|_| !writer.random.once_in(4)).collect();
    for other in ["n", "mode", "other", "users_agent", "user_agenu", ""] {
        if !names.contains(&other) && writer.random.once_in(8) {
            names.push(other);
        }
    }
    for i in (1..names.len()).rev() {
        let j = writer.random.below(i + 1);
        names.swap(i, j);
    }
    writer.size(0xA0, 0xD8, names.len());
    for name in names {
        writer.string(name.as_bytes());
        entry(writer, name);
    }
}

fn entry(writer: &mut Writer, name: &str) {
    if writer.random.once_in(15) {
        return writer.bytes.push(0xC0);
    }
    if writer.random.once_in(15) {
        return writer.value(2);
    }
    match name {
        "n" | "qid" | "tx_timeout" => {
            let number = writer.random.pick(&[-1, -1, 0, 1, 2, 7, 1000, -2, i64::MAX, i64::MIN]);
            writer.integer(number);
        }
        "mode" => {
            let mode = writer.random.pick(&["r", "w", "r", "w", "rw", "", "R"]);
            writer.string(mode.as_bytes());
        }
        "routing" | "tx_metadata" => {
            let size = writer.random.below(3);
            writer.dictionary(size, 2);
        }
        "bookmarks" => {
            let size = writer.random.below(4);
            writer.size(0x90, 0xD4, size);
            for _ in 0..size {
                match writer.random.below(20) {
                    0 => writer.bytes.push(0xC0),
                    1..=2 => writer.value(1),
                    _ => writer.text(),
                }
            }
        }
        _ => writer.text(),
    }
}

/// Bit flips, cuts, insertions, and parts that come twice or not at all.
pub fn damage(random: &mut Random, bytes: &mut Vec<u8>) {
    for _ in 0..random.between(1, 3) {
        let at = random.below(bytes.len() + 1);
        match random.below(6) {
            0 => bytes.truncate(at),
            1 => bytes.insert(at, random.byte()),
            2 if at < bytes.len() => bytes[at] ^= 1 << random.below(8),
            3 if at < bytes.len() => {
                bytes[at] = random.pick(&[0x80, 0x90, 0xA1, 0xB1, 0xC0, 0xC1, 0xD0, 0xD9, 0xEF, 0xFF])
            }
            4 if at < bytes.len() => drop(bytes.remove(at)),
            _ => {
                let end = (at + random.length(30)).min(bytes.len());
                let part = bytes[at..end].to_vec();
                bytes.splice(at..at, part);
            }
        }
    }
}

/// `message` in chunks of random sizes, ended.
pub fn chunks(random: &mut Random, message: &[u8]) -> Vec<u8> {
    let mut bytes = Vec::new();
    let mut rest = message;
    let most = random.pick(&[1, 3, 16, 300, 16_384]);
    while !rest.is_empty() {
        let size = random.between(1, most.min(rest.len()));
        bytes.extend((size as u16).to_be_bytes());
        bytes.extend(&rest[..size]);
        rest = &rest[size..];
    }
    bytes.extend([0, 0]);
    bytes
}
