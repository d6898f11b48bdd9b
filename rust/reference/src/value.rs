//! PackStream version 1 values, read where they lie: scalars are decoded, containers are known by place and size.

use crate::{MESSAGE_MAX, Refusal, Result};
use std::collections::HashSet;

/// How many containers may be open at once.
const DEPTH_MAX: usize = 16;

/// A value that borrows from its message. The items of a container have been checked and lie behind it.
#[derive(Clone, Copy, PartialEq, Debug)]
pub enum Value<'a> {
    Null,
    Boolean(bool),
    Integer(i64),
    Float(f64),
    Bytes(&'a [u8]),
    String(&'a str),
    List(Container<'a>),
    Dictionary(Container<'a>),
    Structure { tag: u8, fields: Container<'a> },
}

/// The items of a List, entries of a Dictionary or fields of a Structure.
#[derive(Clone, Copy, PartialEq, Eq, Debug)]
pub struct Container<'a> {
    message: &'a [u8],
    /// Offset of the marker.
    pub place: usize,
    /// Offset of the first item.
    pub start: usize,
    /// How many items, entries or fields.
    pub size: usize,
}

impl<'a> Container<'a> {
    pub fn reader(&self) -> Reader<'a> {
        Reader { message: self.message, at: self.start, looks_up: true }
    }
}

/// Reads `message` as one value. Refusals: 6 for a message that is too long, then 7 to 13, the leftmost first.
pub fn read(message: &[u8]) -> Result<Value<'_>> {
    let mut reader = Reader::new(message)?;
    let value = reader.value(DEPTH_MAX)?;
    reader.end()?;
    Ok(value)
}

/// Reads the value whose marker is at `at`, with room for `depth` open containers but never more than a message has,
/// and answers the offset behind it. What follows is not looked at. Refusals: 6, then 7 to 12.
pub fn read_at(message: &[u8], at: usize, depth: usize) -> Result<(Value<'_>, usize)> {
    let mut reader = Reader { at: at.min(message.len()), ..Reader::new(message)? };
    let value = reader.value(depth.min(DEPTH_MAX))?;
    Ok((value, reader.at))
}

/// The same reading, but that each key is compared with all earlier ones of its dictionary and never looked up.
pub fn read_comparing_keys(message: &[u8]) -> Result<Value<'_>> {
    let mut reader = Reader { looks_up: false, ..Reader::new(message)? };
    let value = reader.value(DEPTH_MAX)?;
    reader.end()?;
    Ok(value)
}

/// Reads values one after the other.
pub struct Reader<'a> {
    message: &'a [u8],
    at: usize,
    /// Whether the keys of large dictionaries are looked up.
    looks_up: bool,
}

impl<'a> Reader<'a> {
    pub fn new(message: &'a [u8]) -> Result<Self> {
        if message.len() > MESSAGE_MAX {
            return Err(Refusal::new(Refusal::TOO_LONG));
        }
        Ok(Reader { message, at: 0, looks_up: true })
    }

    /// Offset of the next marker.
    pub fn place(&self) -> usize {
        self.at
    }

    /// After the last value nothing is left.
    pub fn end(&self) -> Result<()> {
        if self.at < self.message.len() {
            return Err(Refusal::at(Refusal::BYTES_LEFT_OVER, self.at));
        }
        Ok(())
    }

    /// One whole value, with room for `depth` open containers.
    pub fn value(&mut self, depth: usize) -> Result<Value<'a>> {
        let value = self.head(depth)?;
        match value {
            Value::List(items) | Value::Structure { fields: items, .. } => {
                for _ in 0..items.size {
                    self.value(depth - 1)?;
                }
            }
            Value::Dictionary(entries) => self.entries(entries.size, depth - 1)?,
            _ => {}
        }
        Ok(value)
    }

    fn entries(&mut self, size: usize, depth: usize) -> Result<()> {
        // An entry has at least two bytes, whatever the size says.
        let mut keys = Keys::new(size.min((self.message.len() - self.at) / 2), self.looks_up);
        for _ in 0..size {
            let place = self.at;
            if !keys.insert(self.key()?) {
                return Err(Refusal::at(Refusal::KEY_REPEATED, place));
            }
            self.value(depth)?;
        }
        Ok(())
    }

    /// A value's own bytes: a whole scalar, or of a container what stands before its items.
    pub fn head(&mut self, depth: usize) -> Result<Value<'a>> {
        let place = self.at;
        let marker = self.marker()?;
        Ok(match marker {
            0x00..=0x7F | 0xF0..=0xFF => Value::Integer(i64::from(marker as i8)),
            0x80..=0x8F | 0xD0..=0xD2 => Value::String(self.string(place, marker)?),
            0xC0 => Value::Null,
            0xC1 => Value::Float(f64::from_be_bytes(self.array(place)?)),
            0xC2 => Value::Boolean(false),
            0xC3 => Value::Boolean(true),
            0xC8 => Value::Integer(i64::from(i8::from_be_bytes(self.array(place)?))),
            0xC9 => Value::Integer(i64::from(i16::from_be_bytes(self.array(place)?))),
            0xCA => Value::Integer(i64::from(i32::from_be_bytes(self.array(place)?))),
            0xCB => Value::Integer(i64::from_be_bytes(self.array(place)?)),
            0xCC..=0xCE => {
                let size = self.size(place, marker)?;
                Value::Bytes(self.bytes(place, size)?)
            }
            0x90..=0x9F | 0xD4..=0xD6 => Value::List(self.container(place, marker, depth)?),
            0xA0..=0xAF | 0xD8..=0xDA => Value::Dictionary(self.container(place, marker, depth)?),
            0xB0..=0xBF => {
                if depth == 0 {
                    return Err(Refusal::at(Refusal::TOO_DEEP, place));
                }
                let [tag] = self.array(place)?;
                let size = usize::from(marker & 0x0F);
                Value::Structure { tag, fields: Container { message: self.message, place, start: self.at, size } }
            }
            _ => return Err(Refusal::at(Refusal::RESERVED_MARKER, place)),
        })
    }

    /// A dictionary's key, without the search for a repeat.
    pub fn key(&mut self) -> Result<&'a str> {
        let place = self.at;
        match self.marker()? {
            marker @ (0x80..=0x8F | 0xD0..=0xD2) => self.string(place, marker),
            0xC4..=0xC7 | 0xCF | 0xD3 | 0xD7 | 0xDB..=0xEF => Err(Refusal::at(Refusal::RESERVED_MARKER, place)),
            _ => Err(Refusal::at(Refusal::KEY_NOT_STRING, place)),
        }
    }

    /// Passes over the items of a container that has been checked, to what lies behind it.
    pub fn skip(&mut self, value: Value<'a>) -> Result<()> {
        let items = |value| match value {
            Value::List(items) | Value::Structure { fields: items, .. } => items.size,
            Value::Dictionary(entries) => 2 * entries.size,
            _ => 0,
        };
        let mut left = items(value);
        while left > 0 {
            left = left - 1 + items(self.head(DEPTH_MAX)?);
        }
        Ok(())
    }

    fn marker(&mut self) -> Result<u8> {
        let marker = *self.message.get(self.at).ok_or(Refusal::at(Refusal::BYTES_MISSING, self.at))?;
        self.at += 1;
        Ok(marker)
    }

    fn bytes(&mut self, place: usize, size: usize) -> Result<&'a [u8]> {
        let bytes = self.message[self.at..].get(..size).ok_or(Refusal::at(Refusal::BYTES_MISSING, place))?;
        self.at += size;
        Ok(bytes)
    }

    fn array<const N: usize>(&mut self, place: usize) -> Result<[u8; N]> {
        let bytes = self.message[self.at..].first_chunk().ok_or(Refusal::at(Refusal::BYTES_MISSING, place))?;
        self.at += N;
        Ok(*bytes)
    }

    /// The size of a small marker is its low four bits; the wider ones come in rows of 1, 2 and 4 bytes.
    fn size(&mut self, place: usize, marker: u8) -> Result<usize> {
        if marker < 0xC0 {
            return Ok(usize::from(marker & 0x0F));
        }
        match marker & 0x03 {
            0 => Ok(usize::from(u8::from_be_bytes(self.array(place)?))),
            1 => Ok(usize::from(u16::from_be_bytes(self.array(place)?))),
            _ => Ok(u32::from_be_bytes(self.array(place)?) as usize),
        }
    }

    fn string(&mut self, place: usize, marker: u8) -> Result<&'a str> {
        let size = self.size(place, marker)?;
        let bytes = self.bytes(place, size)?;
        std::str::from_utf8(bytes).map_err(|_| Refusal::at(Refusal::BAD_UTF8, place))
    }

    fn container(&mut self, place: usize, marker: u8, depth: usize) -> Result<Container<'a>> {
        if depth == 0 {
            return Err(Refusal::at(Refusal::TOO_DEEP, place));
        }
        let size = self.size(place, marker)?;
        Ok(Container { message: self.message, place, start: self.at, size })
    }
}

/// The keys of one dictionary so far: a few are compared one by one, more are looked up.
#[expect(clippy::large_enum_variant, reason = "few keys need no allocation")]
enum Keys<'a> {
    Few { keys: [&'a str; 16], count: usize },
    Compared(Vec<&'a str>),
    LookedUp(HashSet<&'a str>),
}

impl<'a> Keys<'a> {
    fn new(size: usize, looks_up: bool) -> Self {
        match size {
            0..=16 => Keys::Few { keys: [""; 16], count: 0 },
            _ if looks_up => Keys::LookedUp(HashSet::with_capacity(size)),
            _ => Keys::Compared(Vec::with_capacity(size)),
        }
    }

    /// Whether `key` was not there before.
    fn insert(&mut self, key: &'a str) -> bool {
        match self {
            Keys::Few { keys, count } => {
                let new = !keys[..*count].contains(&key);
                if let Some(free) = keys.get_mut(*count) {
                    *free = key;
                    *count += 1;
                }
                new
            }
            Keys::Compared(keys) => {
                let new = !keys.contains(&key);
                keys.push(key);
                new
            }
            Keys::LookedUp(keys) => keys.insert(key),
        }
    }
}

#[cfg(test)]
mod tests {
    use super::*;

    fn refused(message: &[u8]) -> (u8, usize) {
        let refusal = read(message).unwrap_err();
        assert_eq!(read_comparing_keys(message), Err(refusal));
        (refusal.number, refusal.place)
    }

    #[test]
    fn scalars() {
        assert_eq!(read(&[0x7F]), Ok(Value::Integer(127)));
        assert_eq!(read(&[0xF0]), Ok(Value::Integer(-16)));
        assert_eq!(read(&[0xC8, 0x80]), Ok(Value::Integer(-128)));
        assert_eq!(read(&[0xC9, 0x00, 0x80]), Ok(Value::Integer(128)));
        assert_eq!(read(&[0xC8, 0x2A]), Ok(Value::Integer(42)));
        assert_eq!(read(&[0xCB, 0x80, 0, 0, 0, 0, 0, 0, 0]), Ok(Value::Integer(i64::MIN)));
        assert_eq!(read(&[0xCB, 0x7F, 255, 255, 255, 255, 255, 255, 255]), Ok(Value::Integer(i64::MAX)));
        assert_eq!(read(&[0xC1, 0x3F, 0xF1, 0x99, 0x99, 0x99, 0x99, 0x99, 0x9A]), Ok(Value::Float(1.1)));
        assert_eq!(read(&[0xC1, 0xBF, 0xF1, 0x99, 0x99, 0x99, 0x99, 0x99, 0x9A]), Ok(Value::Float(-1.1)));
        assert_eq!(read(&[0xC0]), Ok(Value::Null));
        assert_eq!(read(&[0xC3]), Ok(Value::Boolean(true)));
        assert_eq!(read(&[0xC2]), Ok(Value::Boolean(false)));
        assert_eq!(read(&[0xCC, 2, 0xFF, 0xFE]), Ok(Value::Bytes(&[0xFF, 0xFE])));
    }

    #[test]
    fn strings() {
        assert_eq!(read(&[0x81, 0x61]), Ok(Value::String("a")));
        assert_eq!(read(&[0x82, 0xC3, 0xA9]), Ok(Value::String("é")));
        let regular = [&[0xD0, 0x18][..], "En å flöt över ängen".as_bytes()].concat();
        assert_eq!(read(&regular), Ok(Value::String("En å flöt över ängen")));
        assert_eq!(read(&[0xD2, 0, 0, 0, 1, 0x61]), Ok(Value::String("a")));
    }

    #[test]
    fn containers() {
        for message in [&[0x93, 1, 2, 3][..], &[0x90], &[0xD4, 0], &[0xA1, 0x81, 0x61, 1], &[0xB3, 1, 1, 2, 3]] {
            assert!(read(message).is_ok());
        }
        let twenty: Vec<u8> = [0xD4, 0x14].into_iter().chain((0..20).map(|i| (i + 1) % 10)).collect();
        assert!(matches!(read(&twenty), Ok(Value::List(Container { size: 20, start: 2, .. }))));
        let sixteen: Vec<u8> = [0xD8, 0x10].into_iter().chain((0..16).flat_map(|i| [0x81, b'a' + i, i])).collect();
        assert!(matches!(read(&sixteen), Ok(Value::Dictionary(Container { size: 16, start: 2, .. }))));
        assert!(matches!(read(&[0xB1, 0x71, 0x90]), Ok(Value::Structure { tag: 0x71, .. })));
    }

    #[test]
    fn edges_of_the_paper() {
        assert_eq!(refused(&[]), (7, 0));
        assert_eq!(refused(&[0xEF]), (8, 0));
        assert_eq!(refused(&[0xC0, 0xC0]), (13, 1));
        assert_eq!(refused(&[0x82, 0xC3]), (7, 0));
        assert_eq!(refused(&[0xA2, 0x81, 0x61, 1, 0xD0, 1, 0x61, 2]), (12, 4));
        assert_eq!(refused(&[0x81, 0x80]), (10, 0));
    }

    #[test]
    fn every_other_marker_is_reserved() {
        let reserved = (0xC4..=0xC7).chain([0xCF, 0xD3, 0xD7]).chain(0xDB..=0xEF);
        for marker in reserved {
            assert_eq!(refused(&[marker]), (8, 0));
            assert_eq!(refused(&[0xA1, marker]), (8, 1));
        }
    }

    #[test]
    fn depth() {
        for container in [&[0x91][..], &[0xA1, 0x80], &[0xB1, 0x01], &[0xD4, 1]] {
            let nested = |count| container.repeat(count);
            assert!(read(&[&nested(15)[..], &[0x90]].concat()).is_ok());
            assert!(read(&[&nested(16)[..], &[0x01]].concat()).is_ok());
            let deep = [&nested(16)[..], &[0x90]].concat();
            assert_eq!(refused(&deep), (9, deep.len() - 1));
            let without_size = [&nested(16)[..], &[0xD4]].concat();
            assert_eq!(refused(&without_size), (9, without_size.len() - 1));
            let without_tag = [&nested(16)[..], &[0xB0]].concat();
            assert_eq!(refused(&without_tag), (9, without_tag.len() - 1));
        }
        // A key that is a container is no String first of all.
        let key = [&[0x91; 15][..], &[0xA1, 0x90]].concat();
        assert_eq!(refused(&key), (11, 16));
    }

    #[test]
    fn missing_bytes() {
        for message in [&[0xC8][..], &[0xCB, 1, 2], &[0xC1], &[0xD0], &[0xD5, 0], &[0xB1], &[0xCC, 2, 1], &[0xD0, 1]] {
            assert_eq!(refused(message), (7, 0));
        }
        assert_eq!(refused(&[0x92, 0x01]), (7, 2));
        assert_eq!(refused(&[0xD6, 255, 255, 255, 255]), (7, 5));
        assert_eq!(refused(&[0xA1, 0x81, 0x61]), (7, 3));
        assert_eq!(refused(&[0xA1]), (7, 1));
    }

    #[test]
    fn keys() {
        assert_eq!(refused(&[0xA1, 0x01, 0x01]), (11, 1));
        assert_eq!(refused(&[0xA1, 0xC0]), (11, 1));
        assert_eq!(refused(&[0xA1, 0x81, 0xFF, 0xEF]), (10, 1));
        assert_eq!(refused(&[0xA2, 0x80, 0x01, 0x80, 0xEF]), (12, 3));
        // Keys of different dictionaries may be equal.
        assert!(read(&[0xA2, 0x81, 0x61, 0xA1, 0x81, 0x61, 1, 0x81, 0x62, 2]).is_ok());
        // Past the keys that are compared one by one.
        let mut many = vec![0xD9, 0x10, 0x00];
        for i in 0..4096u16 {
            many.extend([0x82, b'0' + (i >> 6) as u8, b'0' + (i & 63) as u8, 1]);
        }
        assert_eq!(refused(&many).0, 6);
        many[1..3].copy_from_slice(&4095u16.to_be_bytes());
        many.truncate(3 + 4 * 4095);
        assert!(read(&many).is_ok());
        let last = many.len() - 4;
        many[last + 1] = b'0';
        many[last + 2] = b'9';
        assert_eq!(refused(&many), (12, last));
    }

    #[test]
    fn utf8() {
        for bad in [
            &[0xC0, 0x80][..],
            &[0xC1, 0xBF],
            &[0xE0, 0x9F, 0xBF],
            &[0xED, 0xA0, 0x80],
            &[0xED, 0xBF, 0xBF],
            &[0xF0, 0x8F, 0xBF, 0xBF],
            &[0xF4, 0x90, 0x80, 0x80],
            &[0xF8, 0x88, 0x80, 0x80, 0x80],
            &[0xFF],
            &[0xC3],
            &[0xC3, 0x41],
        ] {
            assert_eq!(refused(&[&[0x80 + bad.len() as u8][..], bad].concat()), (10, 0));
        }
        for good in
            ["\u{7F}", "\u{80}", "\u{7FF}", "\u{800}", "\u{D7FF}", "\u{E000}", "\u{FFFF}", "\u{10000}", "\u{10FFFF}"]
        {
            assert_eq!(read(&[&[0x80 + good.len() as u8][..], good.as_bytes()].concat()), Ok(Value::String(good)));
        }
    }

    #[test]
    fn length_limit() {
        let string = |size: usize| [&[0xD1, (size >> 8) as u8, size as u8][..], &vec![b'a'; size]].concat();
        assert!(read(&string(16_381)).is_ok());
        assert_eq!(refused(&string(16_382)), (6, 0));
        assert_eq!(refused(&[0xEF; 16_385]), (6, 0));
    }
}
