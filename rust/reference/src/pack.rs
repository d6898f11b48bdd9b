//! Packing, always in the shortest form: Booleans, Integers, Strings, headers, and the summaries made of them.

use crate::{MESSAGE_MAX, Refusal, Result};

/// Puts `parts` one after the other in front of `buffer`, or refuses with 21.
fn put(parts: &[&[u8]], buffer: &mut [u8]) -> Result<usize> {
    let length = parts.iter().map(|part| part.len()).sum();
    let mut rest = buffer.get_mut(..length).ok_or(Refusal::new(Refusal::NO_ROOM))?;
    for part in parts {
        let (front, behind) = rest.split_at_mut(part.len());
        front.copy_from_slice(part);
        rest = behind;
    }
    Ok(length)
}

pub fn boolean(value: bool, buffer: &mut [u8]) -> Result<usize> {
    put(&[&[0xC2 + u8::from(value)]], buffer)
}

pub fn integer(value: i64, buffer: &mut [u8]) -> Result<usize> {
    match value {
        -16..=127 => put(&[&[value as u8]], buffer),
        -128..=-17 => put(&[&[0xC8], &(value as i8).to_be_bytes()], buffer),
        -32_768..=32_767 => put(&[&[0xC9], &(value as i16).to_be_bytes()], buffer),
        -2_147_483_648..=2_147_483_647 => put(&[&[0xCA], &(value as i32).to_be_bytes()], buffer),
        _ => put(&[&[0xCB], &value.to_be_bytes()], buffer),
    }
}

/// A header of up to 16,384: the small marker with the size in it, or the first of the wide ones and the size.
fn sized(small: u8, wide: u8, size: usize) -> ([u8; 3], usize) {
    match size {
        0..=15 => ([small + size as u8, 0, 0], 1),
        16..=255 => ([wide, size as u8, 0], 2),
        _ => ([wide + 1, (size >> 8) as u8, size as u8], 3),
    }
}

/// Refusals: 6 over 16,384 bytes, 10 for what is not UTF-8, 21.
pub fn string(content: &[u8], buffer: &mut [u8]) -> Result<usize> {
    if content.len() > MESSAGE_MAX {
        return Err(Refusal::new(Refusal::TOO_LONG));
    }
    if std::str::from_utf8(content).is_err() {
        return Err(Refusal::new(Refusal::BAD_UTF8));
    }
    let (header, length) = sized(0x80, 0xD0, content.len());
    put(&[&header[..length], content], buffer)
}

/// The header of a Dictionary. Refusals: 6 over 16,384 entries, 21.
pub fn dictionary_header(entries: usize, buffer: &mut [u8]) -> Result<usize> {
    if entries > MESSAGE_MAX {
        return Err(Refusal::new(Refusal::TOO_LONG));
    }
    let (header, length) = sized(0xA0, 0xD8, entries);
    put(&[&header[..length]], buffer)
}

/// The header of a Structure. Refusals: 6 over 15 fields, 21.
pub fn structure_header(fields: usize, tag: u8, buffer: &mut [u8]) -> Result<usize> {
    if fields > 15 {
        return Err(Refusal::new(Refusal::TOO_LONG));
    }
    put(&[&[0xB0 + fields as u8, tag]], buffer)
}

/// Why a request failed; the text is both code and message.
#[derive(Clone, Copy, PartialEq, Eq, Debug)]
pub enum Failure {
    StreamFull,
    StreamUnknown,
    EngineFailed,
}

impl Failure {
    pub const fn text(self) -> &'static str {
        match self {
            Failure::StreamFull => "Parts.Stream.Full",
            Failure::StreamUnknown => "Parts.Stream.Unknown",
            Failure::EngineFailed => "Parts.Engine.Failed",
        }
    }
}

/// How a request was answered.
#[derive(Clone, Copy, PartialEq, Eq, Debug)]
pub enum Summary {
    /// SUCCESS {}
    Success,
    /// SUCCESS {"has_more": b}
    HasMore(bool),
    /// SUCCESS {"qid": i}
    Qid(u32),
    Ignored,
    Failure(Failure),
}

/// Packs a summary as a message. Refusal: 21.
pub fn summary(summary: Summary, buffer: &mut [u8]) -> Result<usize> {
    match summary {
        Summary::Success => put(&[&[0xB1, 0x70, 0xA0]], buffer),
        Summary::HasMore(more) => put(&[&[0xB1, 0x70, 0xA1, 0x88], b"has_more", &[0xC2 + u8::from(more)]], buffer),
        Summary::Qid(qid) => {
            let mut number = [0; 9];
            let length = integer(i64::from(qid), &mut number)?;
            put(&[&[0xB1, 0x70, 0xA1, 0x83], b"qid", &number[..length]], buffer)
        }
        Summary::Ignored => put(&[&[0xB0, 0x7E]], buffer),
        Summary::Failure(failure) => {
            let text = failure.text().as_bytes();
            let (header, length) = sized(0x80, 0xD0, text.len());
            let header = &header[..length];
            put(&[&[0xB1, 0x7F, 0xA2, 0x84], b"code", header, text, &[0x87], b"message", header, text], buffer)
        }
    }
}

#[cfg(test)]
mod tests {
    use super::*;
    use crate::value::{self, Value};

    fn packed(pack: impl Fn(&mut [u8]) -> Result<usize>) -> Vec<u8> {
        let mut buffer = [0xEE; 20_000];
        let length = pack(&mut buffer).unwrap();
        assert!(buffer[length..].iter().all(|&byte| byte == 0xEE));
        let mut short = vec![0xEE; length - 1];
        assert_eq!(pack(&mut short), Err(Refusal::new(21)));
        assert!(short.iter().all(|&byte| byte == 0xEE));
        buffer[..length].to_vec()
    }

    #[test]
    fn integers_in_the_shortest_form() {
        assert_eq!(packed(|b| integer(128, b)), [0xC9, 0x00, 0x80]);
        assert_eq!(packed(|b| integer(-17, b)), [0xC8, 0xEF]);
        for (least, most, length) in [
            (-16, 127, 1),
            (-128, -17, 2),
            (-32_768, -129, 3),
            (128, 32_767, 3),
            (-2_147_483_648, -32_769, 5),
            (32_768, 2_147_483_647, 5),
            (i64::MIN, -2_147_483_649, 9),
            (2_147_483_648, i64::MAX, 9),
        ] {
            for number in [least, most] {
                let bytes = packed(|b| integer(number, b));
                assert_eq!(bytes.len(), length);
                assert_eq!(value::read(&bytes), Ok(Value::Integer(number)));
            }
        }
    }

    #[test]
    fn booleans_and_strings() {
        assert_eq!(packed(|b| boolean(true, b)), [0xC3]);
        assert_eq!(packed(|b| boolean(false, b)), [0xC2]);
        assert_eq!(packed(|b| string(b"", b)), [0x80]);
        for (size, header) in [(15, 1), (16, 2), (255, 2), (256, 3), (16_381, 3)] {
            let text = "x".repeat(size);
            let bytes = packed(|b| string(text.as_bytes(), b));
            assert_eq!(bytes.len(), size + header);
            assert_eq!(value::read(&bytes), Ok(Value::String(&text)));
        }
        assert_eq!(packed(|b| string(&[b'x'; 16_384], b))[..3], [0xD1, 0x40, 0x00]);
        assert_eq!(string(&[0xFF; 16_385], &mut []), Err(Refusal::new(6)));
        assert_eq!(string(&[0xFF; 16_384], &mut []), Err(Refusal::new(10)));
        assert_eq!(string(b"a", &mut [0]), Err(Refusal::new(21)));
    }

    #[test]
    fn headers() {
        assert_eq!(packed(|b| dictionary_header(15, b)), [0xAF]);
        assert_eq!(packed(|b| dictionary_header(16, b)), [0xD8, 16]);
        assert_eq!(packed(|b| dictionary_header(16_384, b)), [0xD9, 0x40, 0x00]);
        assert_eq!(dictionary_header(16_385, &mut []), Err(Refusal::new(6)));
        assert_eq!(packed(|b| structure_header(15, 0x70, b)), [0xBF, 0x70]);
        assert_eq!(structure_header(16, 0x70, &mut []), Err(Refusal::new(6)));
    }

    #[test]
    fn summaries() {
        assert_eq!(packed(|b| summary(Summary::Ignored, b)), [0xB0, 0x7E]);
        assert_eq!(packed(|b| summary(Summary::Success, b)), [0xB1, 0x70, 0xA0]);
        assert_eq!(packed(|b| summary(Summary::Qid(5), b)), [0xB1, 0x70, 0xA1, 0x83, 0x71, 0x69, 0x64, 0x05]);
        assert_eq!(packed(|b| summary(Summary::Qid(65_535), b))[7..], [0xCA, 0x00, 0x00, 0xFF, 0xFF]);
        let more = [&[0xB1, 0x70, 0xA1, 0x88][..], b"has_more", &[0xC2]].concat();
        assert_eq!(packed(|b| summary(Summary::HasMore(false), b)), more);
        let unknown = packed(|b| summary(Summary::Failure(Failure::StreamUnknown), b));
        let expected = b"\xB1\x7F\xA2\x84code\xD0\x14Parts.Stream.Unknown\x87message\xD0\x14Parts.Stream.Unknown";
        assert_eq!(unknown, expected);
        assert!(value::read(&unknown).is_ok());
    }
}
