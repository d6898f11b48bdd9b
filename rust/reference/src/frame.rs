//! Messages in chunks: each a big-endian 16-bit size and that many bytes, ended by a size of zero.

use crate::handshake::Version;
use crate::{MESSAGE_MAX, Refusal, Result};

/// What stood at the front of the input.
#[derive(Clone, Copy, PartialEq, Eq, Debug)]
pub enum Frame {
    /// Two bytes that carry no message.
    KeepAlive,
    /// A message, now in front of the lent buffer.
    Message { length: usize, consumed: usize },
}

fn size_at(input: &[u8], at: usize) -> Result<usize> {
    match input.get(at..at + 2) {
        Some(header) => Ok(usize::from(u16::from_be_bytes([header[0], header[1]]))),
        None => Err(Refusal::new(Refusal::FRAME_INCOMPLETE)),
    }
}

/// Walks the headers up to the size of zero. Nothing is written yet: the last header may be the one that refuses.
fn measure(version: Version, input: &[u8], room: usize) -> Result<Frame> {
    let (mut at, mut length) = (0, 0);
    loop {
        let size = size_at(input, at)?;
        if size == 0 {
            return match (length, version.allows_keep_alive()) {
                (0, true) => Ok(Frame::KeepAlive),
                (0, false) => Err(Refusal::new(Refusal::EMPTY_MESSAGE)),
                _ => Ok(Frame::Message { length, consumed: at + 2 }),
            };
        }
        length += size;
        if length > MESSAGE_MAX {
            return Err(Refusal::new(Refusal::TOO_LONG));
        }
        if length > room {
            return Err(Refusal::new(Refusal::NO_ROOM));
        }
        at += 2 + size;
        if at > input.len() {
            return Err(Refusal::new(Refusal::FRAME_INCOMPLETE));
        }
    }
}

/// Reads one frame from the front of `input` into the front of `buffer`. Refusals: 4, 5, 6, 21, the leftmost first.
pub fn read(version: Version, input: &[u8], buffer: &mut [u8]) -> Result<Frame> {
    let frame = measure(version, input, buffer.len())?;
    if let Frame::Message { length, .. } = frame {
        let (mut from, mut to) = (0, 0);
        while to < length {
            let size = size_at(input, from)?;
            buffer[to..to + size].copy_from_slice(&input[from + 2..from + 2 + size]);
            from += 2 + size;
            to += size;
        }
    }
    Ok(frame)
}

/// Writes `message` in chunks of `chunk` bytes, the remainder, and the size of zero; answers how many bytes that are.
/// Refusals: 22, 6, 21.
pub fn write(message: &[u8], chunk: usize, buffer: &mut [u8]) -> Result<usize> {
    let chunk = u16::try_from(chunk).unwrap_or(0);
    if message.is_empty() || chunk == 0 {
        return Err(Refusal::new(Refusal::NO_CHUNKS));
    }
    if message.len() > MESSAGE_MAX {
        return Err(Refusal::new(Refusal::TOO_LONG));
    }
    let length = message.len() + 2 * message.len().div_ceil(usize::from(chunk)) + 2;
    let mut rest = buffer.get_mut(..length).ok_or(Refusal::new(Refusal::NO_ROOM))?;
    for part in message.chunks(usize::from(chunk)) {
        let (header, behind) = rest.split_at_mut(2);
        header.copy_from_slice(&(part.len() as u16).to_be_bytes());
        let (content, behind) = behind.split_at_mut(part.len());
        content.copy_from_slice(part);
        rest = behind;
    }
    rest.copy_from_slice(&[0, 0]);
    Ok(length)
}

#[cfg(test)]
mod tests {
    use super::*;
    use Version::{V4_0, V4_1, V4_2};

    const SIXTEEN: [u8; 16] = [0, 1, 2, 3, 4, 5, 6, 7, 8, 9, 10, 11, 12, 13, 14, 15];

    fn read_to(version: Version, input: &[u8], room: usize) -> (Result<Frame>, Vec<u8>) {
        let mut buffer = vec![0xEE; room];
        (read(version, input, &mut buffer), buffer)
    }

    fn refused(version: Version, input: &[u8], room: usize) -> u8 {
        let (answer, buffer) = read_to(version, input, room);
        assert!(buffer.iter().all(|&byte| byte == 0xEE));
        answer.unwrap_err().number
    }

    #[test]
    fn empty_input_and_empty_message() {
        assert_eq!(refused(V4_0, &[], 9), 4);
        assert_eq!(refused(V4_0, &[0], 9), 4);
        assert_eq!(refused(V4_0, &[0, 0], 9), 5);
        assert_eq!(read_to(V4_1, &[0, 0], 0).0, Ok(Frame::KeepAlive));
        assert_eq!(read_to(V4_2, &[0, 0, 0, 1], 0).0, Ok(Frame::KeepAlive));
    }

    #[test]
    fn one_byte_message() {
        let (answer, buffer) = read_to(V4_0, &[0, 1, 0xC0, 0, 0], 3);
        assert_eq!(answer, Ok(Frame::Message { length: 1, consumed: 5 }));
        assert_eq!(buffer, [0xC0, 0xEE, 0xEE]);
    }

    #[test]
    fn examples_of_source_000() {
        let one = [&[0, 0x10][..], &SIXTEEN, &[0, 0]].concat();
        let (answer, buffer) = read_to(V4_0, &one, 16);
        assert_eq!(answer, Ok(Frame::Message { length: 16, consumed: 20 }));
        assert_eq!(buffer, SIXTEEN);

        let two = [&[0, 0x10][..], &SIXTEEN, &[0, 4, 1, 2, 3, 4, 0, 0]].concat();
        let (answer, buffer) = read_to(V4_0, &two, 20);
        assert_eq!(answer, Ok(Frame::Message { length: 20, consumed: 26 }));
        assert_eq!(buffer, [&SIXTEEN[..], &[1, 2, 3, 4]].concat());

        let mut written = [0xEE; 30];
        assert_eq!(write(&buffer, 16, &mut written), Ok(26));
        assert_eq!(written[..26], two[..]);
        assert_eq!(written[26..], [0xEE; 4]);
    }

    #[test]
    fn a_message_does_not_end_at_a_full_chunk() {
        let mut written = [0; 40];
        assert_eq!(write(&SIXTEEN, 16, &mut written), Ok(20));
        assert_eq!(write(&SIXTEEN, 8, &mut written), Ok(22));
        assert_eq!(read_to(V4_0, &written, 16).0, Ok(Frame::Message { length: 16, consumed: 22 }));
    }

    #[test]
    fn length_limits() {
        let whole = [&[0x40, 0][..], &[7; 16_384], &[0, 0]].concat();
        assert!(matches!(read_to(V4_0, &whole, 16_384).0, Ok(Frame::Message { length: 16_384, .. })));
        assert_eq!(refused(V4_0, &whole, 16_383), 21);
        assert_eq!(refused(V4_0, &[0x40, 1], 20_000), 6);
        assert_eq!(refused(V4_0, &[0x40, 1], 3), 6);
        assert_eq!(refused(V4_0, &[0, 4], 3), 21);
        assert_eq!(refused(V4_0, &[0, 3], 3), 4);
        assert_eq!(refused(V4_0, &[0, 1, 9, 0x40, 0], 3), 6);
        assert_eq!(refused(V4_0, &[0, 4, 9, 0x40, 0], 3), 21);
    }

    #[test]
    fn writer_refusals_in_order() {
        let mut buffer = [0xEE; 8];
        for (message, chunk, number) in [
            (&[][..], 1, 22),
            (&[1; 16_385], 0, 22),
            (&[1], 65_536, 22),
            (&[1; 16_385], 65_535, 6),
            (&[1; 5], 65_535, 21),
            (&[1; 3], 1, 21),
        ] {
            assert_eq!(write(message, chunk, &mut buffer), Err(Refusal::new(number)));
            assert_eq!(buffer, [0xEE; 8]);
        }
        assert_eq!(write(&[1; 4], 65_535, &mut buffer), Ok(8));
        assert_eq!(buffer, [0, 4, 1, 1, 1, 1, 0, 0]);
    }
}
