//! The frames printed in source document 004, each once.

use reference::frame::{self, Frame};
use reference::handshake::Version;
use reference::value::{self, Value};
use reference::{Refusal, request};

fn frames() -> impl Iterator<Item = Vec<u8>> {
    include_str!("source_004.hex").lines().map(|line| {
        line.as_bytes().chunks(2).map(|pair| u8::from_str_radix(str::from_utf8(pair).unwrap(), 16).unwrap()).collect()
    })
}

#[test]
fn every_frame_is_one_message() {
    for input in frames() {
        let mut buffer = vec![0; 16_384];
        let length = input.len() - 4;
        let answer = frame::read(Version::V4_0, &input, &mut buffer);
        assert_eq!(answer, Ok(Frame::Message { length, consumed: input.len() }));
        let mut written = vec![0; input.len()];
        assert_eq!(frame::write(&buffer[..length], 65_535, &mut written), Ok(input.len()));
        assert_eq!(written, input);
    }
}

#[test]
fn every_message_is_a_structure() {
    for input in frames() {
        let message = &input[2..input.len() - 2];
        match message[1] {
            // INIT is printed with one field in its marker and has two.
            0x01 => assert_eq!(value::read(message), Err(Refusal::at(13, 15))),
            tag => assert!(matches!(value::read(message), Ok(Value::Structure { tag: t, .. }) if t == tag)),
        }
    }
}

/// Version 1 has RUN with two fields and PULL_ALL with none; RESET is the same.
#[test]
fn requests_of_version_1() {
    for input in frames() {
        let message = &input[2..input.len() - 2];
        let answer = request::read(Version::V4_0, message).map(|_| ()).map_err(|refusal| refusal.number);
        match message[1] {
            0x0F => assert_eq!(answer, Ok(())),
            0x01 => assert_eq!(answer, Err(13)),
            0x10 | 0x3F => assert_eq!(answer, Err(15)),
            _ => assert_eq!(answer, Err(14)),
        }
    }
}
