//! The handshake: a preamble and four proposals, of which the first known one is chosen.

use crate::{Refusal, Result};

const PREAMBLE: [u8; 4] = [0x60, 0x60, 0xB0, 0x17];
pub const LENGTH: usize = 20;

/// A version of Bolt that this front end speaks.
#[derive(Clone, Copy, PartialEq, Eq, Debug)]
pub enum Version {
    V4_0,
    V4_1,
    V4_2,
}

impl Version {
    pub const ALL: [Version; 3] = [Version::V4_0, Version::V4_1, Version::V4_2];

    pub const fn to_bytes(self) -> [u8; 4] {
        [0, 0, self as u8, 4]
    }

    pub fn from_bytes(bytes: [u8; 4]) -> Option<Version> {
        Version::ALL.into_iter().find(|version| version.to_bytes() == bytes)
    }

    pub const fn allows_keep_alive(self) -> bool {
        !matches!(self, Version::V4_0)
    }

    pub const fn knows_routing(self) -> bool {
        !matches!(self, Version::V4_0)
    }
}

/// The version to echo. Only the first twenty bytes are read. Refusals: 2, 1, 3.
pub fn choose(input: &[u8]) -> Result<Version> {
    if input.iter().zip(&PREAMBLE).any(|(byte, expected)| byte != expected) {
        return Err(Refusal::new(Refusal::PREAMBLE_WRONG));
    }
    let proposals = input.get(PREAMBLE.len()..LENGTH).ok_or(Refusal::new(Refusal::HANDSHAKE_SHORT))?;
    proposals
        .chunks_exact(4)
        .find_map(|proposal| Version::from_bytes([proposal[0], proposal[1], proposal[2], proposal[3]]))
        .ok_or(Refusal::new(Refusal::NOTHING_IN_COMMON))
}

#[cfg(test)]
mod tests {
    use super::*;

    fn client(proposals: [[u8; 4]; 4]) -> Vec<u8> {
        [&PREAMBLE[..], &proposals.concat()].concat()
    }

    const NONE: [u8; 4] = [0; 4];

    #[test]
    fn first_known_proposal_is_chosen() {
        assert_eq!(choose(&client([[0, 0, 0, 4], NONE, NONE, NONE])), Ok(Version::V4_0));
        assert_eq!(choose(&client([[0, 0, 1, 4], NONE, NONE, NONE])), Ok(Version::V4_1));
        assert_eq!(choose(&client([[0, 0, 3, 4], [0, 0, 2, 4], [0, 0, 1, 4], NONE])), Ok(Version::V4_2));
        assert_eq!(choose(&client([NONE, NONE, NONE, [0, 0, 1, 4]])), Ok(Version::V4_1));
        assert_eq!(Version::V4_2.to_bytes(), [0, 0, 2, 4]);
    }

    #[test]
    fn ranges_and_other_versions_match_nothing() {
        for proposal in [[0, 0, 0, 1], [0, 0, 0, 6], [0, 2, 2, 4], [1, 0, 0, 4], [0, 0, 3, 4]] {
            assert_eq!(choose(&client([proposal, NONE, NONE, NONE])), Err(Refusal::new(3)));
        }
    }

    #[test]
    fn short_and_wrong() {
        assert_eq!(choose(&[]), Err(Refusal::new(1)));
        assert_eq!(choose(&[0x60, 0x60, 0xB0]), Err(Refusal::new(1)));
        assert_eq!(choose(&[0x60, 0x61]), Err(Refusal::new(2)));
        assert_eq!(choose(&client([[0, 0, 0, 4]; 4])[..19]), Err(Refusal::new(1)));
        let mut wrong = client([[0, 0, 0, 4]; 4]);
        wrong[3] = 0x18;
        assert_eq!(choose(&wrong), Err(Refusal::new(2)));
    }

    #[test]
    fn bytes_behind_the_handshake_are_not_read() {
        let mut long = client([[0, 0, 0, 4], NONE, NONE, NONE]);
        long.extend([0xFF; 9]);
        assert_eq!(choose(&long), Ok(Version::V4_0));
    }
}
