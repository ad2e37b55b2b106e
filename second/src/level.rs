//! The levels of protection whose packets have a long header (RFC 9001 section 4, RFC 9000 sections 17.2.2 to 17.2.4).

use crate::version::Version;

/// A level, with the number by which C callers name it and key records carry it.
#[derive(Clone, Copy, Debug, PartialEq, Eq)]
#[repr(u8)]
pub enum Level {
    Initial = 0,
    ZeroRtt = 1,
    Handshake = 2,
}

pub const LEVELS: [Level; 3] = [Level::Initial, Level::ZeroRtt, Level::Handshake];

impl Level {
    pub fn number(self) -> u8 {
        self as u8
    }

    /// The level that a number names. The whole number counts: 258 isn't 2.
    pub fn named(number: u32) -> Option<Level> {
        LEVELS.into_iter().find(|level| u32::from(level.number()) == number)
    }

    /// The type of its packets.
    pub fn packet_type(self, version: &Version) -> u8 {
        match self {
            Level::Initial => version.initial_type,
            Level::ZeroRtt => version.zero_rtt_type,
            Level::Handshake => version.handshake_type,
        }
    }

    /// RFC 9000 section 17.2.2: the token stands in Initial packets alone.
    pub fn has_token(self) -> bool {
        self == Level::Initial
    }
}
