//! The levels of protection: RFC 9001 section 4.

/// A level of protection. A packet shows its level by its type, and each level has keys and numbers of its own.
///
/// ```
/// use driftwicket::{Keys, Level, Side, Version};
///
/// let keys = Keys::initial(Version::ONE, b"an ID", Side::Client)?;
/// assert_eq!(keys.level(), Some(Level::Initial));
/// # Ok::<(), driftwicket::Refusal>(())
/// ```
#[derive(Clone, Copy, Debug, PartialEq, Eq, Hash)]
#[non_exhaustive]
#[repr(u8)]
pub enum Level {
    /// Initial packets, which carry a token.
    Initial = 0,
    /// 0-RTT packets: a client's early data. No server sends them.
    ZeroRtt = 1,
    /// Handshake packets.
    Handshake = 2,
}

impl Level {
    /// The level's number in the C interface and in key records.
    pub(crate) fn number(self) -> u8 {
        self as u8
    }

    /// The level that a number names.
    pub(crate) fn named(number: u64) -> Option<Level> {
        let levels = [Level::Initial, Level::ZeroRtt, Level::Handshake];
        levels.into_iter().find(|level| u64::from(level.number()) == number)
    }
}
