//! QUIC versions, by their numbers.

use core::fmt::{self, Debug, Display, Formatter};

/// A QUIC version's number. Only the library decides which are known: any other is [`Refusal::Version`].
///
/// ```
/// use driftwicket::{Keys, Refusal, Side, Version};
///
/// assert_eq!(Version::DRAFT_2.to_string(), "0x709a50c4");
/// assert_eq!(Keys::initial(Version(5), b"", Side::Client).unwrap_err(), Refusal::Version);
/// ```
///
/// [`Refusal::Version`]: crate::Refusal::Version
#[derive(Clone, Copy, PartialEq, Eq, Hash)]
pub struct Version(pub u32);

impl Version {
    /// Version 1: RFC 9000 and RFC 9001.
    pub const ONE: Version = Version(0x0000_0001);

    /// The version 2 draft.
    pub const DRAFT_2: Version = Version(0x709a_50c4);
}

impl Display for Version {
    fn fmt(&self, formatter: &mut Formatter) -> fmt::Result {
        write!(formatter, "{:#010x}", self.0)
    }
}

impl Debug for Version {
    fn fmt(&self, formatter: &mut Formatter) -> fmt::Result {
        write!(formatter, "Version({self})")
    }
}
