//! The refusals, with their numbers and their words.

use core::fmt::{self, Display, Formatter};

/// Why a call was refused. A refused call has left everything as it was.
///
/// A packet whose opening is refused with 9, 10 or 11 is to be dropped, and nothing closed: anybody on the path can bring
/// these about. Rubbish, damage and packets sealed with other keys get any of them, and of those sealed with other keys
/// three in four get 9, for the reserved bits are judged before the tag. So 9 is not the connection error of RFC 9000
/// section 17.2, which is for bits that are authentic.
///
/// ```
/// use driftwicket::{read_integer, Refusal};
///
/// let refusal = read_integer(&[0x7b]).unwrap_err();
/// assert_eq!(refusal, Refusal::NotWhole);
/// assert_eq!(refusal.number(), 3);
/// assert_eq!(refusal.to_string(), "refusal 3: a field isn't whole");
/// ```
#[derive(Clone, Copy, Debug, PartialEq, Eq, Hash)]
#[non_exhaustive]
#[repr(u32)]
pub enum Refusal {
    /// The datagram is empty, or over 1,500 bytes as it came or would be written.
    Size = 1,
    /// The form bit or the fixed bit is clear.
    Form = 2,
    /// A field isn't whole.
    NotWhole = 3,
    /// The version is unknown, or not that of the keys.
    Version = 4,
    /// A connection ID is over 20 bytes.
    LongId = 5,
    /// The packet's type isn't of the keys' level, or the level isn't one for the call.
    Type = 6,
    /// Length is below 20; in sealing, number length plus payload is below 4.
    Short = 7,
    /// The output is smaller than the answer; in opening, than the packet less its tag.
    Room = 8,
    /// The reserved bits aren't zero after unmasking.
    Reserved = 9,
    /// The expected number is above 2^62; a number to seal, or recovered, is above 2^62 − 1.
    Range = 10,
    /// The tag doesn't match.
    Tag = 11,
    /// The number's length isn't 1 to 4, or is too short for the gap, or for the short number to recover from.
    Length = 12,
    /// The Retry token is empty.
    NoToken = 13,
    /// The acknowledged number isn't below the number, or the gap is 2^31 or more, so that no length covers it.
    Gap = 14,
}

impl Refusal {
    /// Every refusal, by number.
    pub const ALL: [Refusal; 14] = [
        Refusal::Size,
        Refusal::Form,
        Refusal::NotWhole,
        Refusal::Version,
        Refusal::LongId,
        Refusal::Type,
        Refusal::Short,
        Refusal::Room,
        Refusal::Reserved,
        Refusal::Range,
        Refusal::Tag,
        Refusal::Length,
        Refusal::NoToken,
        Refusal::Gap,
    ];

    /// The number that the C interface and the terminal give it.
    ///
    /// ```
    /// use driftwicket::Refusal;
    ///
    /// assert_eq!(Refusal::Tag.number(), 11);
    /// assert_eq!(Refusal::try_from(11), Ok(Refusal::Tag));
    /// ```
    #[must_use]
    pub fn number(self) -> u32 {
        self as u32
    }

    /// What is wrong, in words: those of the header for C and of the terminal.
    ///
    /// ```
    /// assert_eq!(driftwicket::Refusal::Tag.words(), "the tag doesn't match");
    /// ```
    #[must_use]
    pub fn words(self) -> &'static str {
        match self {
            Refusal::Size => "the datagram is empty, or over 1,500 bytes",
            Refusal::Form => "the form bit or the fixed bit is clear",
            Refusal::NotWhole => "a field isn't whole",
            Refusal::Version => "the version is unknown, or not that of the keys",
            Refusal::LongId => "a connection ID is over 20 bytes",
            Refusal::Type => "the packet's type, or the level, isn't one for this",
            Refusal::Short => "Length is below 20, or there is too little to seal",
            Refusal::Room => "the output is too small",
            Refusal::Reserved => "the reserved bits aren't zero after unmasking",
            Refusal::Range => "a number is out of range",
            Refusal::Tag => "the tag doesn't match",
            Refusal::Length => "the number's length isn't 1 to 4, or is too short",
            Refusal::NoToken => "the Retry token is empty",
            Refusal::Gap => "the acknowledged number isn't below the number, or no length covers the gap",
        }
    }
}

impl Display for Refusal {
    fn fmt(&self, formatter: &mut Formatter) -> fmt::Result {
        write!(formatter, "refusal {}: {}", self.number(), self.words())
    }
}

#[cfg(feature = "std")]
impl std::error::Error for Refusal {}

impl TryFrom<u32> for Refusal {
    type Error = NoRefusal;

    fn try_from(number: u32) -> Result<Refusal, NoRefusal> {
        Refusal::ALL.into_iter().find(|refusal| refusal.number() == number).ok_or(NoRefusal(number))
    }
}

/// A number that is no refusal's.
///
/// ```
/// use driftwicket::{NoRefusal, Refusal};
///
/// assert_eq!(Refusal::try_from(0), Err(NoRefusal(0)));
/// ```
#[derive(Clone, Copy, Debug, PartialEq, Eq)]
pub struct NoRefusal(pub u32);

impl Display for NoRefusal {
    fn fmt(&self, formatter: &mut Formatter) -> fmt::Result {
        write!(formatter, "no refusal has the number {}", self.0)
    }
}

#[cfg(feature = "std")]
impl std::error::Error for NoRefusal {}
