//! The refusals of docs/SCOPE.md, "Refusals", with their numbers.

/// Why an operation refused.
#[derive(Clone, Copy, Debug, PartialEq, Eq)]
#[repr(u32)]
pub enum Refusal {
    /// the datagram is empty or over 1,500 bytes, or the packet to be written is over 1,500
    Size = 1,
    /// the form bit or the fixed bit is clear
    FormOrFixedBit = 2,
    /// a field isn't whole
    NotWhole = 3,
    /// the version is unknown, or not that of the keys
    Version = 4,
    /// a connection ID is over 20 bytes
    ConnectionId = 5,
    /// the packet's type isn't of the keys' level, or the level isn't one for the operation
    PacketType = 6,
    /// Length is below 20, or in sealing number length plus payload is below 4
    Length = 7,
    /// the output is smaller than the answer
    Output = 8,
    /// the reserved bits aren't zero after unmasking
    ReservedBits = 9,
    /// expected above 2^62, or a number to seal or recovered above 2^62 − 1
    NumberRange = 10,
    /// the tag doesn't match
    Tag = 11,
    /// the number's length isn't 1 to 4, or is too short
    NumberLength = 12,
    /// the Retry token is empty
    EmptyToken = 13,
    /// the acknowledged number isn't below the number, or no length covers the gap
    Acknowledged = 14,
}

impl Refusal {
    /// The number in the scope's table.
    pub fn number(self) -> u32 {
        self as u32
    }
}

/// Refuses unless the condition holds.
pub(crate) fn ensure(holds: bool, refusal: Refusal) -> Result<(), Refusal> {
    if holds {
        Ok(())
    } else {
        Err(refusal)
    }
}
