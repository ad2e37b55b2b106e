//! The two versions, and what differs between them (RFC 9001, document 003 section 3).

use crate::hex::array;
use crate::level::{Level, LEVELS};
use crate::refusal::Refusal;

/// What differs between versions (docs/SCOPE.md, "Constants").
pub struct Version {
    pub number: u32,
    pub salt: [u8; 20],
    pub key_label: &'static str,
    pub iv_label: &'static str,
    pub hp_label: &'static str,
    pub initial_type: u8,
    pub zero_rtt_type: u8,
    pub handshake_type: u8,
    pub retry_type: u8,
    pub retry_key: [u8; 16],
    pub retry_nonce: [u8; 12],
}

/// RFC 9001 sections 5.1, 5.2, 5.4 and 5.8; RFC 9000 section 17.2.
pub const VERSION_1: Version = Version {
    number: 0x0000_0001,
    salt: array("38762cf7f55934b34d179ae6a4c80cadccbb7f0a"),
    key_label: "quic key",
    iv_label: "quic iv",
    hp_label: "quic hp",
    initial_type: 0,
    zero_rtt_type: 1,
    handshake_type: 2,
    retry_type: 3,
    retry_key: array("be0c690b9f66575a1d766b54e368c84e"),
    retry_nonce: array("461599d35d632bf2239825bb"),
};

/// Document 003 section 3.
pub const VERSION_2_DRAFT: Version = Version {
    number: 0x709a_50c4,
    salt: array("a707c203a59b47184a1d62ca570406ea7ae3e5d3"),
    key_label: "quicv2 key",
    iv_label: "quicv2 iv",
    hp_label: "quicv2 hp",
    initial_type: 1,
    zero_rtt_type: 2,
    handshake_type: 3,
    retry_type: 0,
    retry_key: array("ba858dc7b43de5dbf87617ff4ab253db"),
    retry_nonce: array("141b99c239b03e785d6a2e9f"),
};

impl Version {
    /// The level of a type's packets, or refusal 6: a Retry has none.
    pub fn level(&self, packet_type: u8) -> Result<Level, Refusal> {
        LEVELS.into_iter().find(|level| level.packet_type(self) == packet_type).ok_or(Refusal::PacketType)
    }
}

/// The version of that number, or refusal 4.
pub fn version(number: u32) -> Result<&'static Version, Refusal> {
    [&VERSION_1, &VERSION_2_DRAFT].into_iter().find(|version| version.number == number).ok_or(Refusal::Version)
}
