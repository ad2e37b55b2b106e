//! Keys: from the client's connection ID and from the secrets of TLS (RFC 9001 sections 5.1 and 5.2, document 003
//! section 3.3).

use crate::header::LONGEST_ID;
use crate::hkdf::{expand_label, extract};
use crate::level::Level;
use crate::refusal::{ensure, Refusal};
use crate::version::{version, Version};

/// Which end sends.
#[derive(Clone, Copy, Debug, PartialEq, Eq)]
pub enum Side {
    Client,
    Server,
}

/// A key record as the C interface lends it: version, level, key, iv, hp. Any bytes are one.
pub type Record = [u8; 49];

/// Where the level stands in a record.
pub const LEVEL_AT: usize = 4;

/// A secret of TLS, of a suite whose hash is SHA-256.
pub type Secret = [u8; 32];

/// One sender's keys. Version and level are plain numbers: a record may come from outside and carry unknown ones.
#[derive(Clone, Debug, PartialEq, Eq)]
pub struct Keys {
    pub version: u32,
    pub level: u8,
    pub key: [u8; 16],
    pub iv: [u8; 12],
    pub hp: [u8; 16],
}

impl Keys {
    pub fn from_record(record: &Record) -> Keys {
        let (version, rest) = record.split_first_chunk().expect("49 bytes");
        let ([level], rest) = rest.split_first_chunk().expect("45 bytes");
        let (key, rest) = rest.split_first_chunk().expect("44 bytes");
        let (iv, hp) = rest.split_first_chunk().expect("28 bytes");
        let hp = hp.try_into().expect("16 bytes");
        Keys { version: u32::from_be_bytes(*version), level: *level, key: *key, iv: *iv, hp }
    }

    pub fn to_record(&self) -> Record {
        let record = [&self.version.to_be_bytes()[..], &[self.level], &self.key, &self.iv, &self.hp].concat();
        record.try_into().expect("4 + 1 + 16 + 12 + 16 bytes")
    }

    /// RFC 9001 section 5.3: the iv combined with the number, which is left-padded with zeros.
    pub fn nonce(&self, number: u64) -> [u8; 12] {
        let mut nonce = self.iv;
        for (byte, number) in nonce[4..].iter_mut().zip(number.to_be_bytes()) {
            *byte ^= number;
        }
        nonce
    }
}

/// RFC 9001 section 5.2: the keys of one side, from the Destination Connection ID of the client's Initial.
pub fn initial_keys(version_number: u32, destination: &[u8], side: Side) -> Result<Keys, Refusal> {
    let version = version(version_number)?;
    ensure(destination.len() <= LONGEST_ID, Refusal::ConnectionId)?;
    let initial_secret = extract(&version.salt, destination);
    let label = match side {
        Side::Client => "client in",
        Side::Server => "server in",
    };
    Ok(derive(version, Level::Initial, &expand_label(&initial_secret, label)))
}

/// RFC 9001 section 5.1: the keys of one side, from the secret that TLS hands over for a level.
pub fn install_keys(version_number: u32, level: u32, side: Side, secret: &Secret) -> Result<Keys, Refusal> {
    let version = version(version_number)?;
    let level = Level::named(level).ok_or(Refusal::PacketType)?;
    let installed = match level {
        // section 5.2: these secrets don't come from TLS
        Level::Initial => false,
        // RFC 9000 section 17.2.3: only the client sends 0-RTT packets
        Level::ZeroRtt => side == Side::Client,
        Level::Handshake => true,
    };
    ensure(installed, Refusal::PacketType)?;
    Ok(derive(version, level, secret))
}

/// RFC 9001 section 5.1: key, iv and hp by the version's labels, which are the same at every level.
fn derive(version: &Version, level: Level, secret: &Secret) -> Keys {
    Keys {
        version: version.number,
        level: level.number(),
        key: expand_label(secret, version.key_label),
        iv: expand_label(secret, version.iv_label),
        hp: expand_label(secret, version.hp_label),
    }
}
