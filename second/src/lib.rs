//! The second program's own reading of the papers: QUIC Initial, 0-RTT, Handshake and Retry packets of version 1 and of
//! the version 2 draft, from the hash upwards.
//!
//! It is written from FIPS 180-4, RFC 2104, RFC 5869, FIPS 197, SP 800-38D, RFC 9000, RFC 9001, the version 2 draft
//! (document 003) and the scope of work (docs/SCOPE.md, which decides), and shares no code and no table with the proved
//! crates. It is written to be read and not to be fast. One module holds what one paper says.

pub mod aes;
pub mod gcm;
pub mod header;
pub mod hex;
pub mod hkdf;
pub mod integer;
pub mod keys;
pub mod level;
pub mod numbers;
pub mod open;
pub mod receiver;
pub mod refusal;
pub mod retry;
pub mod seal;
pub mod sha256;
pub mod version;

#[cfg(test)]
mod order;
#[cfg(test)]
mod vectors;
