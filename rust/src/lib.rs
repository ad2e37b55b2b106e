//! QUIC packet protection, proved: keys, sealing and opening of Initial, 0-RTT and Handshake packets, packet numbers short
//! and full, and Retry, for QUIC version 1 and the version 2 draft (0x709a50c4).
//!
//! This crate is a thin cover over `libdriftwicket.a`, whose every function is proved to do what RFC 9000, RFC 9001, the
//! draft and the papers below them say, for every input. No call trusts its caller: what cannot be done is refused with
//! a [`Refusal`], and a refusal leaves the output buffer and the expected number as they were.
//!
//! # A first use
//! ```
//! use driftwicket::{read_header, seal, FullPn, Initial, Keys, Receiver, Refusal, Side, Version, LIMIT};
//!
//! fn main() -> Result<(), Refusal> {
//!     // a unit, which is the client, makes its keys from the connection ID that it chose, and seals a packet
//!     let id = [0x83, 0x94, 0xc8, 0xf0, 0x3e, 0x51, 0x57, 0x08];
//!     let keys = Keys::initial(Version::ONE, &id, Side::Client)?;
//!     let packet = Initial {
//!         number: FullPn(2),
//!         acknowledged: None,
//!         number_length: 1,
//!         destination: &id,
//!         source: b"unit",
//!         token: b"",
//!         payload: b"hello, archive",
//!     };
//!     let mut out = [0; LIMIT];
//!     let datagram = seal(&keys, &packet, &mut out)?;
//!
//!     // the archive finds that ID in the header, makes the same keys from it, and opens the packet
//!     let header = read_header(datagram)?;
//!     let keys = Keys::initial(header.version, header.destination, Side::Client)?;
//!     let mut receiver = Receiver::new(keys);
//!     let mut plain = [0; LIMIT];
//!     let opened = receiver.open(datagram, &mut plain)?;
//!     assert_eq!(opened.number, FullPn(2));
//!     assert_eq!(opened.payload, b"hello, archive");
//!     assert_eq!(receiver.expected(), 3);
//!
//!     // rubbish is refused, and changes nothing
//!     let refusal = receiver.open(b"rubbish", &mut plain).unwrap_err();
//!     assert_eq!(refusal.to_string(), "refusal 2: the form bit or the fixed bit is clear");
//!     assert_eq!(receiver.expected(), 3);
//!     Ok(())
//! }
//! ```
//!
//! # What it leaves to its caller
//! The TLS handshake, from which the secrets for [`Keys::install`] come, the frames inside a payload, timers, and the rule
//! that a client's Initial fills 1,200 bytes. The session judges a Retry whose source ID is the original one, and a
//! server's Initial that carries a token. Secrecy against timing is not promised.
//!
//! # Where it builds
//! It allocates nothing and needs no standard library. The feature `std`, which is on by itself, makes a [`Refusal`] an
//! `Error` of the standard library and does nothing else.

#![no_std]
#![deny(missing_docs)]
#![deny(unsafe_code)]

#[cfg(feature = "std")]
extern crate std;

#[allow(unsafe_code)]
mod ffi;
mod header;
mod keys;
mod level;
mod numbers;
mod open;
mod refusal;
mod report;
pub mod retry;
mod seal;
mod version;

pub use header::{read_header, Header};
pub use keys::{Keys, Side};
pub use level::Level;
pub use numbers::{read_integer, recover, shorten, smallest_length, FullPn, Integer, TruncatedPn};
pub use open::{open, Opened, Receiver};
pub use refusal::{NoRefusal, Refusal};
pub use seal::{seal, seal_long, Initial, Long};
pub use version::Version;

/// The most bytes that a datagram, or a packet to be written, may have.
pub const LIMIT: usize = 1_500;

/// How many bytes the tag takes at a packet's end.
pub const TAG: usize = 16;

/// The most bytes that a connection ID may have.
pub const LONGEST_ID: usize = 20;
