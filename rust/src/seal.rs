//! Sealing: RFC 9001 sections 5.3 and 5.4.

use crate::ffi;
use crate::keys::Keys;
use crate::numbers::FullPn;
use crate::refusal::Refusal;
use crate::report::count;

/// An Initial packet before it is sealed.
#[derive(Clone, Copy, Debug)]
pub struct Initial<'a> {
    /// The packet's number.
    pub number: FullPn,
    /// The greatest number that the receiver has acknowledged.
    pub acknowledged: Option<FullPn>,
    /// In how many bytes the number is sent, 1 to 4: what [`smallest_length`] answers, or more.
    ///
    /// [`smallest_length`]: crate::smallest_length
    pub number_length: usize,
    /// The Destination Connection ID, of at most 20 bytes.
    pub destination: &'a [u8],
    /// The Source Connection ID, of at most 20 bytes.
    pub source: &'a [u8],
    /// The token; a client's first Initial has none, and a server's neither.
    pub token: &'a [u8],
    /// The frames. Number and payload together have at least four bytes.
    pub payload: &'a [u8],
}

/// Seals an Initial packet into the start of `out` and answers its bytes; those behind it stay as they were. The same
/// number must never be sealed twice with the same keys: nothing here remembers numbers.
///
/// # Errors
/// Refuses 4, 6 (keys of another level than Initial), 10, 14, 12, 5, 7, 1 and 8, in this order, and then leaves `out` as
/// it was.
///
/// # Example
/// ```
/// use driftwicket::{seal, FullPn, Initial, Keys, Refusal, Side, Version};
///
/// let keys = Keys::initial(Version::ONE, b"server", Side::Client)?;
/// let packet = Initial {
///     number: FullPn(0),
///     acknowledged: None,
///     number_length: 1,
///     destination: b"server",
///     source: b"unit",
///     token: b"",
///     payload: b"ping",
/// };
/// let mut out = [0; 60];
/// let sealed = seal(&keys, &packet, &mut out)?;
/// // first byte, version, both IDs and their lengths, token length, Length, number, payload, tag
/// assert_eq!(sealed.len(), 1 + 4 + 7 + 5 + 1 + 2 + 1 + 4 + 16);
/// assert_eq!(sealed[1..12], *b"\x00\x00\x00\x01\x06server");
///
/// let mut small = [0; 40];
/// assert_eq!(seal(&keys, &packet, &mut small), Err(Refusal::Room));
/// # Ok::<(), Refusal>(())
/// ```
pub fn seal<'o>(keys: &Keys, packet: &Initial, out: &'o mut [u8]) -> Result<&'o [u8], Refusal> {
    let Initial { number, acknowledged, number_length, destination, source, token, payload } = *packet;
    let acknowledged = acknowledged.map(|pn| pn.0);
    let parts = [destination, source, token, payload];
    let length = ffi::seal(keys.as_bytes(), number.0, acknowledged, number_length, parts, out)?;
    Ok(&out[..count(length)])
}

/// A 0-RTT or Handshake packet before it is sealed: an [`Initial`] without a token.
#[derive(Clone, Copy, Debug)]
pub struct Long<'a> {
    /// The packet's number.
    pub number: FullPn,
    /// The greatest number that the receiver has acknowledged, at this level.
    pub acknowledged: Option<FullPn>,
    /// In how many bytes the number is sent, 1 to 4: what [`smallest_length`] answers, or more.
    ///
    /// [`smallest_length`]: crate::smallest_length
    pub number_length: usize,
    /// The Destination Connection ID, of at most 20 bytes.
    pub destination: &'a [u8],
    /// The Source Connection ID, of at most 20 bytes.
    pub source: &'a [u8],
    /// The frames. Number and payload together have at least four bytes.
    pub payload: &'a [u8],
}

/// Seals a packet of the keys' level, 0-RTT or Handshake, as [`seal`] does.
///
/// # Errors
/// Those of [`seal`], with 6 for keys that are neither of the 0-RTT nor of the Handshake level.
///
/// # Example
/// ```
/// use driftwicket::{open, read_header, seal_long, FullPn, Keys, Level, Long, Refusal, Side, Version, LIMIT};
///
/// let keys = Keys::install(Version::ONE, Level::Handshake, Side::Server, &[7; Keys::SECRET_LENGTH])?;
/// let packet = Long {
///     number: FullPn(0),
///     acknowledged: None,
///     number_length: 1,
///     destination: b"unit",
///     source: b"server",
///     payload: b"a certificate",
/// };
/// let mut sealed = [0; LIMIT];
/// let datagram = seal_long(&keys, &packet, &mut sealed)?;
/// assert_eq!(read_header(datagram)?.level, Level::Handshake);
///
/// let mut out = [0; LIMIT];
/// assert_eq!(open(&keys, &mut 0, datagram, &mut out)?.payload, b"a certificate");
///
/// let initial = Keys::initial(Version::ONE, b"server", Side::Server)?;
/// assert_eq!(seal_long(&initial, &packet, &mut sealed), Err(Refusal::Type));
/// # Ok::<(), Refusal>(())
/// ```
pub fn seal_long<'o>(keys: &Keys, packet: &Long, out: &'o mut [u8]) -> Result<&'o [u8], Refusal> {
    let Long { number, acknowledged, number_length, destination, source, payload } = *packet;
    let acknowledged = acknowledged.map(|pn| pn.0);
    let parts = [destination, source, payload];
    let length = ffi::seal_long(keys.as_bytes(), number.0, acknowledged, number_length, parts, out)?;
    Ok(&out[..count(length)])
}
