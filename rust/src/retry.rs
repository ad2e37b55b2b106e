//! Retry packets: RFC 9000 section 17.2.5, RFC 9001 section 5.8.

use crate::ffi;
use crate::refusal::Refusal;
use crate::report;
use crate::version::Version;

/// A Retry packet before it is written.
#[derive(Clone, Copy, Debug)]
pub struct Retry<'a> {
    /// Its version.
    pub version: Version,
    /// The Destination Connection ID of the client's Initial that this answers, of at most 20 bytes. It isn't sent, and
    /// the tag covers it.
    pub original: &'a [u8],
    /// The Destination Connection ID, of at most 20 bytes.
    pub destination: &'a [u8],
    /// The Source Connection ID, of at most 20 bytes.
    pub source: &'a [u8],
    /// The token, which isn't empty.
    pub token: &'a [u8],
    /// What the four unused bits of the first byte are taken from, by the remainder by 16.
    pub low_bits: u64,
}

/// Writes a Retry packet into the start of `out` and answers its bytes; those behind it stay as they were.
///
/// # Errors
/// Refuses 4, 5, 13, 1 and 8, in this order, and then leaves `out` as it was.
///
/// # Example
/// ```
/// use driftwicket::retry::{self, Retry};
/// use driftwicket::{Refusal, Version, LIMIT};
///
/// // RFC 9001 appendix A.4
/// let packet = Retry {
///     version: Version::ONE,
///     original: &0x8394c8f03e515708_u64.to_be_bytes(),
///     destination: b"",
///     source: &0xf067a5502a4262b5_u64.to_be_bytes(),
///     token: b"token",
///     low_bits: 15,
/// };
/// let mut out = [0; LIMIT];
/// let written = retry::write(&packet, &mut out)?;
/// assert_eq!(written.len(), 36);
/// assert_eq!(written[0], 0xff);
/// assert_eq!(written[20..], 0x04a265ba2eff4d829058fb3f0f2496ba_u128.to_be_bytes());
///
/// assert_eq!(retry::write(&Retry { token: b"", ..packet }, &mut out), Err(Refusal::NoToken));
/// # Ok::<(), Refusal>(())
/// ```
pub fn write<'o>(packet: &Retry, out: &'o mut [u8]) -> Result<&'o [u8], Refusal> {
    let Retry { version, original, destination, source, token, low_bits } = *packet;
    let length = ffi::write_retry(version.0, [original, destination, source, token], low_bits, out)?;
    Ok(&out[..report::count(length)])
}

/// What a Retry packet carries. Both IDs and the token are parts of the caller's datagram.
#[derive(Clone, Copy, Debug, PartialEq, Eq)]
pub struct Checked<'d> {
    /// The packet's version.
    pub version: Version,
    /// The Destination Connection ID.
    pub destination: &'d [u8],
    /// The Source Connection ID. The keys of the client's next Initial are made from it.
    pub source: &'d [u8],
    /// The token, which the client's next Initial carries.
    pub token: &'d [u8],
}

/// Checks the Retry packet that a datagram is, where `original` is the Destination Connection ID of the client's Initial
/// that it answers. The packet ends the datagram: bytes behind it would be part of it.
///
/// # Errors
/// Refuses 5 (original), 1 and 2; then, field by field as they stand, 3 for one that isn't whole before 4, 6 or 5 for
/// one that is wrong; then 3 and 13 for a tag or a token that isn't there, and 11, on which the packet is to be dropped.
///
/// # Example
/// ```
/// use driftwicket::{retry, Refusal, Version};
///
/// // RFC 9001 appendix A.4
/// let datagram = [
///     &b"\xff\x00\x00\x00\x01\x00\x08\xf0\x67\xa5\x50\x2a\x42\x62\xb5token"[..],
///     &0x04a265ba2eff4d829058fb3f0f2496ba_u128.to_be_bytes(),
/// ]
/// .concat();
/// let original = 0x8394c8f03e515708_u64.to_be_bytes();
/// let checked = retry::check(&original, &datagram)?;
/// assert_eq!(checked.version, Version::ONE);
/// assert_eq!(checked.destination, b"");
/// assert_eq!(checked.source, 0xf067a5502a4262b5_u64.to_be_bytes());
/// assert_eq!(checked.token, b"token");
///
/// assert_eq!(retry::check(b"another", &datagram), Err(Refusal::Tag));
/// # Ok::<(), Refusal>(())
/// ```
pub fn check<'d>(original: &[u8], datagram: &'d [u8]) -> Result<Checked<'d>, Refusal> {
    let [version, parts @ ..] = ffi::check_retry(original, datagram)?;
    let [destination, source, token] = report::parts(datagram, parts);
    Ok(Checked { version: report::version(version), destination, source, token })
}
