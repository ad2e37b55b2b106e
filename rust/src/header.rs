//! The header of a packet with a number, as it stands in a datagram: RFC 9000 sections 17.2.2 to 17.2.4.

use crate::ffi;
use crate::level::Level;
use crate::refusal::Refusal;
use crate::report;
use crate::version::Version;

/// What can be read of a packet without keys. Both IDs and the token are parts of the caller's datagram.
#[derive(Clone, Copy, Debug, PartialEq, Eq)]
pub struct Header<'d> {
    /// The packet's version.
    pub version: Version,
    /// The packet's level, which names the keys that open it.
    pub level: Level,
    /// The Destination Connection ID. The keys of a client's first Initial are made from it.
    pub destination: &'d [u8],
    /// The Source Connection ID.
    pub source: &'d [u8],
    /// The token; often empty, and always at another level than Initial, whose packets have none.
    pub token: &'d [u8],
    /// Length: how many bytes number, payload and tag take together.
    pub length: usize,
    /// Where in the datagram the number starts, which is masked still. The packet ends `length` bytes behind this place.
    pub number_at: usize,
}

/// Reads the header of the Initial, 0-RTT or Handshake packet at a datagram's start. What stands behind the packet isn't
/// looked at. Nothing of it is authentic until the packet has been opened.
///
/// # Errors
/// Refuses 1 and 2; then, field by field as they stand, 3 for one that isn't whole before 4, 6, 5 or 7 for one that is
/// wrong; an ID length over 20 is 5 even where its bytes are absent, and a Length below 20 is 7 before its end is tested.
/// Of the types Retry alone is 6: [`retry::check`] reads it.
///
/// # Example
/// ```
/// use driftwicket::{read_header, Level, Refusal, Version};
///
/// // the start of RFC 9001's client Initial (appendix A.2), with zeros for what only keys can tell
/// let mut datagram = vec![0xc0, 0, 0, 0, 1, 8, 0x83, 0x94, 0xc8, 0xf0, 0x3e, 0x51, 0x57, 0x08, 0, 0, 0x44, 0x9e];
/// datagram.resize(1_200, 0);
///
/// let header = read_header(&datagram)?;
/// assert_eq!(header.version, Version::ONE);
/// assert_eq!(header.level, Level::Initial);
/// assert_eq!(header.destination, 0x8394c8f03e515708_u64.to_be_bytes());
/// assert_eq!(header.source, b"");
/// assert_eq!(header.token, b"");
/// assert_eq!(header.number_at, 18);
/// assert_eq!(header.length, 1_182);
///
/// assert_eq!(read_header(&datagram[..1_199]), Err(Refusal::NotWhole));
/// # Ok::<(), Refusal>(())
/// ```
///
/// [`retry::check`]: crate::retry::check
pub fn read_header(datagram: &[u8]) -> Result<Header<'_>, Refusal> {
    let [version, parts @ .., length, number_at, level] = ffi::read_header(datagram)?;
    let (version, level) = (report::version(version), report::level(level));
    let [destination, source, token] = report::parts(datagram, parts);
    let [length, number_at] = [length, number_at].map(report::count);
    Ok(Header { version, level, destination, source, token, length, number_at })
}
