//! Opening, and a receiver: RFC 9001 sections 5.3 and 5.4, RFC 9000 appendix A.3.

use crate::ffi;
use crate::keys::Keys;
use crate::numbers::FullPn;
use crate::refusal::Refusal;
use crate::report::count;

/// An opened packet. Its bytes stand in the buffer that was lent: the plain header, then the payload.
#[derive(Clone, Copy, Debug, PartialEq, Eq)]
pub struct Opened<'o> {
    /// The full number.
    pub number: FullPn,
    /// In how many bytes the packet carried it.
    pub number_length: usize,
    /// The plain header, with the number at its end.
    pub header: &'o [u8],
    /// The frames.
    pub payload: &'o [u8],
    /// How many bytes of the datagram the packet took; another packet may stand behind them.
    pub used: usize,
}

/// Opens the packet at a datagram's start, of the keys' level, into `out`, which must have room for the packet less its
/// tag, and raises `expected` to one above the number opened where it is below that. What stands behind the packet isn't
/// looked at. A repeated packet opens again.
///
/// # Errors
/// Refuses 10 (expected) and 4 (the keys' version); then what [`read_header`] refuses, and at the version field 4 for
/// another version than the keys' and 6 for a type of another level; then 8, 9, 10 (recovered) and 11, in this order. A
/// refusal leaves `out` and `expected` as they were. A packet refused with 9, 10 or 11 is to be dropped, and nothing
/// closed: see [`Refusal`].
///
/// # Example
/// ```
/// use driftwicket::{open, seal, FullPn, Initial, Keys, Refusal, Side, Version, LIMIT};
///
/// let keys = Keys::initial(Version::DRAFT_2, b"server", Side::Client)?;
/// let packet = Initial {
///     number: FullPn(3),
///     acknowledged: None,
///     number_length: 2,
///     destination: b"server",
///     source: b"unit",
///     token: b"",
///     payload: b"ping",
/// };
/// let mut sealed = [0; LIMIT];
/// let datagram = seal(&keys, &packet, &mut sealed)?;
///
/// let mut expected = 0;
/// let mut out = [0; LIMIT];
/// let opened = open(&keys, &mut expected, datagram, &mut out)?;
/// assert_eq!(opened.number, FullPn(3));
/// assert_eq!(opened.number_length, 2);
/// assert!(opened.header.ends_with(&[0, 3]));
/// assert_eq!(opened.payload, b"ping");
/// assert_eq!(opened.used, datagram.len());
/// assert_eq!(expected, 4);
///
/// let others = Keys::initial(Version::DRAFT_2, b"server", Side::Server)?;
/// assert!(open(&others, &mut expected, datagram, &mut out).is_err());
/// assert_eq!(expected, 4);
/// # Ok::<(), Refusal>(())
/// ```
///
/// [`read_header`]: crate::read_header
pub fn open<'o>(keys: &Keys, expected: &mut u64, datagram: &[u8], out: &'o mut [u8]) -> Result<Opened<'o>, Refusal> {
    let [number, lengths @ ..] = ffi::open(keys.as_bytes(), expected, datagram, out)?;
    let [number_length, header_length, payload_length, used] = lengths.map(count);
    let (header, behind) = out.split_at(header_length);
    Ok(Opened { number: FullPn(number), number_length, header, payload: &behind[..payload_length], used })
}

/// One sender's keys of a level and the number expected next at that level: Initial and Handshake packets are numbered
/// apart (RFC 9000 section 12.3). Through loss, repeats, late arrival and rubbish, it opens every packet of that sender and
/// level whose number lies in the window around what is expected.
///
/// ```
/// use driftwicket::{seal, FullPn, Initial, Keys, Receiver, Refusal, Side, Version, LIMIT};
///
/// let keys = Keys::initial(Version::ONE, b"server", Side::Client)?;
/// let mut receiver = Receiver::new(keys.clone());
/// for (number, expected) in [(2, 3), (5, 6), (5, 6), (4, 6)] {
///     let packet = Initial {
///         number: FullPn(number),
///         acknowledged: None,
///         number_length: 1,
///         destination: b"server",
///         source: b"unit",
///         token: b"",
///         payload: b"ping",
///     };
///     let (mut sealed, mut out) = ([0; LIMIT], [0; LIMIT]);
///     let datagram = seal(&keys, &packet, &mut sealed)?;
///     assert_eq!(receiver.open(datagram, &mut out)?.number, FullPn(number));
///     assert_eq!(receiver.expected(), expected);
///     assert_eq!(receiver.open(b"rubbish", &mut out), Err(Refusal::Form));
/// }
/// # Ok::<(), Refusal>(())
/// ```
#[derive(Clone, Debug)]
pub struct Receiver {
    keys: Keys,
    expected: u64,
}

impl Receiver {
    /// A receiver that has opened nothing yet.
    ///
    /// ```
    /// use driftwicket::{Keys, Receiver, Side, Version};
    ///
    /// let receiver = Receiver::new(Keys::initial(Version::ONE, b"server", Side::Client)?);
    /// assert_eq!(receiver.expected(), 0);
    /// # Ok::<(), driftwicket::Refusal>(())
    /// ```
    #[must_use]
    pub fn new(keys: Keys) -> Receiver {
        Receiver::expecting(keys, 0)
    }

    /// A receiver that goes on where another stopped: `expected` is one above the greatest number opened. Above 2^62 it
    /// opens nothing and refuses 10.
    ///
    /// ```
    /// use driftwicket::{Keys, Receiver, Refusal, Side, Version};
    ///
    /// let keys = Keys::initial(Version::ONE, b"server", Side::Client)?;
    /// assert_eq!(Receiver::expecting(keys.clone(), 1_000).expected(), 1_000);
    ///
    /// let mut beyond = Receiver::expecting(keys, (1 << 62) + 1);
    /// assert_eq!(beyond.open(b"anything", &mut []), Err(Refusal::Range));
    /// # Ok::<(), Refusal>(())
    /// ```
    #[must_use]
    pub fn expecting(keys: Keys, expected: u64) -> Receiver {
        Receiver { keys, expected }
    }

    /// The keys that it opens with.
    ///
    /// ```
    /// use driftwicket::{Keys, Receiver, Side, Version};
    ///
    /// let receiver = Receiver::new(Keys::initial(Version::ONE, b"server", Side::Client)?);
    /// assert_eq!(receiver.keys().version(), Version::ONE);
    /// # Ok::<(), driftwicket::Refusal>(())
    /// ```
    #[must_use]
    pub fn keys(&self) -> &Keys {
        &self.keys
    }

    /// The number expected next: one above the greatest number opened, and never below where it started.
    ///
    /// ```
    /// use driftwicket::{Keys, Receiver, Side, Version};
    ///
    /// let keys = Keys::initial(Version::ONE, b"server", Side::Client)?;
    /// assert_eq!(Receiver::expecting(keys, 12).expected(), 12);
    /// # Ok::<(), driftwicket::Refusal>(())
    /// ```
    #[must_use]
    pub fn expected(&self) -> u64 {
        self.expected
    }

    /// Opens the packet at a datagram's start, as [`open`] does.
    ///
    /// # Errors
    /// Those of [`open`].
    ///
    /// # Example
    /// ```
    /// use driftwicket::{Keys, Receiver, Refusal, Side, Version, LIMIT};
    ///
    /// let mut receiver = Receiver::new(Keys::initial(Version::ONE, b"server", Side::Client)?);
    /// let mut out = [0; LIMIT];
    /// assert_eq!(receiver.open(b"", &mut out), Err(Refusal::Size));
    /// assert_eq!(receiver.open(b"\xc0\x00\x00\x00\x02", &mut out), Err(Refusal::Version));
    /// # Ok::<(), Refusal>(())
    /// ```
    pub fn open<'o>(&mut self, datagram: &[u8], out: &'o mut [u8]) -> Result<Opened<'o>, Refusal> {
        open(&self.keys, &mut self.expected, datagram, out)
    }
}
