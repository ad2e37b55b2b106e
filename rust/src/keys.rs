//! Key records: RFC 9001 sections 5.1 and 5.2.

use crate::ffi::{self, Record, Secret};
use crate::level::Level;
use crate::refusal::Refusal;
use crate::version::Version;
use core::fmt::{self, Debug, Formatter};

/// The end of the connection that seals with some keys.
#[derive(Clone, Copy, Debug, PartialEq, Eq, Hash)]
pub enum Side {
    /// The end that opened the connection.
    Client,
    /// The end that answers.
    Server,
}

/// One sender's keys, with the version and the level that they are for. What one side seals, the other opens with the
/// same record.
///
/// They hold secrets: `Debug` tells version and level alone, and the record is wiped when it is dropped. What isn't wiped:
/// what a move of the record leaves where it was, what is copied from [`Keys::as_bytes`], and what the library leaves on
/// the stack below its calls. The keys of Initial packets are no secret to anybody who has seen the client's first.
///
/// ```
/// use driftwicket::{Keys, Side, Version};
///
/// let keys = Keys::initial(Version::ONE, b"an ID", Side::Client)?;
/// assert_eq!(format!("{keys:?}"), "Keys { version: Version(0x00000001), level: Some(Initial), .. }");
/// # Ok::<(), driftwicket::Refusal>(())
/// ```
#[derive(Clone)]
pub struct Keys(Record);

impl Keys {
    /// How many bytes a record has.
    pub const LENGTH: usize = 49;

    /// How many bytes a secret of TLS has, in the suites whose hash is SHA-256.
    pub const SECRET_LENGTH: usize = 32;

    /// Makes a sender's Initial keys from the Destination Connection ID of the client's Initial: its first, or after a
    /// Retry the one that the Retry set.
    ///
    /// # Errors
    /// Refuses 4 and 5, in this order.
    ///
    /// # Example
    /// ```
    /// use driftwicket::{Keys, Refusal, Side, Version};
    ///
    /// // RFC 9001 appendix A.1
    /// let id = 0x8394c8f03e515708_u64.to_be_bytes();
    /// let keys = Keys::initial(Version::ONE, &id, Side::Client)?;
    /// let key = 0x1f369613dd76d5467730efcbe3b1a22d_u128.to_be_bytes();
    /// assert_eq!(keys.as_bytes()[5..21], key);
    ///
    /// let too_long = [0; 21];
    /// assert_eq!(Keys::initial(Version::ONE, &too_long, Side::Client).unwrap_err(), Refusal::LongId);
    /// # Ok::<(), Refusal>(())
    /// ```
    pub fn initial(version: Version, destination: &[u8], side: Side) -> Result<Keys, Refusal> {
        let mut keys = Keys([0; Keys::LENGTH]);
        ffi::initial_keys(version.0, destination, side == Side::Server, &mut keys.0)?;
        Ok(keys)
    }

    /// Makes a sender's keys of a level from the secret that TLS hands over for that level and side, in a suite with
    /// AES-128-GCM and SHA-256.
    ///
    /// # Errors
    /// Refuses 4, and then 6 for [`Level::Initial`], whose keys [`Keys::initial`] makes, and for [`Level::ZeroRtt`] where
    /// the server would send.
    ///
    /// # Example
    /// ```
    /// use driftwicket::{Keys, Level, Refusal, Side, Version};
    ///
    /// let secret = [7; Keys::SECRET_LENGTH];
    /// let keys = Keys::install(Version::ONE, Level::Handshake, Side::Server, &secret)?;
    /// assert_eq!(keys.level(), Some(Level::Handshake));
    ///
    /// // early data goes from the client to the server
    /// assert!(Keys::install(Version::ONE, Level::ZeroRtt, Side::Client, &secret).is_ok());
    /// let refused = Keys::install(Version::ONE, Level::ZeroRtt, Side::Server, &secret);
    /// assert_eq!(refused.unwrap_err(), Refusal::Type);
    /// # Ok::<(), Refusal>(())
    /// ```
    pub fn install(version: Version, level: Level, side: Side, secret: &Secret) -> Result<Keys, Refusal> {
        let mut keys = Keys([0; Keys::LENGTH]);
        ffi::install_keys(version.0, level.number(), side == Side::Server, secret, &mut keys.0)?;
        Ok(keys)
    }

    /// Takes a record from its bytes: the version (4, the most significant byte first), level (1), key (16), iv (12) and
    /// hp (16). Any bytes are a record; one of an unknown version or level is refused where it is used.
    ///
    /// ```
    /// use driftwicket::{open, Keys, Refusal};
    ///
    /// let blank = Keys::from_bytes([0; Keys::LENGTH]);
    /// assert_eq!(open(&blank, &mut 0, &[], &mut []).unwrap_err(), Refusal::Version);
    /// ```
    #[must_use]
    pub fn from_bytes(bytes: [u8; Keys::LENGTH]) -> Keys {
        Keys(bytes)
    }

    /// The record's bytes, as [`Keys::from_bytes`] takes them. They are secrets.
    ///
    /// ```
    /// use driftwicket::{Keys, Side, Version};
    ///
    /// let keys = Keys::initial(Version::DRAFT_2, b"an ID", Side::Server)?;
    /// let kept = *keys.as_bytes();
    /// assert_eq!(Keys::from_bytes(kept).as_bytes(), keys.as_bytes());
    /// # Ok::<(), driftwicket::Refusal>(())
    /// ```
    #[must_use]
    pub fn as_bytes(&self) -> &[u8; Keys::LENGTH] {
        &self.0
    }

    /// The version that these keys are for.
    ///
    /// ```
    /// use driftwicket::{Keys, Side, Version};
    ///
    /// let keys = Keys::initial(Version::DRAFT_2, b"an ID", Side::Client)?;
    /// assert_eq!(keys.version(), Version::DRAFT_2);
    /// # Ok::<(), driftwicket::Refusal>(())
    /// ```
    #[must_use]
    pub fn version(&self) -> Version {
        let [first, second, third, fourth, ..] = self.0;
        Version(u32::from_be_bytes([first, second, third, fourth]))
    }

    /// The level that these keys are for; none where [`Keys::from_bytes`] was given a byte that names none.
    ///
    /// ```
    /// use driftwicket::{Keys, Level, Side, Version};
    ///
    /// let keys = Keys::install(Version::ONE, Level::ZeroRtt, Side::Client, &[7; Keys::SECRET_LENGTH])?;
    /// assert_eq!(keys.level(), Some(Level::ZeroRtt));
    /// assert_eq!(Keys::from_bytes([0xff; Keys::LENGTH]).level(), None);
    /// # Ok::<(), driftwicket::Refusal>(())
    /// ```
    #[must_use]
    pub fn level(&self) -> Option<Level> {
        let [_, _, _, _, level, ..] = self.0;
        Level::named(u64::from(level))
    }
}

impl Debug for Keys {
    fn fmt(&self, formatter: &mut Formatter) -> fmt::Result {
        let mut keys = formatter.debug_struct("Keys");
        keys.field("version", &self.version()).field("level", &self.level()).finish_non_exhaustive()
    }
}

impl Drop for Keys {
    fn drop(&mut self) {
        ffi::wipe(&mut self.0);
    }
}
