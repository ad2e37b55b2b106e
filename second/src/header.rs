//! Long headers (RFC 9000 section 17.2): their fields in turn, and the header of Initial, 0-RTT and Handshake packets.

use crate::integer;
use crate::keys::Keys;
use crate::level::Level;
use crate::refusal::{ensure, Refusal};
use crate::version::{version, Version};

/// The longest datagram read and packet written.
pub const LARGEST_DATAGRAM: usize = 1_500;

/// RFC 9000 section 17.2: no connection ID of these versions is longer.
pub const LONGEST_ID: usize = 20;

/// RFC 9001 section 5.3: the tag behind the payload.
pub const TAG: usize = 16;

/// RFC 9001 section 5.4.2: the sample starts this far behind the number's first byte, whatever the number's length.
pub const SAMPLE_OFFSET: usize = 4;

/// RFC 9001 section 5.4.2: the length of the sample.
pub const SAMPLE: usize = 16;

/// The first byte's bits (RFC 9000 section 17.2).
pub const FORM_BIT: u8 = 0x80;
pub const FIXED_BIT: u8 = 0x40;
pub const TYPE_BITS: u8 = 0x30;
pub const RESERVED_BITS: u8 = 0x0c;
pub const NUMBER_LENGTH_BITS: u8 = 0x03;

/// Where a part of the datagram stands.
#[derive(Clone, Copy, Debug, PartialEq, Eq)]
pub struct Place {
    pub at: usize,
    pub length: usize,
}

impl Place {
    /// The part itself.
    pub fn of<'a>(&self, datagram: &'a [u8]) -> &'a [u8] {
        &datagram[self.at..self.at + self.length]
    }
}

/// The place that is answered where a packet has no token field.
const NO_TOKEN: Place = Place { at: 0, length: 0 };

/// What reading a header answers.
#[derive(Clone, Debug, PartialEq, Eq)]
pub struct Header {
    pub version: u32,
    pub level: Level,
    pub destination: Place,
    pub source: Place,
    pub token: Place,
    /// the Length field: number, payload and tag
    pub length: u64,
    pub number_at: usize,
}

impl Header {
    /// The report of the C interface.
    pub fn words(&self) -> [u64; 10] {
        let start = start_words(self.version, [self.destination, self.source, self.token]);
        let mut words = [0; 10];
        words[..7].copy_from_slice(&start);
        words[7..].copy_from_slice(&[self.length, self.number_at as u64, u64::from(self.level.number())]);
        words
    }

    /// The bytes of the packet, from the first to the end that Length tells.
    pub fn packet_length(&self) -> usize {
        self.number_at + self.length as usize
    }
}

/// The version and three places as the C interface reports them.
pub(crate) fn start_words(version: u32, parts: [Place; 3]) -> [u64; 7] {
    let [destination, source, token] = parts.map(|part| [part.at as u64, part.length as u64]);
    [u64::from(version), destination[0], destination[1], source[0], source[1], token[0], token[1]]
}

/// A walk over the datagram's fields, each of which must be whole.
pub(crate) struct Fields<'a> {
    datagram: &'a [u8],
    pub at: usize,
}

impl<'a> Fields<'a> {
    /// The datagram's size (1) and its first byte's form and fixed bits (2).
    pub fn of(datagram: &'a [u8]) -> Result<Fields<'a>, Refusal> {
        ensure((1..=LARGEST_DATAGRAM).contains(&datagram.len()), Refusal::Size)?;
        let both = FORM_BIT | FIXED_BIT;
        ensure(datagram[0] & both == both, Refusal::FormOrFixedBit)?;
        Ok(Fields { datagram, at: 1 })
    }

    /// How many bytes aren't read yet.
    pub fn left(&self) -> usize {
        self.datagram.len() - self.at
    }

    /// The next so many bytes; the length comes from the packet and may be anything.
    pub fn take(&mut self, length: u64) -> Result<Place, Refusal> {
        ensure(length <= self.left() as u64, Refusal::NotWhole)?;
        let place = Place { at: self.at, length: length as usize };
        self.at += place.length;
        Ok(place)
    }

    /// A version that is known.
    pub fn version(&mut self) -> Result<&'static Version, Refusal> {
        let field = self.take(4)?.of(self.datagram);
        version(u32::from_be_bytes(field.try_into().expect("four bytes")))
    }

    /// The type, which stands in the first byte and means what the version says.
    pub fn packet_type(&self) -> u8 {
        (self.datagram[0] & TYPE_BITS) >> 4
    }

    /// A connection ID behind its length byte. Its length is judged before its bytes are looked for.
    pub fn connection_id(&mut self) -> Result<Place, Refusal> {
        let length = self.take(1)?.of(self.datagram)[0];
        ensure(usize::from(length) <= LONGEST_ID, Refusal::ConnectionId)?;
        self.take(u64::from(length))
    }

    /// A variable-length integer in any of its forms.
    fn integer(&mut self) -> Result<u64, Refusal> {
        let (value, taken) = integer::read(&self.datagram[self.at..])?;
        self.at += taken;
        Ok(value)
    }

    /// A token behind its length.
    fn token(&mut self) -> Result<Place, Refusal> {
        let length = self.integer()?;
        self.take(length)
    }
}

/// RFC 9000 sections 17.2.2 to 17.2.4: the header of a packet that is protected by keys. Opening has them, and then
/// version and type are judged by theirs.
pub(crate) fn read_protected(datagram: &[u8], keys: Option<&Keys>) -> Result<Header, Refusal> {
    let mut fields = Fields::of(datagram)?;
    let version = fields.version()?;
    ensure(keys.is_none_or(|keys| keys.version == version.number), Refusal::Version)?;
    let level = version.level(fields.packet_type())?;
    ensure(keys.is_none_or(|keys| keys.level == level.number()), Refusal::PacketType)?;
    let destination = fields.connection_id()?;
    let source = fields.connection_id()?;
    let token = if level.has_token() { fields.token()? } else { NO_TOKEN };
    let length = fields.integer()?;
    // the scope: Length is judged (7) before its end is looked for (3)
    ensure(length >= (SAMPLE_OFFSET + SAMPLE) as u64, Refusal::Length)?;
    let number_at = fields.take(length)?.at;
    Ok(Header { version: version.number, level, destination, source, token, length, number_at })
}

/// Reads a header without keys, of either version and any level.
pub fn read_header(datagram: &[u8]) -> Result<Header, Refusal> {
    read_protected(datagram, None)
}
