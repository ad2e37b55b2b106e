//! Retry packets (RFC 9000 section 17.2.5, RFC 9001 section 5.8).

use crate::gcm::Gcm;
use crate::header::{start_words, Fields, Place, FIXED_BIT, FORM_BIT, LARGEST_DATAGRAM, LONGEST_ID, TAG};
use crate::refusal::{ensure, Refusal};
use crate::version::{version, Version};

/// What goes into a Retry.
#[derive(Clone, Debug)]
pub struct Plain<'a> {
    pub version: u32,
    /// the Destination Connection ID of the Initial that the Retry answers: in the tag, not in the packet
    pub original: &'a [u8],
    pub destination: &'a [u8],
    pub source: &'a [u8],
    pub token: &'a [u8],
    /// its remainder by 16 goes into the first byte
    pub low_bits: u64,
}

/// What checking a Retry answers.
#[derive(Clone, Debug, PartialEq, Eq)]
pub struct Checked {
    pub version: u32,
    pub destination: Place,
    pub source: Place,
    pub token: Place,
}

impl Checked {
    /// The report of the C interface.
    pub fn words(&self) -> [u64; 7] {
        start_words(self.version, [self.destination, self.source, self.token])
    }
}

/// Writes a Retry to the output's start and answers its length; what stands behind stays.
pub fn write_retry(plain: &Plain, output: &mut [u8]) -> Result<usize, Refusal> {
    let version = version(plain.version)?;
    for id in [plain.original, plain.destination, plain.source] {
        ensure(id.len() <= LONGEST_ID, Refusal::ConnectionId)?;
    }
    ensure(!plain.token.is_empty(), Refusal::EmptyToken)?;
    let length = 1 + 4 + 1 + plain.destination.len() + 1 + plain.source.len() + plain.token.len() + TAG;
    ensure(length <= LARGEST_DATAGRAM, Refusal::Size)?;
    ensure(length <= output.len(), Refusal::Output)?;

    let mut packet = vec![FORM_BIT | FIXED_BIT | version.retry_type << 4 | (plain.low_bits % 16) as u8];
    packet.extend(version.number.to_be_bytes());
    for id in [plain.destination, plain.source] {
        packet.push(id.len() as u8);
        packet.extend(id);
    }
    packet.extend(plain.token);
    packet.extend(integrity_tag(version, plain.original, &packet));
    output[..length].copy_from_slice(&packet);
    Ok(length)
}

/// Checks a Retry that answers an Initial sent to the original connection ID. The packet fills the datagram.
pub fn check_retry(original: &[u8], datagram: &[u8]) -> Result<Checked, Refusal> {
    ensure(original.len() <= LONGEST_ID, Refusal::ConnectionId)?;
    let mut fields = Fields::of(datagram)?;
    let version = fields.version()?;
    ensure(fields.packet_type() == version.retry_type, Refusal::PacketType)?;
    let destination = fields.connection_id()?;
    let source = fields.connection_id()?;
    ensure(fields.left() >= TAG, Refusal::NotWhole)?;
    ensure(fields.left() > TAG, Refusal::EmptyToken)?;
    let token = Place { at: fields.at, length: fields.left() - TAG };
    let (packet, tag) = datagram.split_at(datagram.len() - TAG);
    ensure(integrity_tag(version, original, packet) == tag, Refusal::Tag)?;
    Ok(Checked { version: version.number, destination, source, token })
}

/// RFC 9001 section 5.8: the tag of nothing, with the Retry Pseudo-Packet as associated data.
pub fn integrity_tag(version: &Version, original: &[u8], packet: &[u8]) -> [u8; TAG] {
    let pseudo_packet = [&[original.len() as u8], original, packet].concat();
    Gcm::new(&version.retry_key).tag(&version.retry_nonce, &pseudo_packet, &[])
}
