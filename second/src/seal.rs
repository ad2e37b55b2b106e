//! Sealing Initial, 0-RTT and Handshake packets (RFC 9000 sections 17.2.2 to 17.2.4, RFC 9001 sections 5.3 and 5.4).

use crate::aes::Aes128;
use crate::gcm::Gcm;
use crate::header::{
    FIXED_BIT, FORM_BIT, LARGEST_DATAGRAM, LONGEST_ID, NUMBER_LENGTH_BITS, RESERVED_BITS, SAMPLE, SAMPLE_OFFSET, TAG,
};
use crate::integer;
use crate::keys::Keys;
use crate::level::Level;
use crate::numbers::shorten;
use crate::refusal::{ensure, Refusal};
use crate::version::version;

/// What goes into a packet.
#[derive(Clone, Debug)]
pub struct Plain<'a> {
    pub number: u64,
    pub acknowledged: Option<u64>,
    pub number_length: usize,
    pub destination: &'a [u8],
    pub source: &'a [u8],
    /// none for a packet without a token field, which is another thing than an empty token
    pub token: Option<&'a [u8]>,
    pub payload: &'a [u8],
}

/// Writes the packet to the output's start and answers its length; what stands behind stays.
pub fn seal(keys: &Keys, plain: &Plain, output: &mut [u8]) -> Result<usize, Refusal> {
    let version = version(keys.version)?;
    let level = Level::named(u32::from(keys.level)).ok_or(Refusal::PacketType)?;
    ensure(level.has_token() == plain.token.is_some(), Refusal::PacketType)?;
    shorten(plain.number, plain.acknowledged, plain.number_length)?;
    let ids_fit = plain.destination.len() <= LONGEST_ID && plain.source.len() <= LONGEST_ID;
    ensure(ids_fit, Refusal::ConnectionId)?;
    // the sample must lie within payload and tag (RFC 9001 section 5.4.2)
    ensure(plain.number_length + plain.payload.len() >= SAMPLE_OFFSET + SAMPLE - TAG, Refusal::Length)?;
    ensure(packet_length(plain) <= LARGEST_DATAGRAM as u128, Refusal::Size)?;

    let first = FORM_BIT | FIXED_BIT | level.packet_type(version) << 4 | (plain.number_length - 1) as u8;
    let length = (plain.number_length + plain.payload.len() + TAG) as u64;
    let mut header = vec![first];
    header.extend(version.number.to_be_bytes());
    for id in [plain.destination, plain.source] {
        header.push(id.len() as u8);
        header.extend(id);
    }
    if let Some(token) = plain.token {
        header.extend(integer::write(token.len() as u64));
        header.extend(token);
    }
    header.extend(integer::write_in(2, length));
    let packet = protect(keys, header, plain.number, plain.number_length, plain.payload);

    ensure(packet.len() <= output.len(), Refusal::Output)?;
    output[..packet.len()].copy_from_slice(&packet);
    Ok(packet.len())
}

/// The bytes of the whole packet, over whole numbers, so that slices of any length may come.
fn packet_length(plain: &Plain) -> u128 {
    let fixed = 1 + 4 + 1 + 1 + 2 + TAG as u128;
    let parts = [plain.destination.len(), plain.source.len(), plain.number_length, plain.payload.len()];
    fixed + parts.map(|length| length as u128).iter().sum::<u128>() + token_field_length(plain.token)
}

/// The bytes of the token with its length, where there is such a field.
fn token_field_length(token: Option<&[u8]>) -> u128 {
    let Some(token) = token else {
        return 0;
    };
    let length_bytes = match token.len() {
        0..64 => 1,
        64..16_384 => 2,
        // longer ones alone are over the limit
        _ => 4,
    };
    length_bytes + token.len() as u128
}

/// Encrypts a payload behind a header that ends before the number, and then protects the header.
pub fn protect(keys: &Keys, mut header: Vec<u8>, number: u64, number_length: usize, payload: &[u8]) -> Vec<u8> {
    let number_at = header.len();
    header.extend(&number.to_be_bytes()[8 - number_length..]);
    let gcm = Gcm::new(&keys.key);
    let nonce = keys.nonce(number);
    let ciphertext = gcm.counter_mode(&nonce, payload);
    let tag = gcm.tag(&nonce, &header, &ciphertext);
    let mut packet = [&header[..], &ciphertext, &tag].concat();
    let mask = mask(keys, &packet, number_at);
    apply_mask(&mut packet, mask, number_at, number_length);
    packet
}

/// RFC 9001 section 5.4.3: the mask from the sample, which starts where the payload would behind a number of four bytes.
pub(crate) fn mask(keys: &Keys, packet: &[u8], number_at: usize) -> [u8; 5] {
    let sample = &packet[number_at + SAMPLE_OFFSET..][..SAMPLE];
    let block = Aes128::new(&keys.hp).encrypt(sample.try_into().expect("16 bytes"));
    let mut mask = [0; 5];
    mask.copy_from_slice(&block[..5]);
    mask
}

/// RFC 9001 section 5.4.1: puts the mask onto the first byte's low four bits and onto the number.
pub(crate) fn apply_mask(packet: &mut [u8], mask: [u8; 5], number_at: usize, number_length: usize) {
    packet[0] ^= mask[0] & (RESERVED_BITS | NUMBER_LENGTH_BITS);
    for (byte, mask) in packet[number_at..][..number_length].iter_mut().zip(&mask[1..]) {
        *byte ^= mask;
    }
}
