//! Opening Initial, 0-RTT and Handshake packets (RFC 9001 sections 5.3 and 5.4, RFC 9000 appendix A.3).

use crate::gcm::Gcm;
use crate::header::{read_protected, NUMBER_LENGTH_BITS, RESERVED_BITS, TAG};
use crate::keys::Keys;
use crate::numbers::{recover, NUMBER_LIMIT};
use crate::refusal::{ensure, Refusal};
use crate::seal::mask;
use crate::version::version;

/// What opening answers.
#[derive(Clone, Debug, PartialEq, Eq)]
pub struct Opened {
    pub number: u64,
    pub number_length: usize,
    /// with the number in it
    pub header_length: usize,
    pub payload_length: usize,
    pub bytes_used: usize,
}

impl Opened {
    /// The report of the C interface.
    pub fn words(&self) -> [u64; 5] {
        let lengths = [self.number_length, self.header_length, self.payload_length, self.bytes_used];
        let [number_length, header_length, payload_length, bytes_used] = lengths.map(|length| length as u64);
        [self.number, number_length, header_length, payload_length, bytes_used]
    }
}

/// Opens the packet at the datagram's start, of the keys' level. The output then holds plain header and payload, and the
/// expected number is above the one opened; a refusal leaves both as they were.
pub fn open(keys: &Keys, expected: &mut u64, datagram: &[u8], output: &mut [u8]) -> Result<Opened, Refusal> {
    ensure(*expected <= NUMBER_LIMIT, Refusal::NumberRange)?;
    version(keys.version)?;
    let header = read_protected(datagram, Some(keys))?;
    let packet = &datagram[..header.packet_length()];
    let plain_length = packet.len() - TAG;
    ensure(plain_length <= output.len(), Refusal::Output)?;

    let unmasked = unmask(keys, packet, header.number_at)?;
    let number = recover(*expected, unmasked.truncated, unmasked.number_length)?;
    let header_length = unmasked.header.len();
    let (ciphertext, tag) = packet[header_length..].split_at(plain_length - header_length);
    let gcm = Gcm::new(&keys.key);
    let nonce = keys.nonce(number);
    ensure(gcm.tag(&nonce, &unmasked.header, ciphertext) == tag, Refusal::Tag)?;

    let payload = gcm.counter_mode(&nonce, ciphertext);
    output[..header_length].copy_from_slice(&unmasked.header);
    output[header_length..plain_length].copy_from_slice(&payload);
    *expected = (*expected).max(number + 1);
    Ok(Opened {
        number,
        number_length: unmasked.number_length,
        header_length,
        payload_length: payload.len(),
        bytes_used: packet.len(),
    })
}

/// A header without its protection.
struct Unmasked {
    /// from the first byte through the number
    header: Vec<u8>,
    number_length: usize,
    truncated: u64,
}

/// RFC 9001 section 5.4.1: the first byte tells the number's length only after its own mask is removed.
fn unmask(keys: &Keys, packet: &[u8], number_at: usize) -> Result<Unmasked, Refusal> {
    let mask = mask(keys, packet, number_at);
    let first = packet[0] ^ (mask[0] & (RESERVED_BITS | NUMBER_LENGTH_BITS));
    ensure(first & RESERVED_BITS == 0, Refusal::ReservedBits)?;
    let number_length = usize::from(first & NUMBER_LENGTH_BITS) + 1;
    let mut header = packet[..number_at].to_vec();
    header[0] = first;
    let mut truncated = 0;
    for (byte, mask) in packet[number_at..][..number_length].iter().zip(&mask[1..]) {
        header.push(byte ^ mask);
        truncated = truncated << 8 | u64::from(byte ^ mask);
    }
    Ok(Unmasked { header, number_length, truncated })
}
