//! Sealed packets, and each of them damaged in every small way.

use super::draft::Draft;
use super::sample;
use crate::random::Random;
use second::keys::{Keys, Record};

/// A packet sealed by the rules, and what it was sealed from.
pub struct Sealed {
    pub record: Record,
    pub draft: Draft,
    pub packet: Vec<u8>,
}

impl Sealed {
    /// A draft under keys of its own version and level.
    pub fn new(random: &mut Random, draft: Draft) -> Sealed {
        let record = sample::record(random, draft.kind);
        let packet = draft.packet(&Keys::from_record(&record));
        Sealed { record, draft, packet }
    }
}

/// Packets of every kind, with numbers of one to four bytes, from the smallest payload to a large one.
pub fn sealed(random: &mut Random) -> Vec<Sealed> {
    let mut packets = Vec::new();
    for kind in sample::kinds() {
        for number_length in 1..=4 {
            for payload in [4 - number_length, random.between(17..=60)] {
                let token = random.pick(&[0, 0, 5, 20]);
                let mut draft = Draft::valid(random, kind, token, payload);
                draft.number_length = number_length;
                draft.length_form = 2;
                packets.push(Sealed::new(random, draft));
            }
        }
        let large = random.pick(&[250, 250, 1_100]);
        let draft = Draft::valid(random, kind, 64, large);
        packets.push(Sealed::new(random, draft));
    }
    packets
}

/// Every truncation of some bytes, and every one of their bits turned over.
pub fn each(bytes: &[u8], mut with: impl FnMut(&[u8])) {
    for length in 0..bytes.len() {
        with(&bytes[..length]);
    }
    let mut damaged = bytes.to_vec();
    for bit in 0..8 * bytes.len() {
        damaged[bit / 8] ^= 1 << (bit % 8);
        with(&damaged);
        damaged[bit / 8] ^= 1 << (bit % 8);
    }
}
