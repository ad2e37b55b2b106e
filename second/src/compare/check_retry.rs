//! `dw_check_retry`: RFC 9000 section 17.2.5, RFC 9001 section 5.8.

use super::call::{Call, Hex};
use super::damage;
use super::entry::Entry;
use super::faults::{each_set, small_sets, Fault};
use super::sample::{self, MILLION, VERSIONS};
use super::tally::Tally;
use super::write_retry::WriteRetry;
use crate::effect::Effect;
use crate::library;
use crate::random::Random;
use second::header::{FIXED_BIT, FORM_BIT};
use second::retry::{check_retry, integrity_tag, Checked};
use second::version::version;
use std::fmt::{self, Display, Formatter};

pub const ENTRY: Entry = Entry {
    name: "dw_check_retry",
    parts: &[
        ("every truncation and every bit of written ones", damaged),
        ("0 to 40 bytes behind the source ID, and bytes behind the packet", token_lengths),
        ("original IDs that are others", originals),
        ("every first byte, and versions that are one bit off", starts),
        ("every fault, every two and larger sets", fault_sets),
        ("random bytes behind a good start", rubbish),
        ("datagrams around 1,500 bytes, of a million and more", large),
    ],
    refusals: &[1, 2, 3, 4, 5, 6, 11, 13],
};

struct CheckRetry<'a> {
    original: &'a [u8],
    datagram: &'a [u8],
}

impl Display for CheckRetry<'_> {
    fn fmt(&self, formatter: &mut Formatter) -> fmt::Result {
        write!(formatter, "original {}, datagram {}", Hex(self.original), Hex(self.datagram))
    }
}

impl Call<7> for CheckRetry<'_> {
    fn ours(&self) -> Effect<7> {
        Effect::reporting(check_retry(self.original, self.datagram).map(|checked: Checked| checked.words()))
    }

    fn theirs(&self) -> Effect<7> {
        library::check_retry(self.original, self.datagram)
    }
}

/// The report that a packet's making tells.
fn report(written: &WriteRetry) -> [u64; 7] {
    let destination = 1 + 4 + 1;
    let source = destination + written.destination.len() + 1;
    let token = source + written.source.len();
    let [destination_length, source_length, token_length] =
        [&written.destination, &written.source, &written.token].map(|bytes| bytes.len() as u64);
    let [destination, source, token] = [destination, source, token].map(|place| place as u64);
    [u64::from(written.version), destination, destination_length, source, source_length, token, token_length]
}

/// Compares a good Retry, of which everything is known.
fn compare_good(tally: &mut Tally, written: &WriteRetry, packet: &[u8]) {
    tally.compare_yielding(&CheckRetry { original: &written.original, datagram: packet }, report(written));
}

fn damaged(tally: &mut Tally, random: &mut Random) {
    for version in VERSIONS {
        for token in [1, 5, 16, 17, 60, 300, 1_400] {
            let written = WriteRetry { version, ..WriteRetry::valid(random, token) };
            let packet = written.packet();
            compare_good(tally, &written, &packet);
            damage::each(&packet, |datagram| {
                tally.compare(&CheckRetry { original: &written.original, datagram });
            });
        }
    }
}

/// Fewer than 16 bytes behind the source ID are no tag (3), just 16 no token (13), and more carry one.
fn token_lengths(tally: &mut Tally, random: &mut Random) {
    for _ in 0..200 {
        let written = WriteRetry::valid(random, 40);
        let packet = written.packet();
        let original = &written.original;
        let token_at = packet.len() - 40 - 16;
        for behind in 0..=40 {
            let mut datagram = packet[..token_at + behind].to_vec();
            // where there is room for a tag, it is the right one, so that only the token's length decides
            if behind >= 16 {
                let (start, tag) = datagram.split_at_mut(token_at + behind - 16);
                let version = version(written.version).expect("a known version");
                tag.copy_from_slice(&integrity_tag(version, original, start));
            }
            let known = match behind {
                0..16 => 3,
                16 => 13,
                _ => 0,
            };
            tally.compare_knowing(&CheckRetry { original, datagram: &datagram }, known);
        }
        // the packet ends the datagram: bytes behind it take the tag's place
        for behind in [1, 2, 16] {
            let datagram = [&packet[..], &random.bytes(behind)].concat();
            tally.compare_knowing(&CheckRetry { original, datagram: &datagram }, 11);
        }
    }
}

fn originals(tally: &mut Tally, random: &mut Random) {
    for _ in 0..300 {
        let token = random.between(1..=50);
        let written = WriteRetry::valid(random, token);
        let packet = written.packet();
        compare_good(tally, &written, &packet);
        let mut original = written.original.to_vec();
        for bit in 0..8 * original.len() {
            original[bit / 8] ^= 1 << (bit % 8);
            tally.compare_knowing(&CheckRetry { original: &original, datagram: &packet }, 11);
            original[bit / 8] ^= 1 << (bit % 8);
        }
        for length in 0..=24 {
            original.resize(length, 0);
            tally.compare(&CheckRetry { original: &original, datagram: &packet });
        }
        tally.compare_knowing(&CheckRetry { original: &sample::long_id(random), datagram: &packet }, 5);
    }
    for original in sample::huge() {
        tally.compare_knowing(&CheckRetry { original, datagram: &[] }, 5);
    }
}

fn starts(tally: &mut Tally, random: &mut Random) {
    for version in VERSIONS {
        let written = WriteRetry { version, ..WriteRetry::valid(random, 9) };
        let mut packet = written.packet();
        let original = &written.original;
        for first in 0..=255 {
            packet[0] = first;
            for length in [1, 3, 5, 6, packet.len()] {
                tally.compare(&CheckRetry { original, datagram: &packet[..length] });
            }
            for bit in 0..32 {
                packet[1..5].copy_from_slice(&(version ^ 1 << bit).to_be_bytes());
                tally.compare(&CheckRetry { original, datagram: &packet });
            }
            packet[1..5].copy_from_slice(&version.to_be_bytes());
        }
    }
}

/// A Retry on its way, with its faults.
struct Arrival {
    original: Vec<u8>,
    datagram: Vec<u8>,
    source_length_at: usize,
    token_at: usize,
}

impl Arrival {
    /// A good Retry in which no part is empty.
    fn valid(random: &mut Random) -> Arrival {
        let [original, destination, source, token] = [20, 20, 20, 60].map(|most| {
            let length = random.between(1..=most);
            random.bytes(length)
        });
        let source_length_at = 1 + 4 + 1 + destination.len();
        let token_at = source_length_at + 1 + source.len();
        let written = WriteRetry {
            original: original.clone().into(),
            destination: destination.into(),
            source: source.into(),
            token: token.into(),
            output: vec![0; 200],
            ..WriteRetry::valid(random, 1)
        };
        Arrival { original, datagram: written.packet(), source_length_at, token_at }
    }
}

/// In the scope's order: 5 (original), 1, 2, the fields, 3, 13, 11. Each changes bytes or cuts, and none moves a field.
const FAULTS: [Fault<Arrival>; 18] = [
    (5, |arrival, random| arrival.original = sample::long_id(random).to_vec()),
    (1, |arrival, _| arrival.datagram.clear()),
    (1, |arrival, random| {
        let size = random.between(1_501..=1_520);
        arrival.datagram.resize(size, 0);
    }),
    (2, |arrival, _| arrival.datagram[0] &= !FORM_BIT),
    (2, |arrival, _| arrival.datagram[0] &= !FIXED_BIT),
    (3, |arrival, random| arrival.datagram.truncate(random.between(1..=4))),
    (4, |arrival, random| {
        let version = sample::unknown_version(random);
        arrival.datagram[1..5].copy_from_slice(&version.to_be_bytes());
    }),
    (6, |arrival, random| arrival.datagram[0] ^= random.pick(&[0x10, 0x20, 0x30])),
    (3, |arrival, _| arrival.datagram.truncate(5)),
    (5, |arrival, random| arrival.datagram[5] = random.pick(&[21, 22, 128, 255])),
    (3, |arrival, _| arrival.datagram.truncate(arrival.source_length_at - 1)),
    (3, |arrival, _| arrival.datagram.truncate(arrival.source_length_at)),
    (5, |arrival, random| arrival.datagram[arrival.source_length_at] = random.pick(&[21, 22, 128, 255])),
    (3, |arrival, _| arrival.datagram.truncate(arrival.token_at - 1)),
    (3, |arrival, _| arrival.datagram.truncate(arrival.token_at)),
    (3, |arrival, _| arrival.datagram.truncate(arrival.token_at + 15)),
    (13, |arrival, _| arrival.datagram.truncate(arrival.token_at + 16)),
    (11, |arrival, random| {
        let bit = random.between(0..=127);
        let tag = arrival.datagram.len() - 16;
        arrival.datagram[tag + bit / 8] ^= 1 << (bit % 8);
    }),
];

fn fault_sets(tally: &mut Tally, random: &mut Random) {
    let sets = small_sets(FAULTS.len(), 40, random);
    each_set(&FAULTS, sets, random, Arrival::valid, |arrival, known, _| {
        tally.compare_knowing(&CheckRetry { original: &arrival.original, datagram: &arrival.datagram }, known);
    });
}

fn rubbish(tally: &mut Tally, random: &mut Random) {
    for _ in 0..30_000 {
        let token = random.between(1..=40);
        let written = WriteRetry::valid(random, token);
        let mut datagram = written.packet();
        if random.one_in(2) {
            datagram.truncate(random.between(0..=50));
            let behind = random.between(0..=60);
            datagram.extend(random.bytes(behind));
        } else {
            let at = random.between(0..=datagram.len() - 1);
            datagram[at] = random.word() as u8;
        }
        tally.compare(&CheckRetry { original: &written.original, datagram: &datagram });
    }
}

fn large(tally: &mut Tally, random: &mut Random) {
    for _ in 0..40 {
        for token in 1_430..=1_477 {
            let written = WriteRetry::valid(random, token);
            if written.output.len() <= 1_500 {
                compare_good(tally, &written, &written.packet());
            }
        }
    }
    for original in [0, 20, 21] {
        let original = random.bytes(original);
        let known = if original.len() > 20 { 5 } else { 1 };
        for datagram in [&[][..], &MILLION[..1_501]].into_iter().chain(sample::huge()) {
            tally.compare_knowing(&CheckRetry { original: &original, datagram }, known);
        }
    }
}
