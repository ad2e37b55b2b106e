//! `dw_read_header`: RFC 9000 sections 17.2.2 to 17.2.4.

use super::arrival::{each_faulty, header_faults};
use super::call::{Call, Hex};
use super::damage::{self, Sealed};
use super::draft::{Draft, Token};
use super::entry::Entry;
use super::sample::{self, Kind};
use super::tally::Tally;
use crate::effect::Effect;
use crate::library;
use crate::random::Random;
use second::header::{read_header, Header};
use std::array;
use std::fmt::{self, Display, Formatter};

pub const ENTRY: Entry = Entry {
    name: "dw_read_header",
    parts: &[
        ("every truncation and every bit of sealed packets", damaged),
        ("every first byte, and versions that are one bit off", starts),
        ("token lengths and Lengths in every form, right, a little off, far off or anything", claims),
        ("token fields that the level hasn't, or none where it has one", token_fields),
        ("packets of any levels one behind the other", coalesced),
        ("every fault, every two and larger sets, at every level", fault_sets),
        ("random bytes behind a good start", rubbish),
        ("datagrams around 1,500 bytes, of a million and more", large),
    ],
    refusals: &[1, 2, 3, 4, 5, 6, 7],
};

pub struct ReadHeader<'a>(pub &'a [u8]);

impl Display for ReadHeader<'_> {
    fn fmt(&self, formatter: &mut Formatter) -> fmt::Result {
        write!(formatter, "datagram {}", Hex(self.0))
    }
}

impl Call<10> for ReadHeader<'_> {
    fn ours(&self) -> Effect<10> {
        Effect::reporting(read_header(self.0).map(|header: Header| header.words()))
    }

    fn theirs(&self) -> Effect<10> {
        library::read_header(self.0)
    }
}

/// The report that a packet's making tells.
fn report(draft: &Draft) -> [u64; 10] {
    let fields = draft.fields();
    let token = draft.token.as_ref().map_or((0, 0), |token| (fields.token, token.bytes.len()));
    let places =
        [(fields.destination, draft.destination.bytes.len()), (fields.source, draft.source.bytes.len()), token];
    let mut words = vec![u64::from(draft.kind.version)];
    words.extend(places.iter().flat_map(|(at, length)| [*at as u64, *length as u64]));
    words.extend([draft.length(), fields.number as u64, u64::from(draft.kind.level.number())]);
    words.try_into().expect("ten words")
}

fn damaged(tally: &mut Tally, random: &mut Random) {
    for sealed in damage::sealed(random) {
        tally.compare_yielding(&ReadHeader(&sealed.packet), report(&sealed.draft));
        damage::each(&sealed.packet, |datagram| {
            tally.compare(&ReadHeader(datagram));
        });
    }
}

/// A packet with nothing wrong.
fn good(random: &mut Random, kind: Kind) -> Sealed {
    let draft = Draft::valid(random, kind, 7, 20);
    Sealed::new(random, draft)
}

fn starts(tally: &mut Tally, random: &mut Random) {
    for kind in sample::kinds() {
        let mut packet = good(random, kind).packet;
        for first in 0..=255 {
            packet[0] = first;
            for length in [1, 3, 5, 6, packet.len()] {
                tally.compare(&ReadHeader(&packet[..length]));
            }
            for bit in 0..32 {
                packet[1..5].copy_from_slice(&(kind.version ^ 1 << bit).to_be_bytes());
                tally.compare(&ReadHeader(&packet));
            }
            packet[1..5].copy_from_slice(&kind.version.to_be_bytes());
        }
    }
}

fn claims(tally: &mut Tally, random: &mut Random) {
    for _ in 0..30_000 {
        let kind = sample::kind(random);
        let (token, payload) = (random.pick(&[0, 1, 20, 63, 64, 100]), random.between(3..=30));
        let mut draft = Draft::valid(random, kind, token, payload);
        if let Some(token) = draft.token.as_mut().filter(|_| random.one_in(3)) {
            let claim = sample::claim(random, token.claimed);
            token.claim(random, claim);
        }
        if random.one_in(2) {
            let claim = sample::claim(random, draft.length());
            draft.claim_length(random, claim);
        }
        let mut datagram = Sealed::new(random, draft).packet;
        let behind = random.pick(&[0, 0, 1, 5, 30]);
        datagram.extend(random.bytes(behind));
        tally.compare(&ReadHeader(&datagram));
    }
}

fn token_fields(tally: &mut Tally, random: &mut Random) {
    for _ in 0..6_000 {
        let kind = sample::kind(random);
        let mut draft = good(random, kind).draft;
        Token::misplace(&mut draft.token, random);
        tally.compare(&ReadHeader(&Sealed::new(random, draft).packet));
    }
}

/// RFC 9000 section 12.2: where a packet ends, which its header tells, the next begins.
fn coalesced(tally: &mut Tally, random: &mut Random) {
    for _ in 0..1_500 {
        let kinds: [Kind; 4] = array::from_fn(|_| sample::kind(random));
        let packets = kinds.map(|kind| good(random, kind));
        let datagram = packets.each_ref().map(|sealed| &sealed.packet[..]).concat();
        let mut at = 0;
        for sealed in &packets {
            tally.compare_yielding(&ReadHeader(&datagram[at..]), report(&sealed.draft));
            at += sealed.packet.len();
        }
    }
}

fn fault_sets(tally: &mut Tally, random: &mut Random) {
    each_faulty(header_faults, random, |arrival, known, random| {
        tally.compare_knowing(&ReadHeader(&arrival.datagram(random)), known);
    });
}

/// Bytes that start as a packet does, so that something is read before they are refused.
fn rubbish(tally: &mut Tally, random: &mut Random) {
    for _ in 0..60_000 {
        let kind = sample::kind(random);
        let whole = good(random, kind).packet;
        let start = random.between(0..=40).min(whole.len());
        let behind = random.between(0..=60);
        tally.compare(&ReadHeader(&[&whole[..start], &random.bytes(behind)].concat()));
    }
}

fn large(tally: &mut Tally, random: &mut Random) {
    for kind in sample::kinds() {
        let packet = good(random, kind).packet;
        for size in 1_490..=1_510 {
            let behind = random.bytes(size - packet.len());
            tally.compare_knowing(&ReadHeader(&[&packet[..], &behind].concat()), u32::from(size > 1_500));
        }
    }
    for datagram in sample::huge() {
        tally.compare_knowing(&ReadHeader(datagram), 1);
    }
}
