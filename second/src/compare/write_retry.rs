//! `dw_write_retry`: RFC 9000 section 17.2.5, RFC 9001 section 5.8.

use super::call::{Call, Hex};
use super::entry::Entry;
use super::faults::{each_set, every_set, Fault};
use super::sample::{self, Bytes};
use super::tally::Tally;
use crate::effect::Effect;
use crate::library;
use crate::random::Random;
use second::retry::{write_retry, Plain};
use std::borrow::Cow;
use std::fmt::{self, Display, Formatter};

pub const ENTRY: Entry = Entry {
    name: "dw_write_retry",
    parts: &[
        ("tokens of every size", token_sizes),
        ("outputs of no byte, one short, exact and longer", rooms),
        ("every set of faults", fault_sets),
        ("any arguments", any),
        ("slices of a million bytes and more", huge),
    ],
    refusals: &[1, 4, 5, 8, 13],
};

#[derive(Clone)]
pub struct WriteRetry {
    pub version: u32,
    pub original: Bytes,
    pub destination: Bytes,
    pub source: Bytes,
    pub token: Bytes,
    pub low_bits: u64,
    /// the lent bytes before the call
    pub output: Vec<u8>,
}

impl Display for WriteRetry {
    fn fmt(&self, formatter: &mut Formatter) -> fmt::Result {
        let [original, destination, source, token] =
            [&self.original, &self.destination, &self.source, &self.token].map(|bytes| Hex(bytes));
        write!(formatter, "version {:#x}, original {original}, ", self.version)?;
        write!(formatter, "destination {destination}, source {source}, token {token}, ")?;
        write!(formatter, "low_bits {:#x}, lent {} bytes {}", self.low_bits, self.output.len(), Hex(&self.output))
    }
}

impl Call<1> for WriteRetry {
    fn ours(&self) -> Effect<1> {
        let mut output = self.output.clone();
        let written = write_retry(&self.plain(), &mut output);
        Effect::writing(written.map(|length| [length as u64]), output)
    }

    fn theirs(&self) -> Effect<1> {
        library::write_retry(&self.plain(), &self.output)
    }
}

impl WriteRetry {
    /// A Retry that can be written, with a token of the size named and enough room.
    pub fn valid(random: &mut Random, token: usize) -> WriteRetry {
        let mut call = WriteRetry {
            version: sample::known_version(random),
            original: sample::id(random).into(),
            destination: sample::id(random).into(),
            source: sample::id(random).into(),
            token: random.bytes(token).into(),
            low_bits: sample::number(random),
            output: Vec::new(),
        };
        let more = random.pick(&[0, 0, 1, 16, 40]);
        call.lend(random, call.packet_length() + more);
        call
    }

    fn plain(&self) -> Plain<'_> {
        Plain {
            version: self.version,
            original: &self.original,
            destination: &self.destination,
            source: &self.source,
            token: &self.token,
            low_bits: self.low_bits,
        }
    }

    /// The packet's bytes, by the sum of its fields; no slice may be vast.
    fn packet_length(&self) -> usize {
        1 + 4 + 1 + self.destination.len() + 1 + self.source.len() + self.token.len() + 16
    }

    fn lend(&mut self, random: &mut Random, room: usize) {
        self.output = random.bytes(room);
    }

    /// The packet that the second program writes.
    pub fn packet(&self) -> Vec<u8> {
        let effect = self.ours();
        let [length] = effect.answer.expect("a Retry that can be written");
        effect.output[..length as usize].to_vec()
    }
}

fn token_sizes(tally: &mut Tally, random: &mut Random) {
    for token in (0..=1_502).chain([16_384, 65_536 + 5]) {
        for _ in 0..2 {
            let call = WriteRetry::valid(random, token);
            let known = match token {
                0 => 13,
                _ if call.packet_length() > 1_500 => 1,
                _ => 0,
            };
            tally.compare_knowing(&call, known);
        }
    }
}

fn rooms(tally: &mut Tally, random: &mut Random) {
    for _ in 0..600 {
        let token = random.between(1..=80);
        let mut call = WriteRetry::valid(random, token);
        let needed = call.packet_length();
        for room in [0, 1, needed - 17, needed - 16, needed - 2, needed - 1, needed, needed + 1, needed + 16, 1_600] {
            call.lend(random, room);
            tally.compare_knowing(&call, if room < needed { 8 } else { 0 });
        }
    }
}

/// In the scope's order: 4, 5 (original, destination, source), 13, 1, 8.
const FAULTS: [Fault<WriteRetry>; 7] = [
    (4, |call, random| call.version = sample::unknown_version(random)),
    (5, |call, random| call.original = sample::long_id(random)),
    (5, |call, random| call.destination = sample::long_id(random)),
    (5, |call, random| call.source = sample::long_id(random)),
    (13, |call, _| call.token = Cow::Borrowed(&[])),
    (1, |call, random| {
        let size = random.pick(&[1_478, 1_500, 1_501, 65_536 + 5]);
        call.token = random.bytes(size).into();
    }),
    (8, |call, random| {
        let room = random.between(0..=call.packet_length() - 1);
        call.lend(random, room);
    }),
];

fn fault_sets(tally: &mut Tally, random: &mut Random) {
    let faultless = |random: &mut Random| {
        let token = random.between(1..=70);
        WriteRetry::valid(random, token)
    };
    each_set(&FAULTS, every_set(FAULTS.len(), 40), random, faultless, |call, known, _| {
        tally.compare_knowing(call, known);
    });
}

/// Arguments that are right for the most part, each with a chance to be anything.
fn any(tally: &mut Tally, random: &mut Random) {
    for _ in 0..24_000 {
        let token = random.between(0..=200);
        let mut call = WriteRetry::valid(random, token);
        for place in 0..3 {
            if random.one_in(12) {
                let length = random.between(0..=30);
                let id = random.bytes(length).into();
                *[&mut call.original, &mut call.destination, &mut call.source][place] = id;
            }
        }
        if random.one_in(12) {
            call.version = random.word() as u32;
        }
        if random.one_in(6) {
            let room = random.between(0..=300);
            call.lend(random, room);
        }
        tally.compare(&call);
    }
}

/// A slice that no packet can hold, put into each field: an ID is judged first.
const HUGE: [Fault<(WriteRetry, &'static [u8])>; 4] = [
    (5, |(call, slice), _| call.original = Cow::Borrowed(slice)),
    (5, |(call, slice), _| call.destination = Cow::Borrowed(slice)),
    (5, |(call, slice), _| call.source = Cow::Borrowed(slice)),
    (1, |(call, slice), _| call.token = Cow::Borrowed(slice)),
];

/// What a slice that no packet can hold brings, and that the version is judged before it.
fn huge(tally: &mut Tally, random: &mut Random) {
    for slice in sample::huge() {
        let faultless = |random: &mut Random| (WriteRetry::valid(random, 3), slice);
        each_set(&HUGE, every_set(HUGE.len(), 1), random, faultless, |(call, _), known, random| {
            tally.compare_knowing(call, known);
            let unknown = WriteRetry { version: sample::unknown_version(random), ..call.clone() };
            tally.compare_knowing(&unknown, 4);
        });
    }
}
