//! `dw_initial_keys`: RFC 9001 section 5.2.

use super::call::{Call, Hex};
use super::entry::Entry;
use super::sample::{self, Bytes, FLAGS, VERSIONS};
use super::tally::Tally;
use crate::effect::Effect;
use crate::library;
use crate::random::Random;
use second::keys::{self, Record, Side};
use std::borrow::Cow;
use std::fmt::{self, Display, Formatter};

pub const ENTRY: Entry = Entry {
    name: "dw_initial_keys",
    parts: &[
        ("IDs of every length, both versions, both sides", every_length),
        ("versions that are one bit off, and any other", versions),
        ("random IDs", random_ids),
        ("IDs of a million bytes and more", huge),
    ],
    refusals: &[4, 5],
};

struct InitialKeys {
    version: u32,
    destination: Bytes,
    server: u32,
    /// the lent bytes before the call
    keys: Record,
}

impl Display for InitialKeys {
    fn fmt(&self, formatter: &mut Formatter) -> fmt::Result {
        let InitialKeys { version, destination, server, keys } = self;
        let destination = Hex(destination);
        write!(formatter, "version {version:#x}, destination {destination}, server {server:#x}, lent {}", Hex(keys))
    }
}

impl Call<0> for InitialKeys {
    fn ours(&self) -> Effect<0> {
        let side = if self.server == 0 { Side::Client } else { Side::Server };
        match keys::initial_keys(self.version, &self.destination, side) {
            Ok(keys) => Effect::writing(Ok([]), keys.to_record().to_vec()),
            Err(refusal) => Effect::writing(Err(refusal), self.keys.to_vec()),
        }
    }

    fn theirs(&self) -> Effect<0> {
        library::initial_keys(self.version, &self.destination, self.server, &self.keys)
    }
}

impl InitialKeys {
    fn new(random: &mut Random, version: u32, destination: impl Into<Bytes>, server: u32) -> InitialKeys {
        InitialKeys { version, destination: destination.into(), server, keys: sample::any_record(random) }
    }
}

fn every_length(tally: &mut Tally, random: &mut Random) {
    for length in (0..=24).chain([63, 64, 65, 255, 256, 276, 1_500, 1_501, 0x1_0008]) {
        let unknown = sample::unknown_version(random);
        for version in VERSIONS.into_iter().chain([unknown]) {
            for server in [0, 1, random.pick(&FLAGS)] {
                for _ in 0..8 {
                    let destination = random.bytes(length);
                    tally.compare(&InitialKeys::new(random, version, destination, server));
                }
            }
        }
    }
}

fn versions(tally: &mut Tally, random: &mut Random) {
    for version in VERSIONS {
        for bit in 0..32 {
            let destination = sample::id(random);
            tally.compare_knowing(&InitialKeys::new(random, version ^ 1 << bit, destination, 0), 4);
            let destination = sample::long_id(random);
            tally.compare_knowing(&InitialKeys::new(random, version ^ 1 << bit, destination, 1), 4);
        }
    }
    for _ in 0..1_000 {
        let version = sample::unknown_version(random);
        let destination = sample::id(random);
        tally.compare_knowing(&InitialKeys::new(random, version, destination, 0), 4);
        let version = sample::known_version(random);
        let destination = sample::long_id(random);
        tally.compare_knowing(&InitialKeys::new(random, version, destination, 0), 5);
    }
}

fn random_ids(tally: &mut Tally, random: &mut Random) {
    for _ in 0..6_000 {
        let version = sample::known_version(random);
        let server = random.pick(&[0, 0, 0, 1, 2, 0x100, u32::MAX]);
        let destination = sample::id(random);
        tally.compare_knowing(&InitialKeys::new(random, version, destination, server), 0);
    }
}

fn huge(tally: &mut Tally, random: &mut Random) {
    for destination in sample::huge() {
        for (version, known) in [(VERSIONS[0], 5), (VERSIONS[1], 5), (2, 4)] {
            let call = InitialKeys::new(random, version, Cow::Borrowed(destination), 0);
            tally.compare_knowing(&call, known);
        }
    }
}
