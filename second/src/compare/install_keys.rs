//! `dw_install_keys`: RFC 9001 section 5.1.

use super::call::{Call, Hex};
use super::entry::Entry;
use super::faults::{each_set, every_set, Fault};
use super::sample::{self, FLAGS, VERSIONS};
use super::tally::Tally;
use crate::effect::Effect;
use crate::library;
use crate::random::Random;
use second::keys::{self, Record, Secret, Side};
use second::level::Level;
use std::fmt::{self, Display, Formatter};

pub const ENTRY: Entry = Entry {
    name: "dw_install_keys",
    parts: &[
        ("random secrets, both levels, both versions, both sides", secrets),
        ("secrets that are one bit off", other_secrets),
        ("every level up to 1,000, and some that would be one after losing their upper bytes", levels),
        ("versions that are one bit off, and any other", versions),
        ("every set of faults", fault_sets),
    ],
    refusals: &[4, 6],
};

const ZERO_RTT: u32 = Level::ZeroRtt as u32;
const HANDSHAKE: u32 = Level::Handshake as u32;

/// Numbers whose keys aren't installed: the Initial level's, and some that name none.
const WRONG_LEVELS: [u32; 14] = [
    0,
    3,
    4,
    128,
    255,
    256,
    256 + ZERO_RTT,
    256 + HANDSHAKE,
    0x1_0000,
    0x1_0000 + ZERO_RTT,
    0x1_0000 + HANDSHAKE,
    0x8000_0000 + ZERO_RTT,
    0x8000_0000 + HANDSHAKE,
    u32::MAX,
];

#[derive(Clone)]
struct InstallKeys {
    version: u32,
    level: u32,
    server: u32,
    secret: Secret,
    /// the lent bytes before the call
    keys: Record,
}

impl Display for InstallKeys {
    fn fmt(&self, formatter: &mut Formatter) -> fmt::Result {
        let InstallKeys { version, level, server, secret, keys } = self;
        write!(formatter, "version {version:#x}, level {level:#x}, server {server:#x}, ")?;
        write!(formatter, "secret {}, lent {}", Hex(secret), Hex(keys))
    }
}

impl Call<0> for InstallKeys {
    fn ours(&self) -> Effect<0> {
        let side = if self.server == 0 { Side::Client } else { Side::Server };
        match keys::install_keys(self.version, self.level, side, &self.secret) {
            Ok(keys) => Effect::writing(Ok([]), keys.to_record().to_vec()),
            Err(refusal) => Effect::writing(Err(refusal), self.keys.to_vec()),
        }
    }

    fn theirs(&self) -> Effect<0> {
        library::install_keys(self.version, self.level, self.server, &self.secret, &self.keys)
    }
}

impl InstallKeys {
    fn new(random: &mut Random, version: u32, level: u32, server: u32) -> InstallKeys {
        let secret = random.bytes(32).try_into().expect("32 bytes");
        InstallKeys { version, level, server, secret, keys: sample::any_record(random) }
    }

    /// One that is answered, in which 0-RTT is the client's.
    fn faultless(random: &mut Random) -> InstallKeys {
        let version = sample::known_version(random);
        let flag = random.pick(&FLAGS);
        let (level, server) = random.pick(&[(ZERO_RTT, 0), (HANDSHAKE, 0), (HANDSHAKE, flag)]);
        InstallKeys::new(random, version, level, server)
    }
}

fn secrets(tally: &mut Tally, random: &mut Random) {
    for _ in 0..3_000 {
        tally.compare_knowing(&InstallKeys::faultless(random), 0);
    }
    for version in VERSIONS {
        for server in FLAGS {
            tally.compare_knowing(&InstallKeys::new(random, version, ZERO_RTT, server), 6);
        }
    }
}

/// Every bit of the secret matters.
fn other_secrets(tally: &mut Tally, random: &mut Random) {
    for _ in 0..4 {
        let mut call = InstallKeys::faultless(random);
        for bit in 0..8 * call.secret.len() {
            call.secret[bit / 8] ^= 1 << (bit % 8);
            tally.compare_knowing(&call, 0);
            call.secret[bit / 8] ^= 1 << (bit % 8);
        }
    }
}

fn levels(tally: &mut Tally, random: &mut Random) {
    for version in VERSIONS {
        for server in [0, 1, random.pick(&FLAGS)] {
            for level in (0..1_000).chain(WRONG_LEVELS) {
                let known = match level {
                    ZERO_RTT if server == 0 => 0,
                    HANDSHAKE => 0,
                    _ => 6,
                };
                tally.compare_knowing(&InstallKeys::new(random, version, level, server), known);
            }
        }
    }
}

fn versions(tally: &mut Tally, random: &mut Random) {
    for bit in 0..32 {
        let version = sample::known_version(random) ^ 1 << bit;
        for level in [0, ZERO_RTT, HANDSHAKE, 3] {
            tally.compare_knowing(&InstallKeys::new(random, version, level, 0), 4);
            tally.compare_knowing(&InstallKeys::new(random, version, level, 1), 4);
        }
    }
    for _ in 0..1_000 {
        let version = sample::unknown_version(random);
        let level = random.pick(&[ZERO_RTT, HANDSHAKE]);
        tally.compare_knowing(&InstallKeys::new(random, version, level, 0), 4);
    }
}

/// In the scope's order: 4, then 6 for the level and for a server's 0-RTT.
const FAULTS: [Fault<InstallKeys>; 3] = [
    (4, |call, random| call.version = sample::unknown_version(random)),
    (6, |call, random| call.level = random.pick(&WRONG_LEVELS)),
    (6, |call, random| (call.level, call.server) = (ZERO_RTT, random.pick(&FLAGS))),
];

fn fault_sets(tally: &mut Tally, random: &mut Random) {
    each_set(&FAULTS, every_set(FAULTS.len(), 200), random, InstallKeys::faultless, |call, known, _| {
        tally.compare_knowing(call, known);
    });
}
