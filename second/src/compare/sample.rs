//! What inputs are drawn from: numbers, versions, levels, connection IDs and keys, with a leaning towards the edges.

use crate::random::Random;
use second::keys::{Record, LEVEL_AT};
use second::level::{Level, LEVELS};
use second::numbers::NUMBER_LIMIT;
use second::version::{version, Version, VERSION_1, VERSION_2_DRAFT};
use std::alloc::{alloc_zeroed, Layout};
use std::borrow::Cow;
use std::iter;
use std::slice;
use std::sync::OnceLock;

/// Bytes of a case: its own, or a stretch too long to copy.
pub type Bytes = Cow<'static, [u8]>;

pub const VERSIONS: [u32; 2] = [VERSION_1.number, VERSION_2_DRAFT.number];

/// A packet's version and level. The version may be an unknown one.
#[derive(Clone, Copy)]
pub struct Kind {
    pub version: u32,
    pub level: Level,
}

impl Kind {
    /// The version, of a kind with a known one.
    pub fn known_version(self) -> &'static Version {
        version(self.version).expect("a known version")
    }
}

/// Every level in both versions.
pub fn kinds() -> impl Iterator<Item = Kind> {
    VERSIONS.into_iter().flat_map(|version| LEVELS.map(|level| Kind { version, level }))
}

pub fn kind(random: &mut Random) -> Kind {
    Kind { version: known_version(random), level: random.pick(&LEVELS) }
}

/// What C callers may pass for "yes".
pub const FLAGS: [u32; 5] = [1, 2, 0x100, 0x8000_0000, u32::MAX];

/// Lengths that no packet number has; some would be one after losing their upper bytes.
pub const WRONG_LENGTHS: [usize; 12] =
    [0, 5, 6, 8, 255, 256, 257, 0x1_0001, 0x1_0000_0002, 0x8000_0000_0000_0003, usize::MAX - 1, usize::MAX];

/// A million bytes.
pub static MILLION: [u8; 1_000_000] = [0x5a; 1_000_000];

/// Over four thousand million bytes, so that a length kept in 32 bits would come out as five. Nothing reads them, so no
/// memory is spent; where the machine gives none out like that, there is nothing to try.
fn vast() -> Option<&'static [u8]> {
    static VAST: OnceLock<Option<&'static [u8]>> = OnceLock::new();
    *VAST.get_or_init(|| {
        let length = usize::try_from((1u64 << 32) + 5).ok()?;
        let layout = Layout::from_size_align(length, 1).ok()?;
        // SAFETY: the layout isn't empty; the bytes are zeroed, live as long as the program and are never written
        unsafe {
            let pointer = alloc_zeroed(layout);
            (!pointer.is_null()).then(|| slice::from_raw_parts(pointer, length))
        }
    })
}

/// Slices that no packet can hold.
pub fn huge() -> impl Iterator<Item = &'static [u8]> {
    iter::once(&MILLION[..]).chain(vast())
}

/// A number close to another, on either side of it.
pub fn near(random: &mut Random, centre: u64) -> u64 {
    centre.wrapping_add(random.below(7)).wrapping_sub(3)
}

/// Any number, and often one that stands near an edge.
pub fn number(random: &mut Random) -> u64 {
    match random.below(7) {
        0 => random.below(600),
        1 | 2 => {
            let centre = 1 << random.below(64);
            near(random, centre)
        }
        3 => near(random, NUMBER_LIMIT),
        4 => u64::MAX - random.below(4),
        5 => random.word() >> random.below(64),
        _ => random.below(NUMBER_LIMIT),
    }
}

/// A distance that some length just covers, or just doesn't, below 2^40.
pub fn distance(random: &mut Random) -> u64 {
    let centre = random.pick(&[0, 1 << 7, 1 << 8, 1 << 15, 1 << 16, 1 << 23, 1 << 24, 1 << 31, 1 << 32]);
    match random.below(3) {
        0 => random.below(1 << 40) >> random.below(40),
        _ => near(random, centre.max(3)),
    }
}

pub fn known_version(random: &mut Random) -> u32 {
    random.pick(&VERSIONS)
}

/// A version that is neither of the two: another paper's, a known one with one bit or byte order wrong, or any.
pub fn unknown_version(random: &mut Random) -> u32 {
    let known = known_version(random);
    let version = match random.below(4) {
        0 => random.pick(&[0, 2, 0x6b33_43cf, 0xff00_001b, 0xff00_0010, 0x0a0a_0a0a]),
        1 => known ^ 1 << random.below(32),
        2 => known.swap_bytes(),
        _ => random.word() as u32,
    };
    if VERSIONS.contains(&version) {
        0
    } else {
        version
    }
}

/// A key record of a version and a level. Any bytes are a key.
pub fn record(random: &mut Random, kind: Kind) -> Record {
    let mut record = any_record(random);
    record[..LEVEL_AT].copy_from_slice(&kind.version.to_be_bytes());
    record[LEVEL_AT] = kind.level.number();
    record
}

/// A key record of any bytes, as a forger might hand it over.
pub fn any_record(random: &mut Random) -> Record {
    random.bytes(49).try_into().expect("49 bytes")
}

/// A level byte that is none of some levels': another level's, or one that names none.
pub fn level_but(random: &mut Random, levels: &[Level]) -> u8 {
    let any = random.word() as u8;
    let level = random.pick(&[0, 1, 2, 3, 4, 0x80, 0x81, 0x82, 0xff, any]);
    let taken = levels.iter().any(|other| other.number() == level);
    if taken {
        3
    } else {
        level
    }
}

/// A connection ID of a length that is allowed.
pub fn id(random: &mut Random) -> Vec<u8> {
    let any = random.between(0..=20);
    let length = random.pick(&[0, 1, 8, 19, 20, any, any]);
    random.bytes(length)
}

/// A connection ID that is too long; some lengths would be allowed after losing their upper bytes.
pub fn long_id(random: &mut Random) -> Bytes {
    let length = random.pick(&[21, 22, 63, 64, 255, 256, 264, 276, 0x1_0008]);
    match random.below(40) {
        0 => Cow::Borrowed(&MILLION),
        _ => Cow::Owned(random.bytes(length)),
    }
}

/// A length claimed in a packet: the right one, one a little off or off by what a narrower word would lose, or any.
pub fn claim(random: &mut Random, right: u64) -> u64 {
    let claim = match random.below(5) {
        0 => near(random, right.max(3)),
        1 => random.below(26),
        2 => right + random.pick(&[1 << 6, 1 << 8, 1 << 14, 1 << 16, 1 << 30, 1 << 31, 1 << 32, 1 << 61]),
        3 => random.pick(&[(1 << 14) - 1, (1 << 30) - 1, (1 << 31) - 1, (1 << 32) - 1, (1 << 62) - 1]),
        _ => random.below(1 << 62) >> random.below(62),
    };
    claim % (1 << 62)
}
