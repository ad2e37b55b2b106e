//! A packet on its way to `dw_open` or `dw_read_header`, and every fault that it can have, in the order in which the
//! scope judges them.

use super::draft::{expected_for, Draft, Fields, Id};
use super::faults::{each_set, small_sets, Fault};
use super::sample::{self, Kind, VERSIONS};
use crate::random::Random;
use second::header::{FIXED_BIT, FORM_BIT, TYPE_BITS};
use second::keys::{Keys, Record, LEVEL_AT};
use second::level::{Level, LEVELS};
use second::numbers::NUMBER_LIMIT;

/// How many bytes are left of a packet with such fields.
type Cut = fn(&Fields) -> usize;

/// An arrival with everything that decides about its opening.
pub struct Arrival {
    pub record: Record,
    pub expected: u64,
    pub draft: Draft,
    /// how many bytes the output lacks
    short_of_room: usize,
    /// where the datagram ends too early
    cut: Option<Cut>,
    /// a size that the datagram is brought to
    resized: Option<usize>,
    /// a bit of the tag that is turned over
    tag_damage: Option<usize>,
}

impl Arrival {
    /// A good packet of a level, in which no part is empty and the sample doesn't reach into the tag.
    pub fn valid(random: &mut Random, level: Level) -> Arrival {
        let kind = Kind { version: sample::known_version(random), level };
        let (token, payload) = (random.between(1..=70), random.between(20..=70));
        let mut draft = Draft::valid(random, kind, token, payload);
        let (destination, source) = (random.between(1..=20), random.between(1..=20));
        draft.destination = Id::new(random.bytes(destination));
        draft.source = Id::new(random.bytes(source));
        Arrival {
            record: sample::record(random, kind),
            expected: expected_for(random, draft.number, draft.number_length),
            draft,
            short_of_room: 0,
            cut: None,
            resized: None,
            tag_damage: None,
        }
    }

    pub fn datagram(&self, random: &mut Random) -> Vec<u8> {
        let mut datagram = self.draft.packet(&Keys::from_record(&self.record));
        if let Some(bit) = self.tag_damage {
            let tag = datagram.len() - 16;
            datagram[tag + bit / 8] ^= 1 << (bit % 8);
        }
        if let Some(cut) = self.cut {
            datagram.truncate(cut(&self.draft.fields()));
        }
        if let Some(size) = self.resized {
            let more = size.saturating_sub(datagram.len());
            datagram.extend(random.bytes(more));
            datagram.truncate(size);
        }
        datagram
    }

    /// The output that is lent: as large as the answer, or too small.
    pub fn output(&self, random: &mut Random) -> Vec<u8> {
        let plain = self.draft.fields().number + self.draft.number_length + self.draft.payload.len();
        let more = if self.short_of_room == 0 { random.pick(&[0, 0, 1, 16, 20]) } else { 0 };
        random.bytes((plain + more).saturating_sub(self.short_of_room))
    }
}

/// What the caller may have wrong: 10 (expected), then 4 (the keys' version).
const CALLER_FAULTS: [Fault<Arrival>; 2] = [
    (10, |arrival, random| arrival.expected = NUMBER_LIMIT + 1 + (random.word() >> 2 >> random.below(62))),
    (4, |arrival, random| {
        let version = sample::unknown_version(random);
        arrival.record[..LEVEL_AT].copy_from_slice(&version.to_be_bytes());
    }),
];

/// The datagram's size, then the form and the fixed bit, and then a version that isn't whole.
const START_FAULTS: [Fault<Arrival>; 5] = [
    (1, |arrival, _| arrival.resized = Some(0)),
    (1, |arrival, random| arrival.resized = Some(random.between(1_501..=1_520))),
    (2, |arrival, _| arrival.draft.first &= !FORM_BIT),
    (2, |arrival, _| arrival.draft.first &= !FIXED_BIT),
    (3, |arrival, random| arrival.cut = Some(random.pick::<Cut>(&[|_| 1, |_| 2, |_| 3, |_| 4]))),
];

/// A version that is known and not the keys', which is refused where an unknown one is.
const VERSION_OF_OTHERS: Fault<Arrival> = (4, |arrival, _| arrival.draft.kind.version ^= VERSIONS[0] ^ VERSIONS[1]);

const UNKNOWN_VERSION: Fault<Arrival> =
    (4, |arrival, random| arrival.draft.kind.version = sample::unknown_version(random));

/// Keys of another level than the packet shows, or of none.
const LEVEL_OF_OTHERS: Fault<Arrival> = (6, |arrival, random| {
    let shown = (arrival.draft.first & TYPE_BITS) >> 4;
    let level = arrival.draft.kind.known_version().level(shown).ok();
    arrival.record[LEVEL_AT] = sample::level_but(random, level.as_slice());
});

/// A type that is another level's, or a Retry's. The tag is right for it.
const OTHER_TYPE: Fault<Arrival> = (6, |arrival, random| arrival.draft.first ^= random.pick(&[0x10, 0x20, 0x30]));

/// The one type that header reading refuses.
const RETRY_TYPE: Fault<Arrival> = (6, |arrival, _| {
    let retry = arrival.draft.kind.known_version().retry_type;
    arrival.draft.show_type(retry);
});

/// Each length is missing before it is wrong, and of an ID's bytes none stand there, or all but one.
const ID_FAULTS: [Fault<Arrival>; 7] = [
    (3, |arrival, _| arrival.cut = Some(|fields| fields.destination_length)),
    (5, |arrival, random| arrival.draft.destination = long_id(random)),
    (3, |arrival, _| arrival.cut = Some(|fields| fields.destination)),
    (3, |arrival, _| arrival.cut = Some(|fields| fields.source_length - 1)),
    (3, |arrival, _| arrival.cut = Some(|fields| fields.source_length)),
    (5, |arrival, random| arrival.draft.source = long_id(random)),
    (3, |arrival, _| arrival.cut = Some(|fields| fields.token_length - 1)),
];

/// The token's length without its last byte, a token that cannot be there, and one without its last byte.
const TOKEN_FAULTS: [Fault<Arrival>; 3] = [
    (3, |arrival, _| arrival.cut = Some(|fields| fields.token - 1)),
    (3, |arrival, random| {
        let token = arrival.draft.token.as_mut().expect("a level with a token");
        let claim = random.pick(&[1_500, 16_384, 1 << 31, (1 << 32) + token.claimed, (1 << 62) - 1]);
        token.claim(random, claim);
    }),
    (3, |arrival, _| arrival.cut = Some(|fields| fields.length - 1)),
];

/// Length without its last byte, too small, and past the datagram's end.
const LENGTH_FAULTS: [Fault<Arrival>; 4] = [
    (3, |arrival, _| arrival.cut = Some(|fields| fields.number - 1)),
    (7, |arrival, random| {
        let claim = random.below(20);
        arrival.draft.claim_length(random, claim);
    }),
    (3, |arrival, random| {
        let length = arrival.draft.length();
        let claim = random.pick(&[length + 1, length + 1, 1_500, 16_384, (1 << 32) + length, (1 << 62) - 1]);
        arrival.draft.claim_length(random, claim);
    }),
    (3, |arrival, _| arrival.cut = Some(|fields| fields.number + 20)),
];

/// What only keys can tell: 8, 9, 10 (recovered), 11.
const PROTECTION_FAULTS: [Fault<Arrival>; 4] = [
    (8, |arrival, random| arrival.short_of_room = random.pick(&[1, 1, 2, 16, 1_000])),
    (9, |arrival, random| arrival.draft.first |= random.pick(&[0x04, 0x08, 0x0c])),
    (10, |arrival, random| {
        arrival.expected = NUMBER_LIMIT;
        arrival.draft.number = NUMBER_LIMIT + random.pick(&[0, 1, 64, 127, 128]);
    }),
    (11, |arrival, random| arrival.tag_damage = Some(random.between(0..=127))),
];

/// A connection ID that claims more than 20 bytes, which stand there or only in part.
fn long_id(random: &mut Random) -> Id {
    let claimed = random.pick(&[21, 22, 64, 128, 255]);
    let length = random.pick(&[1, 2, 20, usize::from(claimed)]);
    Id { claimed, bytes: random.bytes(length) }
}

/// The faults behind the type, in a packet of a level.
fn field_faults(level: Level) -> Vec<Fault<Arrival>> {
    let token_faults = if level.has_token() { &TOKEN_FAULTS[..] } else { &[] };
    [&ID_FAULTS[..], token_faults, &LENGTH_FAULTS].concat()
}

/// Every fault of header reading in a packet of a level, in its order.
pub fn header_faults(level: Level) -> Vec<Fault<Arrival>> {
    [&START_FAULTS[..], &[UNKNOWN_VERSION, RETRY_TYPE], &field_faults(level)].concat()
}

/// Every fault of opening a packet of a level, in its order.
pub fn opening_faults(level: Level) -> Vec<Fault<Arrival>> {
    let judged_by_keys = [VERSION_OF_OTHERS, UNKNOWN_VERSION, LEVEL_OF_OTHERS, OTHER_TYPE];
    [&CALLER_FAULTS[..], &START_FAULTS, &judged_by_keys, &field_faults(level), &PROTECTION_FAULTS].concat()
}

/// Puts every small set of an operation's faults, and larger ones, into arrivals of every level, and hands each on with
/// the answer that this must bring.
pub fn each_faulty(
    faults_of: fn(Level) -> Vec<Fault<Arrival>>,
    random: &mut Random,
    mut with: impl FnMut(&Arrival, u32, &mut Random),
) {
    for level in LEVELS {
        let faults = faults_of(level);
        let sets = small_sets(faults.len(), 12, random);
        each_set(&faults, sets, random, |random| Arrival::valid(random, level), &mut with);
    }
}
