//! `dw_seal` and `dw_seal_long`: RFC 9001 sections 5.3 and 5.4.

use super::call::{Call, Hex};
use super::entry::{Entry, Part};
use super::faults::{each_set, every_set, Fault};
use super::sample::{self, Bytes, Kind, VERSIONS, WRONG_LENGTHS};
use super::shorten::Gap;
use super::tally::Tally;
use crate::effect::Effect;
use crate::library::{self, SealArguments};
use crate::random::Random;
use second::integer;
use second::keys::{Keys, Record, LEVEL_AT};
use second::level::Level;
use second::numbers::smallest_length;
use second::seal::{seal, Plain};
use std::borrow::Cow;
use std::fmt::{self, Display, Formatter};

pub const SEAL: Entry = Entry { name: "dw_seal", parts: &parts::<true>(), refusals: &REFUSALS };

pub const SEAL_LONG: Entry = Entry { name: "dw_seal_long", parts: &parts::<false>(), refusals: &REFUSALS };

const REFUSALS: [u32; 9] = [1, 4, 5, 6, 7, 8, 10, 12, 14];

/// The parts of sealing with a token or without.
const fn parts<const TOKEN: bool>() -> [Part; 9] {
    [
        ("payloads of every size, and tokens where there are any", sizes::<TOKEN>),
        ("packets around 1,500 bytes", largest::<TOKEN>),
        ("the smallest payloads beside every number's length", small_payloads::<TOKEN>),
        ("outputs of no byte, one short, exact and longer", rooms::<TOKEN>),
        ("gaps and lengths", gaps::<TOKEN>),
        ("every level byte of the keys", levels::<TOKEN>),
        ("every set of faults", fault_sets::<TOKEN>),
        ("any arguments", any::<TOKEN>),
        ("slices of a million bytes and more", huge::<TOKEN>),
    ]
}

/// The levels that are sealed with a token, or those without.
const fn levels_of(token: bool) -> &'static [Level] {
    if token {
        &[Level::Initial]
    } else {
        &[Level::ZeroRtt, Level::Handshake]
    }
}

#[derive(Clone)]
struct Seal {
    keys: Record,
    gap: Gap,
    length: usize,
    destination: Bytes,
    source: Bytes,
    /// none for `dw_seal_long`, which takes none
    token: Option<Bytes>,
    payload: Bytes,
    /// the lent bytes before the call
    output: Vec<u8>,
}

impl Display for Seal {
    fn fmt(&self, formatter: &mut Formatter) -> fmt::Result {
        let [destination, source, payload] = [&self.destination, &self.source, &self.payload].map(|bytes| Hex(bytes));
        write!(formatter, "keys {}, {}, length {:#x}, ", Hex(&self.keys), self.gap, self.length)?;
        write!(formatter, "destination {destination}, source {source}, ")?;
        if let Some(token) = &self.token {
            write!(formatter, "token {}, ", Hex(token))?;
        }
        write!(formatter, "payload {payload}, lent {} bytes {}", self.output.len(), Hex(&self.output))
    }
}

impl Call<1> for Seal {
    fn ours(&self) -> Effect<1> {
        let plain = Plain {
            number: self.gap.number,
            acknowledged: self.gap.acknowledged(),
            number_length: self.length,
            destination: &self.destination,
            source: &self.source,
            token: self.token.as_deref(),
            payload: &self.payload,
        };
        let mut output = self.output.clone();
        let written = seal(&Keys::from_record(&self.keys), &plain, &mut output);
        Effect::writing(written.map(|length| [length as u64]), output)
    }

    fn theirs(&self) -> Effect<1> {
        let arguments = SealArguments {
            keys: &self.keys,
            number: self.gap.number,
            any_acknowledged: self.gap.any_acknowledged,
            acknowledged: self.gap.acknowledged,
            length: self.length,
            destination: &self.destination,
            source: &self.source,
            payload: &self.payload,
        };
        match &self.token {
            Some(token) => library::seal(&arguments, token, &self.output),
            None => library::seal_long(&arguments, &self.output),
        }
    }
}

impl Seal {
    /// A packet that can be sealed, with a payload of the size named, a token of the other size where it has any, and no
    /// room to be written in yet.
    fn valid<const TOKEN: bool>(random: &mut Random, token: usize, payload: usize) -> Seal {
        let kind = Kind { version: sample::known_version(random), level: random.pick(levels_of(TOKEN)) };
        let gap = Gap::covered(random);
        let smallest = smallest_length(gap.number, gap.acknowledged()).expect("a covered gap");
        let short_payload = 4usize.saturating_sub(payload).max(1);
        Seal {
            keys: sample::record(random, kind),
            gap,
            length: random.between(smallest.max(short_payload)..=4),
            destination: sample::id(random).into(),
            source: sample::id(random).into(),
            token: TOKEN.then(|| random.bytes(token).into()),
            payload: random.bytes(payload).into(),
            output: Vec::new(),
        }
    }

    /// One with some token and payload, and room to be written in.
    fn faultless<const TOKEN: bool>(random: &mut Random) -> Seal {
        let (token, payload) = (random.between(0..=70), random.between(4..=70));
        let mut call = Seal::valid::<TOKEN>(random, token, payload);
        call.lend_enough(random);
        call
    }

    /// The packet's bytes, by the sum of its fields (RFC 9000 sections 17.2.2 to 17.2.4); no slice may be vast.
    fn packet_length(&self) -> usize {
        let ids = 1 + self.destination.len() + 1 + self.source.len();
        let token_field = |token: &Bytes| integer::write(token.len() as u64).len() + token.len();
        let token = self.token.as_ref().map_or(0, token_field);
        1 + 4 + ids + token + 2 + self.length + self.payload.len() + 16
    }

    /// Lends so many bytes.
    fn lend(&mut self, random: &mut Random, room: usize) {
        self.output = random.bytes(room);
    }

    /// Lends what the packet needs, or a little more.
    fn lend_enough(&mut self, random: &mut Random) {
        let more = random.pick(&[0, 0, 1, 2, 15, 16, 17, 40]);
        self.lend(random, self.packet_length() + more);
    }

    /// What the sizes alone decide, for a packet that is right otherwise.
    fn known(&self) -> u32 {
        if self.packet_length() > 1_500 {
            1
        } else if self.output.len() < self.packet_length() {
            8
        } else {
            0
        }
    }
}

fn sizes<const TOKEN: bool>(tally: &mut Tally, random: &mut Random) {
    let mut compare = |random: &mut Random, token, payload| {
        let mut call = Seal::valid::<TOKEN>(random, token, payload);
        call.lend_enough(random);
        tally.compare_knowing(&call, call.known());
    };
    for payload in 0..=1_500 {
        let token = random.pick(&[0, 0, 1, 16, 70]);
        compare(random, token, payload);
    }
    let tokens = (0..=1_500).chain([16_382, 16_383, 16_384, 20_000]);
    for token in tokens.filter(|_| TOKEN) {
        let payload = random.pick(&[0, 1, 3, 4, 30]);
        compare(random, token, payload);
    }
}

/// The limit is met by shares of token and payload that vary.
fn largest<const TOKEN: bool>(tally: &mut Tally, random: &mut Random) {
    for _ in 0..1_000 {
        let token = random.between(0..=1_300);
        let mut call = Seal::valid::<TOKEN>(random, token, 4);
        let size = random.between(1_497..=1_503);
        let payload = 4 + size - call.packet_length();
        call.payload = random.bytes(payload).into();
        call.lend_enough(random);
        if random.one_in(4) {
            call.output.truncate(call.packet_length() - 1);
        }
        tally.compare_knowing(&call, call.known());
    }
}

/// Number and payload must be four bytes together.
fn small_payloads<const TOKEN: bool>(tally: &mut Tally, random: &mut Random) {
    for (length, payload) in (1..=4).flat_map(|length| (0..=5).map(move |payload| (length, payload))) {
        for _ in 0..60 {
            let mut call = Seal::valid::<TOKEN>(random, 0, 4);
            call.gap = Gap { number: 7, any_acknowledged: 1, acknowledged: random.below(7) };
            call.length = length;
            call.payload = random.bytes(payload).into();
            call.lend_enough(random);
            tally.compare_knowing(&call, if length + payload < 4 { 7 } else { 0 });
        }
    }
}

fn rooms<const TOKEN: bool>(tally: &mut Tally, random: &mut Random) {
    for _ in 0..250 {
        let (token, payload) = (random.between(0..=80), random.between(0..=80));
        let mut call = Seal::valid::<TOKEN>(random, token, payload);
        let needed = call.packet_length();
        for room in [0, 1, needed - 17, needed - 16, needed - 2, needed - 1, needed, needed + 1, needed + 16, 1_600] {
            call.lend(random, room);
            tally.compare_knowing(&call, if room < needed { 8 } else { 0 });
        }
    }
}

fn gaps<const TOKEN: bool>(tally: &mut Tally, random: &mut Random) {
    for _ in 0..12_000 {
        let mut call = Seal::valid::<TOKEN>(random, 0, 6);
        call.gap = if random.one_in(3) { Gap::any(random) } else { Gap::covered(random) };
        call.length = random.pick(&[1, 2, 3, 4]);
        call.lend_enough(random);
        tally.compare(&call);
    }
}

/// Either form seals at its own levels alone, and neither at a byte that names none. The version is judged before, and
/// a number that is out of range behind.
fn levels<const TOKEN: bool>(tally: &mut Tally, random: &mut Random) {
    for (version, level) in VERSIONS.into_iter().flat_map(|version| (0..=255).map(move |level| (version, level))) {
        let is_own = levels_of(TOKEN).iter().any(|own| own.number() == level);
        let mut call = Seal::faultless::<TOKEN>(random);
        call.keys[..LEVEL_AT].copy_from_slice(&version.to_be_bytes());
        call.keys[LEVEL_AT] = level;
        tally.compare_knowing(&call, if is_own { 0 } else { 6 });
        call.gap.put_beyond(random);
        tally.compare_knowing(&call, if is_own { 10 } else { 6 });
        call.keys[..LEVEL_AT].copy_from_slice(&sample::unknown_version(random).to_be_bytes());
        tally.compare_knowing(&call, 4);
    }
}

/// In the scope's order: 4, 6, 10, 14, 12, 5, 7, 1, 8.
const FAULTS: [Fault<Seal>; 10] = [
    (4, |call, random| call.keys[..LEVEL_AT].copy_from_slice(&sample::unknown_version(random).to_be_bytes())),
    (6, |call, random| call.keys[LEVEL_AT] = sample::level_but(random, levels_of(call.token.is_some()))),
    (10, |call, random| call.gap.put_beyond(random)),
    (14, |call, random| call.gap.put_uncovered(random)),
    (12, |call, random| call.length = random.pick(&WRONG_LENGTHS)),
    (12, |call, random| (call.gap, call.length) = Gap::with_short_length(random)),
    (5, |call, random| {
        let long = sample::long_id(random);
        match random.below(3) {
            0 => call.destination = long,
            1 => call.source = long,
            _ => (call.destination, call.source) = (long.clone(), long),
        }
    }),
    (7, |call, random| {
        call.length = call.length.clamp(1, 3);
        call.gap = Gap { number: 7, any_acknowledged: 1, acknowledged: 6 };
        let payload = random.between(0..=3 - call.length);
        call.payload = random.bytes(payload).into();
    }),
    (1, |call, random| {
        let size = random.pick(&[1_500, 1_600, 16_384, 70_000]);
        match &mut call.token {
            Some(token) if random.one_in(2) => *token = random.bytes(size).into(),
            _ => call.payload = random.bytes(size).into(),
        }
    }),
    (8, |call, random| {
        let room = random.between(0..=call.packet_length().min(1_500) - 1);
        call.lend(random, room);
    }),
];

fn fault_sets<const TOKEN: bool>(tally: &mut Tally, random: &mut Random) {
    each_set(&FAULTS, every_set(FAULTS.len(), 4), random, Seal::faultless::<TOKEN>, |call, known, _| {
        tally.compare_knowing(call, known);
    });
}

/// Arguments that are right for the most part, each with a chance to be anything.
fn any<const TOKEN: bool>(tally: &mut Tally, random: &mut Random) {
    for _ in 0..18_000 {
        let (token, payload) = (random.between(0..=100), random.between(0..=100));
        let mut call = Seal::valid::<TOKEN>(random, token, payload);
        call.lend_enough(random);
        if random.one_in(6) {
            call.gap = Gap::any(random);
        }
        if random.one_in(6) {
            call.length = random.pick(&[1, 2, 3, 4, 0, 5, usize::MAX]);
        }
        if random.one_in(6) {
            let length = random.between(0..=30);
            call.source = random.bytes(length).into();
        }
        if random.one_in(12) {
            call.keys = sample::any_record(random);
        }
        if random.one_in(6) {
            call.keys[LEVEL_AT] = random.below(4) as u8;
        }
        if random.one_in(6) {
            let room = random.between(0..=300);
            call.lend(random, room);
        }
        tally.compare(&call);
    }
}

/// A slice that no packet can hold, put into each field: an ID is judged first.
const HUGE: [Fault<(Seal, &'static [u8])>; 4] = [
    (5, |(call, slice), _| call.destination = Cow::Borrowed(slice)),
    (5, |(call, slice), _| call.source = Cow::Borrowed(slice)),
    (1, |(call, slice), _| call.payload = Cow::Borrowed(slice)),
    (1, |(call, slice), _| call.token = Some(Cow::Borrowed(slice))),
];

/// What a slice that no packet can hold brings, and what is judged before and after its ID.
fn huge<const TOKEN: bool>(tally: &mut Tally, random: &mut Random) {
    let faults = if TOKEN { &HUGE[..] } else { &HUGE[..3] };
    for slice in sample::huge() {
        let faultless = |random: &mut Random| {
            let mut call = Seal::valid::<TOKEN>(random, 3, 9);
            call.lend(random, 1_500);
            (call, slice)
        };
        each_set(faults, every_set(faults.len(), 1), random, faultless, |(call, _), known, random| {
            tally.compare_knowing(call, known);
            let mut short = Seal { payload: Cow::Borrowed(&[]), length: 3, ..call.clone() };
            short.gap = Gap { number: 0, any_acknowledged: 0, acknowledged: 0 };
            tally.compare_knowing(&short, if known == 5 { 5 } else { 7 });
            let wrong = Seal { length: random.pick(&WRONG_LENGTHS), ..call.clone() };
            tally.compare_knowing(&wrong, 12);
        });
    }
}
