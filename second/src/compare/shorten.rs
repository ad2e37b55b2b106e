//! `dw_smallest_length` and `dw_shorten`: RFC 9000 section 17.1.

use super::call::Call;
use super::entry::Entry;
use super::faults::{each_set, every_set, Fault};
use super::sample::{self, distance, FLAGS, WRONG_LENGTHS};
use super::tally::Tally;
use crate::effect::Effect;
use crate::library;
use crate::random::Random;
use second::numbers::{self, NUMBER_LIMIT};
use std::fmt::{self, Display, Formatter};

pub const SMALLEST_LENGTH: Entry = Entry {
    name: "dw_smallest_length",
    parts: &[
        ("gaps on either side of what each length covers", |tally, random| {
            edge_gaps(random, |gap| {
                tally.compare(&SmallestLength(gap));
            })
        }),
        ("any numbers", |tally, random| {
            for _ in 0..50_000 {
                tally.compare(&SmallestLength(Gap::any(random)));
            }
        }),
        ("every set of faults", smallest_length_faults),
    ],
    refusals: &[10, 14],
};

pub const SHORTEN: Entry = Entry {
    name: "dw_shorten",
    parts: &[
        ("gaps on either side of what each length covers, in every length", shorten_edges),
        ("any numbers in any length", shorten_any),
        ("every set of faults", shorten_faults),
    ],
    refusals: &[10, 12, 14],
};

/// A number and what was acknowledged, as the C interface takes them.
#[derive(Clone, Copy)]
pub struct Gap {
    pub number: u64,
    pub any_acknowledged: u32,
    pub acknowledged: u64,
}

impl Gap {
    /// The acknowledged number counts only where any is.
    pub fn acknowledged(&self) -> Option<u64> {
        (self.any_acknowledged != 0).then_some(self.acknowledged)
    }

    /// Above nothing: what stands for the acknowledged number must not matter.
    fn above_nothing(random: &mut Random, number: u64) -> Gap {
        Gap { number, any_acknowledged: 0, acknowledged: sample::number(random) }
    }

    fn above(random: &mut Random, acknowledged: u64, number: u64) -> Gap {
        Gap { number, any_acknowledged: random.pick(&FLAGS), acknowledged }
    }

    /// Any number, often with a gap that matters.
    pub fn any(random: &mut Random) -> Gap {
        let number = sample::number(random);
        match random.below(4) {
            0 => Gap::above_nothing(random, number),
            1 => {
                let acknowledged = sample::number(random);
                Gap::above(random, acknowledged, number)
            }
            _ => {
                let acknowledged = number.wrapping_sub(distance(random));
                Gap::above(random, acknowledged, number)
            }
        }
    }

    /// One that some length covers.
    pub fn covered(random: &mut Random) -> Gap {
        let gap = 1 + (distance(random) % ((1 << 31) - 1));
        if random.one_in(4) {
            return Gap::above_nothing(random, gap - 1);
        }
        let acknowledged = sample::number(random) % (NUMBER_LIMIT - gap);
        Gap::above(random, acknowledged, acknowledged + gap)
    }

    /// One of at least 128, and a length that doesn't cover it: 12.
    pub fn with_short_length(random: &mut Random) -> (Gap, usize) {
        let length = random.between(1..=3);
        let any = random.below(1 << 24);
        let gap = (1 << (8 * length - 1)) + random.pick(&[0, 1, any]);
        let acknowledged = random.below(NUMBER_LIMIT - gap);
        (Gap::above(random, acknowledged, acknowledged + gap), length)
    }

    /// Puts the number above 2^62 − 1: 10.
    pub fn put_beyond(&mut self, random: &mut Random) {
        self.number = NUMBER_LIMIT + (random.word() >> 2 >> random.below(62));
    }

    /// Lets the acknowledged number not be below the number, or a number of 2^31 and more stand above nothing: 14.
    pub fn put_uncovered(&mut self, random: &mut Random) {
        *self = if random.one_in(3) {
            Gap::above_nothing(random, self.number | 1 << 31)
        } else {
            let not_below = self.number.saturating_add(random.below(3));
            Gap::above(random, not_below, self.number)
        };
    }
}

impl Display for Gap {
    fn fmt(&self, formatter: &mut Formatter) -> fmt::Result {
        let Gap { number, any_acknowledged, acknowledged } = self;
        write!(formatter, "number {number:#x}, any_acknowledged {any_acknowledged:#x}, acknowledged {acknowledged:#x}")
    }
}

struct SmallestLength(Gap);

impl Display for SmallestLength {
    fn fmt(&self, formatter: &mut Formatter) -> fmt::Result {
        self.0.fmt(formatter)
    }
}

impl Call<1> for SmallestLength {
    fn ours(&self) -> Effect<1> {
        let length = numbers::smallest_length(self.0.number, self.0.acknowledged());
        Effect::reporting(length.map(|length| [length as u64]))
    }

    fn theirs(&self) -> Effect<1> {
        library::smallest_length(self.0.number, self.0.any_acknowledged, self.0.acknowledged)
    }
}

struct Shorten {
    gap: Gap,
    length: usize,
}

impl Display for Shorten {
    fn fmt(&self, formatter: &mut Formatter) -> fmt::Result {
        write!(formatter, "{}, length {:#x}", self.gap, self.length)
    }
}

impl Call<1> for Shorten {
    fn ours(&self) -> Effect<1> {
        let truncated = numbers::shorten(self.gap.number, self.gap.acknowledged(), self.length);
        Effect::reporting(truncated.map(|truncated| [truncated]))
    }

    fn theirs(&self) -> Effect<1> {
        library::shorten(self.gap.number, self.gap.any_acknowledged, self.gap.acknowledged, self.length)
    }
}

/// Gaps around 0 and around each power of two, above acknowledged numbers from one end of the numbers to the other.
fn edge_gaps(random: &mut Random, mut with: impl FnMut(Gap)) {
    let powers = [0, 7, 8, 15, 16, 23, 24, 30, 31, 32, 33, 39, 40, 47, 61, 62, 63].map(|power| 1u64 << power);
    for gap in powers.into_iter().flat_map(|power| power.saturating_sub(3)..=power + 3) {
        with(Gap::above_nothing(random, gap.wrapping_sub(1)));
        let middle = sample::number(random);
        let starts = [0, 1, 1_000, 1 << 31, 1 << 61, NUMBER_LIMIT - 1, NUMBER_LIMIT, u64::MAX, middle];
        for start in starts {
            with(Gap::above(random, start, start.wrapping_add(gap)));
            with(Gap::above(random, start, start.wrapping_sub(gap)));
            let number = NUMBER_LIMIT - 1 - start % 7;
            with(Gap::above(random, number.wrapping_sub(gap), number));
        }
    }
}

fn shorten_edges(tally: &mut Tally, random: &mut Random) {
    edge_gaps(random, |gap| {
        for length in (1..=4).chain(WRONG_LENGTHS) {
            tally.compare(&Shorten { gap, length });
        }
    });
}

fn shorten_any(tally: &mut Tally, random: &mut Random) {
    for _ in 0..60_000 {
        let gap = if random.one_in(3) { Gap::any(random) } else { Gap::covered(random) };
        let length = random.pick(&[1, 2, 3, 4, 4, 5, 0, usize::MAX]);
        tally.compare(&Shorten { gap, length });
    }
}

/// In the scope's order: 10, 14.
const SMALLEST_LENGTH_FAULTS: [Fault<SmallestLength>; 2] =
    [(10, |call, random| call.0.put_beyond(random)), (14, |call, random| call.0.put_uncovered(random))];

fn smallest_length_faults(tally: &mut Tally, random: &mut Random) {
    let sets = every_set(SMALLEST_LENGTH_FAULTS.len(), 2_000);
    let faultless = |random: &mut Random| SmallestLength(Gap::covered(random));
    each_set(&SMALLEST_LENGTH_FAULTS, sets, random, faultless, |call, known, _| {
        tally.compare_knowing(call, known);
    });
}

/// In the scope's order: 10, 14, 12.
const SHORTEN_FAULTS: [Fault<Shorten>; 4] = [
    (10, |call, random| call.gap.put_beyond(random)),
    (14, |call, random| call.gap.put_uncovered(random)),
    (12, |call, random| call.length = random.pick(&WRONG_LENGTHS)),
    (12, |call, random| (call.gap, call.length) = Gap::with_short_length(random)),
];

fn shorten_faults(tally: &mut Tally, random: &mut Random) {
    let sets = every_set(SHORTEN_FAULTS.len(), 1_000);
    let faultless = |random: &mut Random| Shorten { gap: Gap::covered(random), length: 4 };
    each_set(&SHORTEN_FAULTS, sets, random, faultless, |call, known, _| {
        tally.compare_knowing(call, known);
    });
}
