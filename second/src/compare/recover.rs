//! `dw_recover`: RFC 9000 appendix A.3.

use super::call::Call;
use super::entry::Entry;
use super::faults::{each_set, every_set, Fault};
use super::sample::{self, near, WRONG_LENGTHS};
use super::tally::Tally;
use crate::effect::Effect;
use crate::library;
use crate::random::Random;
use second::numbers::{self, NUMBER_LIMIT};
use std::fmt::{self, Display, Formatter};

pub const ENTRY: Entry = Entry {
    name: "dw_recover",
    parts: &[
        ("every byte, around 0, around 2^62 and around any number", every_byte),
        ("the edges of each window and half window, in each length", window_edges),
        ("any numbers in any length", any),
        ("every set of faults", fault_sets),
    ],
    refusals: &[10, 12],
};

struct Recover {
    expected: u64,
    truncated: u64,
    length: usize,
}

impl Display for Recover {
    fn fmt(&self, formatter: &mut Formatter) -> fmt::Result {
        let Recover { expected, truncated, length } = self;
        write!(formatter, "expected {expected:#x}, truncated {truncated:#x}, length {length:#x}")
    }
}

impl Call<1> for Recover {
    fn ours(&self) -> Effect<1> {
        let number = numbers::recover(self.expected, self.truncated, self.length);
        Effect::reporting(number.map(|number| [number]))
    }

    fn theirs(&self) -> Effect<1> {
        library::recover(self.expected, self.truncated, self.length)
    }
}

fn every_byte(tally: &mut Tally, random: &mut Random) {
    let anywhere = random.below(NUMBER_LIMIT - 300);
    for start in [0, NUMBER_LIMIT - 299, anywhere] {
        for expected in start..start + 301 {
            for truncated in 0..=256 {
                tally.compare(&Recover { expected, truncated, length: 1 });
            }
        }
    }
}

/// Expected numbers near 0, 2^62 and multiples of the window and its half; truncated numbers near 0, the half and the
/// whole window, and near those of numbers half a window and a window off.
fn window_edges(tally: &mut Tally, random: &mut Random) {
    for length in 1..=4 {
        let window = 1u64 << (8 * length);
        let somewhere = random.below(NUMBER_LIMIT) & !(window - 1);
        for centre in [3, window / 2, window, 2 * window, somewhere, NUMBER_LIMIT - window, NUMBER_LIMIT] {
            for expected in centre - 3..=centre + 3 {
                for step in [0, window / 2, window] {
                    for close in 0..9 {
                        let close = close + step;
                        let around = expected.wrapping_add(close).wrapping_sub(4) % window;
                        let below = expected.wrapping_sub(close).wrapping_add(4) % window;
                        for truncated in [close.saturating_sub(4), around, below] {
                            tally.compare(&Recover { expected, truncated, length });
                        }
                    }
                }
            }
        }
    }
}

fn any(tally: &mut Tally, random: &mut Random) {
    for _ in 0..80_000 {
        let length = random.between(1..=4);
        let window = 1u64 << (8 * length);
        let expected = sample::number(random);
        let truncated = match random.below(4) {
            0 => near(random, window),
            1 => sample::number(random),
            _ => random.below(window),
        };
        let length = if random.one_in(16) { random.pick(&WRONG_LENGTHS) } else { length };
        tally.compare(&Recover { expected, truncated, length });
    }
}

/// In the scope's order: 10 for what is expected, 12, and 10 for what is recovered.
const FAULTS: [Fault<Recover>; 4] = [
    (10, |call, random| call.expected = NUMBER_LIMIT + 1 + (random.word() >> 2 >> random.below(62))),
    (12, |call, random| call.length = random.pick(&WRONG_LENGTHS)),
    (12, |call, random| call.truncated = (1 << (8 * call.length)) + (sample::number(random) >> 1)),
    (10, |call, random| call.truncated = random.below(129)),
];

/// Faultless is the greatest number of all, where 2^62 is expected.
fn fault_sets(tally: &mut Tally, random: &mut Random) {
    let faultless = |random: &mut Random| {
        let length = random.between(1..=4);
        Recover { expected: NUMBER_LIMIT, truncated: (1 << (8 * length)) - 1, length }
    };
    each_set(&FAULTS, every_set(FAULTS.len(), 500), random, faultless, |call, known, _| {
        tally.compare_knowing(call, known);
    });
}
