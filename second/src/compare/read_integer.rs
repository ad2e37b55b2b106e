//! `dw_read_integer`: RFC 9000 section 16.

use super::call::{Call, Hex};
use super::entry::Entry;
use super::sample::{self, near};
use super::tally::Tally;
use crate::effect::Effect;
use crate::library;
use crate::random::Random;
use second::integer::{self, FORMS};
use std::fmt::{self, Display, Formatter};

pub const ENTRY: Entry = Entry {
    name: "dw_read_integer",
    parts: &[
        ("every input of one and of two bytes", all_short),
        ("values at the edges in every form, cut short, whole and with bytes behind", edges),
        ("random bytes", random_bytes),
        ("slices of a million bytes and more", huge),
    ],
    refusals: &[3],
};

struct ReadInteger<'a>(&'a [u8]);

impl Display for ReadInteger<'_> {
    fn fmt(&self, formatter: &mut Formatter) -> fmt::Result {
        write!(formatter, "bytes {}", Hex(self.0))
    }
}

impl Call<2> for ReadInteger<'_> {
    fn ours(&self) -> Effect<2> {
        let answer = integer::read(self.0);
        Effect::reporting(answer.map(|(value, taken)| [value, taken as u64]))
    }

    fn theirs(&self) -> Effect<2> {
        library::read_integer(self.0)
    }
}

fn all_short(tally: &mut Tally, _: &mut Random) {
    for first in 0..=255 {
        tally.compare(&ReadInteger(&[first]));
        for second in 0..=255 {
            tally.compare(&ReadInteger(&[first, second]));
        }
    }
}

/// Every truncation of an integer is 3, and what stands behind it changes nothing.
fn edges(tally: &mut Tally, random: &mut Random) {
    for form in FORMS {
        let edges = FORMS.map(integer::limit);
        for _ in 0..300 {
            let edge = random.pick(&edges);
            let choices = [near(random, edge), sample::number(random), 0, integer::limit(form) - 1];
            let value = random.pick(&choices) % integer::limit(form);
            let whole = integer::write_in(form, value);
            for length in 0..form {
                tally.compare_knowing(&ReadInteger(&whole[..length]), 3);
            }
            for behind in [0, 1, 2, 7, 8, 9, random.between(0..=100)] {
                let bytes = [whole.clone(), random.bytes(behind)].concat();
                tally.compare_yielding(&ReadInteger(&bytes), [value, form as u64]);
            }
        }
    }
}

fn random_bytes(tally: &mut Tally, random: &mut Random) {
    for _ in 0..60_000 {
        let length = random.between(0..=12);
        tally.compare(&ReadInteger(&random.bytes(length)));
    }
}

fn huge(tally: &mut Tally, _: &mut Random) {
    for bytes in sample::huge() {
        tally.compare(&ReadInteger(bytes));
    }
}
