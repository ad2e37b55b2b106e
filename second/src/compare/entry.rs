//! What is compared of an entry point.

use super::tally::Tally;
use crate::random::Random;

/// An entry point, the parts of its comparison, and the refusals that they must bring about.
pub struct Entry {
    pub name: &'static str,
    pub parts: &'static [Part],
    pub refusals: &'static [u32],
}

/// What a part tries, in words, and the calls that try it.
pub type Part = (&'static str, fn(&mut Tally, &mut Random));
