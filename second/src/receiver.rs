//! A model of a receiver at one level: what a list of arrivals must yield, whatever is lost, repeated, late or rubbish.

use crate::keys::Keys;
use crate::numbers::NUMBER_LIMIT;
use crate::open::{open, Opened};
use crate::refusal::Refusal;

/// A receiver that remembers every number it has opened, and makes of them what it expects.
pub struct Receiver {
    keys: Keys,
    start: u64,
    opened: Vec<u64>,
}

impl Receiver {
    /// A receiver that expects a number from the start; a fresh one expects 0.
    pub fn new(keys: Keys, start: u64) -> Receiver {
        Receiver { keys, start, opened: Vec::new() }
    }

    /// The scope: one above the greatest number opened, and never below where it started.
    pub fn expected(&self) -> u64 {
        self.opened.iter().map(|number| number + 1).fold(self.start, u64::max)
    }

    /// Whether a number in so many bytes stands within the window in which appendix A.3 of RFC 9000 recovers it:
    /// half a window below what is expected, exclusive, to half a window above it, inclusive.
    pub fn recovers(&self, number: u64, number_length: usize) -> bool {
        let in_range = number < NUMBER_LIMIT && self.expected() <= NUMBER_LIMIT;
        let (number, expected) = (i128::from(number), i128::from(self.expected()));
        let half_window = 1 << (8 * number_length - 1);
        in_range && (expected - half_window + 1..=expected + half_window).contains(&number)
    }

    /// One arrival.
    pub fn receive(&mut self, datagram: &[u8], output: &mut [u8]) -> Result<Opened, Refusal> {
        let opened = open(&self.keys, &mut self.expected(), datagram, output)?;
        self.opened.push(opened.number);
        Ok(opened)
    }
}
