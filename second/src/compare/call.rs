//! A call that both programs make, and how its bytes are printed.

use crate::effect::Effect;
use second::hex;
use std::fmt::{self, Display, Formatter};

/// A call of one entry point. Its words are the case: every argument, bytes as hex.
pub trait Call<const WORDS: usize>: Display {
    /// What the second program says of it.
    fn ours(&self) -> Effect<WORDS>;
    /// What the static library does.
    fn theirs(&self) -> Effect<WORDS>;
}

/// Bytes as a case prints them: hex, and only the start of what no datagram could hold.
pub struct Hex<'a>(pub &'a [u8]);

impl Display for Hex<'_> {
    fn fmt(&self, formatter: &mut Formatter) -> fmt::Result {
        const LONGEST: usize = 2_000;
        match self.0.len() {
            0 => write!(formatter, "(empty)"),
            length if length <= LONGEST => write!(formatter, "{}", hex::text(self.0)),
            length => write!(formatter, "{}.. ({length} bytes)", hex::text(&self.0[..32])),
        }
    }
}
