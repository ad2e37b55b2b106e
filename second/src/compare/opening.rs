//! The call of `dw_open`, and what it reports of a good packet.

use super::call::{Call, Hex};
use super::draft::Draft;
use crate::effect::Effect;
use crate::library;
use second::keys::{Keys, Record};
use second::open::{open, Opened};
use std::fmt::{self, Display, Formatter};

pub struct Open<'a> {
    pub keys: &'a Record,
    pub expected: u64,
    pub datagram: &'a [u8],
    /// the lent bytes before the call
    pub output: &'a [u8],
}

impl Display for Open<'_> {
    fn fmt(&self, formatter: &mut Formatter) -> fmt::Result {
        let Open { keys, expected, datagram, output } = self;
        write!(formatter, "keys {}, expected {expected:#x}, datagram {}, ", Hex(&keys[..]), Hex(datagram))?;
        write!(formatter, "lent {} bytes {}", output.len(), Hex(output))
    }
}

impl Call<5> for Open<'_> {
    fn ours(&self) -> Effect<5> {
        let mut output = self.output.to_vec();
        let mut expected = self.expected;
        let opened = open(&Keys::from_record(self.keys), &mut expected, self.datagram, &mut output);
        let effect = Effect::writing(opened.map(|opened: Opened| opened.words()), output);
        Effect { expected, ..effect }
    }

    fn theirs(&self) -> Effect<5> {
        library::open(self.keys, self.expected, self.datagram, self.output)
    }
}

/// The report that a packet's making tells.
pub fn report(draft: &Draft) -> [u64; 5] {
    let header = draft.fields().number + draft.number_length;
    let lengths = [draft.number_length, header, draft.payload.len(), header + draft.payload.len() + 16];
    let [number_length, header, payload, used] = lengths.map(|length| length as u64);
    [draft.number, number_length, header, payload, used]
}
