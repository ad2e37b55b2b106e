//! The static library: its C interface, and a safe function over each entry point that tells the call's whole effect.
//!
//! What is lent stands between sentinels, and the report starts out as sentinels too. So an effect also tells what a
//! call touched that it must leave: its inputs, the words and bytes beside what was lent, and on a refusal the report
//! and the output.

use crate::effect::Effect;
use second::keys::{Record, Secret};
use second::retry::Plain;

#[link(name = "driftwicket", kind = "static")]
extern "C" {
    fn dw_read_integer(bytes: *const u8, len: usize, report: *mut u64) -> u32;
    fn dw_smallest_length(number: u64, any_acknowledged: u32, acknowledged: u64, report: *mut u64) -> u32;
    fn dw_shorten(number: u64, any_acknowledged: u32, acknowledged: u64, length: usize, report: *mut u64) -> u32;
    fn dw_recover(expected: u64, truncated: u64, length: usize, report: *mut u64) -> u32;
    fn dw_initial_keys(version: u32, destination: *const u8, destination_len: usize, server: u32, keys: *mut u8)
        -> u32;
    fn dw_install_keys(version: u32, level: u32, server: u32, secret: *const u8, keys: *mut u8) -> u32;
    fn dw_seal(
        keys: *const u8,
        number: u64,
        any_acknowledged: u32,
        acknowledged: u64,
        length: usize,
        destination: *const u8,
        destination_len: usize,
        source: *const u8,
        source_len: usize,
        token: *const u8,
        token_len: usize,
        payload: *const u8,
        payload_len: usize,
        out: *mut u8,
        out_len: usize,
        report: *mut u64,
    ) -> u32;
    fn dw_seal_long(
        keys: *const u8,
        number: u64,
        any_acknowledged: u32,
        acknowledged: u64,
        length: usize,
        destination: *const u8,
        destination_len: usize,
        source: *const u8,
        source_len: usize,
        payload: *const u8,
        payload_len: usize,
        out: *mut u8,
        out_len: usize,
        report: *mut u64,
    ) -> u32;
    fn dw_open(
        keys: *const u8,
        expected: *mut u64,
        datagram: *const u8,
        datagram_len: usize,
        out: *mut u8,
        out_len: usize,
        report: *mut u64,
    ) -> u32;
    fn dw_read_header(datagram: *const u8, datagram_len: usize, report: *mut u64) -> u32;
    fn dw_write_retry(
        version: u32,
        original: *const u8,
        original_len: usize,
        destination: *const u8,
        destination_len: usize,
        source: *const u8,
        source_len: usize,
        token: *const u8,
        token_len: usize,
        low_bits: u64,
        out: *mut u8,
        out_len: usize,
        report: *mut u64,
    ) -> u32;
    fn dw_check_retry(
        original: *const u8,
        original_len: usize,
        datagram: *const u8,
        datagram_len: usize,
        report: *mut u64,
    ) -> u32;
}

/// No answer has such a word in it.
const SENTINEL_WORD: u64 = 0xd1f7_3c4e_b5a6_9788;
const SENTINEL_BYTE: u8 = 0xb7;

/// How many sentinels stand on each side of what is lent.
const BESIDE: usize = 16;

/// Words or bytes lent to a call, between sentinels.
struct Lent<T> {
    cells: Vec<T>,
    sentinel: T,
}

impl<T: Copy + PartialEq> Lent<T> {
    fn new(content: &[T], sentinel: T) -> Lent<T> {
        let beside = [sentinel; BESIDE];
        Lent { cells: [&beside, content, &beside].concat(), sentinel }
    }

    fn pointer(&mut self) -> *mut T {
        self.cells[BESIDE..].as_mut_ptr()
    }

    fn content(&self) -> &[T] {
        &self.cells[BESIDE..self.cells.len() - BESIDE]
    }

    fn is_spilled(&self) -> bool {
        let (before, rest) = self.cells.split_at(BESIDE);
        let behind = &rest[rest.len() - BESIDE..];
        before.iter().chain(behind).any(|cell| *cell != self.sentinel)
    }
}

/// The longest input that is copied.
const LONGEST_COPY: usize = 100_000;

/// Bytes that a call may only read: a copy, so that a change shows. What is too long to copy is passed as it stands.
struct Input<'a> {
    bytes: &'a [u8],
    copy: Option<Lent<u8>>,
}

impl<'a> Input<'a> {
    fn new(bytes: &'a [u8]) -> Input<'a> {
        let copy = (bytes.len() <= LONGEST_COPY).then(|| Lent::new(bytes, SENTINEL_BYTE));
        Input { bytes, copy }
    }

    fn pointer(&mut self) -> *const u8 {
        self.copy.as_mut().map_or(self.bytes.as_ptr(), |copy| copy.pointer().cast_const())
    }

    fn is_changed(&self) -> bool {
        self.copy.as_ref().is_some_and(|copy| copy.is_spilled() || copy.content() != self.bytes)
    }
}

/// Everything lent to one call.
struct Loan<'a, const WORDS: usize> {
    inputs: Vec<Input<'a>>,
    report: Lent<u64>,
    output: Lent<u8>,
    output_before: &'a [u8],
    expected: Lent<u64>,
    expected_before: u64,
}

impl<'a, const WORDS: usize> Loan<'a, WORDS> {
    /// An output and an expected number, which not every call takes.
    fn new(output: &'a [u8], expected: u64) -> Loan<'a, WORDS> {
        Loan {
            inputs: Vec::new(),
            report: Lent::new(&[SENTINEL_WORD; WORDS], SENTINEL_WORD),
            output: Lent::new(output, SENTINEL_BYTE),
            output_before: output,
            expected: Lent::new(&[expected], SENTINEL_WORD),
            expected_before: expected,
        }
    }

    /// Lends some bytes to be read; their lengths are the slices' own.
    fn read<const N: usize>(&mut self, inputs: [&'a [u8]; N]) -> [*const u8; N] {
        inputs.map(|bytes| {
            let mut input = Input::new(bytes);
            let pointer = input.pointer();
            self.inputs.push(input);
            pointer
        })
    }

    fn effect(self, number: u32) -> Effect<WORDS> {
        let report: [u64; WORDS] = self.report.content().try_into().expect("as many words as were lent");
        Effect {
            answer: if number == 0 { Ok(report) } else { Err(number) },
            output: self.output.content().to_vec(),
            expected: self.expected.content()[0],
            strays: self.strays(number != 0),
        }
    }

    /// What was touched that isn't the call's to touch.
    fn strays(&self, refused: bool) -> Vec<&'static str> {
        let report_touched = self.report.content().iter().any(|word| *word != SENTINEL_WORD);
        let tests = [
            (self.inputs.iter().any(Input::is_changed), "an input was changed"),
            (self.report.is_spilled(), "words beside the report were touched"),
            (self.output.is_spilled(), "bytes beside the output were touched"),
            (self.expected.is_spilled(), "words beside the expected number were touched"),
            (refused && report_touched, "a refusal touched the report"),
            (refused && self.output.content() != self.output_before, "a refusal touched the output"),
            (refused && self.expected.content() != [self.expected_before], "a refusal moved the expected number"),
        ];
        tests.into_iter().filter(|(stray, _)| *stray).map(|(_, words)| words).collect()
    }
}

// SAFETY, for every call below: each pointer comes from a loan, which outlives the call, and stands at as many bytes or
// words as the call is told; keys are 49 bytes and a secret is 32; a loan's report has the words that the C interface
// names. An empty slice's pointer is not null.

pub fn read_integer(bytes: &[u8]) -> Effect<2> {
    let mut loan = Loan::new(&[], 0);
    let [at] = loan.read([bytes]);
    let number = unsafe { dw_read_integer(at, bytes.len(), loan.report.pointer()) };
    loan.effect(number)
}

pub fn smallest_length(number: u64, any_acknowledged: u32, acknowledged: u64) -> Effect<1> {
    let mut loan = Loan::new(&[], 0);
    let number = unsafe { dw_smallest_length(number, any_acknowledged, acknowledged, loan.report.pointer()) };
    loan.effect(number)
}

pub fn shorten(number: u64, any_acknowledged: u32, acknowledged: u64, length: usize) -> Effect<1> {
    let mut loan = Loan::new(&[], 0);
    let number = unsafe { dw_shorten(number, any_acknowledged, acknowledged, length, loan.report.pointer()) };
    loan.effect(number)
}

pub fn recover(expected: u64, truncated: u64, length: usize) -> Effect<1> {
    let mut loan = Loan::new(&[], 0);
    let number = unsafe { dw_recover(expected, truncated, length, loan.report.pointer()) };
    loan.effect(number)
}

/// The keys are the output; there is no report.
pub fn initial_keys(version: u32, destination: &[u8], server: u32, keys: &Record) -> Effect<0> {
    let mut loan = Loan::new(keys, 0);
    let [at] = loan.read([destination]);
    let number = unsafe { dw_initial_keys(version, at, destination.len(), server, loan.output.pointer()) };
    loan.effect(number)
}

/// The keys are the output; there is no report.
pub fn install_keys(version: u32, level: u32, server: u32, secret: &Secret, keys: &Record) -> Effect<0> {
    let mut loan = Loan::new(keys, 0);
    let [secret_at] = loan.read([secret]);
    let number = unsafe { dw_install_keys(version, level, server, secret_at, loan.output.pointer()) };
    loan.effect(number)
}

/// The arguments of sealing, as the C interface takes them; the token aside, which one of its two forms takes.
pub struct SealArguments<'a> {
    pub keys: &'a Record,
    pub number: u64,
    pub any_acknowledged: u32,
    pub acknowledged: u64,
    pub length: usize,
    pub destination: &'a [u8],
    pub source: &'a [u8],
    pub payload: &'a [u8],
}

pub fn seal(arguments: &SealArguments, token: &[u8], output: &[u8]) -> Effect<1> {
    let SealArguments { keys, number, any_acknowledged, acknowledged, length, destination, source, payload } =
        *arguments;
    let mut loan = Loan::new(output, 0);
    let [keys_at, destination_at, source_at, token_at, payload_at] =
        loan.read([keys, destination, source, token, payload]);
    let number = unsafe {
        dw_seal(
            keys_at,
            number,
            any_acknowledged,
            acknowledged,
            length,
            destination_at,
            destination.len(),
            source_at,
            source.len(),
            token_at,
            token.len(),
            payload_at,
            payload.len(),
            loan.output.pointer(),
            output.len(),
            loan.report.pointer(),
        )
    };
    loan.effect(number)
}

pub fn seal_long(arguments: &SealArguments, output: &[u8]) -> Effect<1> {
    let SealArguments { keys, number, any_acknowledged, acknowledged, length, destination, source, payload } =
        *arguments;
    let mut loan = Loan::new(output, 0);
    let [keys_at, destination_at, source_at, payload_at] = loan.read([keys, destination, source, payload]);
    let number = unsafe {
        dw_seal_long(
            keys_at,
            number,
            any_acknowledged,
            acknowledged,
            length,
            destination_at,
            destination.len(),
            source_at,
            source.len(),
            payload_at,
            payload.len(),
            loan.output.pointer(),
            output.len(),
            loan.report.pointer(),
        )
    };
    loan.effect(number)
}

pub fn open(keys: &Record, expected: u64, datagram: &[u8], output: &[u8]) -> Effect<5> {
    let mut loan = Loan::new(output, expected);
    let [keys_at, datagram_at] = loan.read([keys, datagram]);
    let number = unsafe {
        dw_open(
            keys_at,
            loan.expected.pointer(),
            datagram_at,
            datagram.len(),
            loan.output.pointer(),
            output.len(),
            loan.report.pointer(),
        )
    };
    loan.effect(number)
}

pub fn read_header(datagram: &[u8]) -> Effect<10> {
    let mut loan = Loan::new(&[], 0);
    let [at] = loan.read([datagram]);
    let number = unsafe { dw_read_header(at, datagram.len(), loan.report.pointer()) };
    loan.effect(number)
}

pub fn write_retry(plain: &Plain, output: &[u8]) -> Effect<1> {
    let Plain { version, original, destination, source, token, low_bits } = *plain;
    let mut loan = Loan::new(output, 0);
    let [original_at, destination_at, source_at, token_at] = loan.read([original, destination, source, token]);
    let number = unsafe {
        dw_write_retry(
            version,
            original_at,
            original.len(),
            destination_at,
            destination.len(),
            source_at,
            source.len(),
            token_at,
            token.len(),
            low_bits,
            loan.output.pointer(),
            output.len(),
            loan.report.pointer(),
        )
    };
    loan.effect(number)
}

pub fn check_retry(original: &[u8], datagram: &[u8]) -> Effect<7> {
    let mut loan = Loan::new(&[], 0);
    let [original_at, datagram_at] = loan.read([original, datagram]);
    let number =
        unsafe { dw_check_retry(original_at, original.len(), datagram_at, datagram.len(), loan.report.pointer()) };
    loan.effect(number)
}
