//! The C interface of `libdriftwicket.a` (include/driftwicket.h), with a safe function over each entry point, and the
//! wiping of a key record: the only unsafe code of this crate.
//!
//! Every function there answers 0 or a refusal's number, takes each slice as a pointer and a length, and trusts its
//! caller in nothing but that these hold.

use crate::refusal::Refusal;
use core::ptr;
use core::sync::atomic::{compiler_fence, Ordering};

/// A key record's bytes.
pub type Record = [u8; 49];

/// A secret's bytes.
pub type Secret = [u8; 32];

extern "C" {
    fn dw_read_integer(bytes: *const u8, len: usize, report: &mut [u64; 2]) -> u32;
    fn dw_smallest_length(number: u64, any_acknowledged: u32, acknowledged: u64, report: &mut [u64; 1]) -> u32;
    fn dw_shorten(number: u64, any_acknowledged: u32, acknowledged: u64, length: usize, report: &mut [u64; 1]) -> u32;
    fn dw_recover(expected: u64, truncated: u64, length: usize, report: &mut [u64; 1]) -> u32;
    fn dw_initial_keys(
        version: u32,
        destination: *const u8,
        destination_len: usize,
        server: u32,
        keys: &mut Record,
    ) -> u32;
    fn dw_install_keys(version: u32, level: u32, server: u32, secret: &Secret, keys: &mut Record) -> u32;
    fn dw_seal(
        keys: &Record,
        number: u64,
        any_acknowledged: u32,
        acknowledged: u64,
        length: usize,
        destination: *const u8,
        destination_len: usize,
        source: *const u8,
        source_len: usize,
        token: *const u8,
        token_len: usize,
        payload: *const u8,
        payload_len: usize,
        out: *mut u8,
        out_len: usize,
        report: &mut [u64; 1],
    ) -> u32;
    fn dw_seal_long(
        keys: &Record,
        number: u64,
        any_acknowledged: u32,
        acknowledged: u64,
        length: usize,
        destination: *const u8,
        destination_len: usize,
        source: *const u8,
        source_len: usize,
        payload: *const u8,
        payload_len: usize,
        out: *mut u8,
        out_len: usize,
        report: &mut [u64; 1],
    ) -> u32;
    fn dw_open(
        keys: &Record,
        expected: &mut u64,
        datagram: *const u8,
        datagram_len: usize,
        out: *mut u8,
        out_len: usize,
        report: &mut [u64; 5],
    ) -> u32;
    fn dw_read_header(datagram: *const u8, datagram_len: usize, report: &mut [u64; 10]) -> u32;
    fn dw_write_retry(
        version: u32,
        original: *const u8,
        original_len: usize,
        destination: *const u8,
        destination_len: usize,
        source: *const u8,
        source_len: usize,
        token: *const u8,
        token_len: usize,
        low_bits: u64,
        out: *mut u8,
        out_len: usize,
        report: &mut [u64; 1],
    ) -> u32;
    fn dw_check_retry(
        original: *const u8,
        original_len: usize,
        datagram: *const u8,
        datagram_len: usize,
        report: &mut [u64; 7],
    ) -> u32;
}

/// The report, which was written where the answer is 0, or the refusal.
fn answer<T>(number: u32, report: T) -> Result<T, Refusal> {
    match number {
        0 => Ok(report),
        _ => Err(Refusal::try_from(number).expect("libdriftwicket.a is of this crate's version")),
    }
}

/// The acknowledged number as the C interface takes it: whether there is any, and which.
fn flagged(acknowledged: Option<u64>) -> (u32, u64) {
    (u32::from(acknowledged.is_some()), acknowledged.unwrap_or(0))
}

pub fn read_integer(bytes: &[u8]) -> Result<[u64; 2], Refusal> {
    let mut report = [0; 2];
    // SAFETY: `bytes` is a slice, given with its own length; the report has the two words that are written.
    let number = unsafe { dw_read_integer(bytes.as_ptr(), bytes.len(), &mut report) };
    answer(number, report)
}

pub fn smallest_length(number: u64, acknowledged: Option<u64>) -> Result<u64, Refusal> {
    let (any_acknowledged, acknowledged) = flagged(acknowledged);
    let mut report = [0; 1];
    // SAFETY: numbers alone go in; the report has the one word that is written.
    let number = unsafe { dw_smallest_length(number, any_acknowledged, acknowledged, &mut report) };
    answer(number, report[0])
}

pub fn shorten(number: u64, acknowledged: Option<u64>, length: usize) -> Result<u64, Refusal> {
    let (any_acknowledged, acknowledged) = flagged(acknowledged);
    let mut report = [0; 1];
    // SAFETY: numbers alone go in; the report has the one word that is written.
    let number = unsafe { dw_shorten(number, any_acknowledged, acknowledged, length, &mut report) };
    answer(number, report[0])
}

pub fn recover(expected: u64, truncated: u64, length: usize) -> Result<u64, Refusal> {
    let mut report = [0; 1];
    // SAFETY: numbers alone go in; the report has the one word that is written.
    let number = unsafe { dw_recover(expected, truncated, length, &mut report) };
    answer(number, report[0])
}

pub fn initial_keys(version: u32, destination: &[u8], server: bool, keys: &mut Record) -> Result<(), Refusal> {
    // SAFETY: `destination` is a slice, given with its own length; the record has the 49 bytes that are written.
    let number = unsafe { dw_initial_keys(version, destination.as_ptr(), destination.len(), u32::from(server), keys) };
    answer(number, ())
}

pub fn install_keys(version: u32, level: u8, server: bool, secret: &Secret, keys: &mut Record) -> Result<(), Refusal> {
    // SAFETY: the secret has the 32 bytes that are read, and the record the 49 that are written.
    let number = unsafe { dw_install_keys(version, u32::from(level), u32::from(server), secret, keys) };
    answer(number, ())
}

/// Destination, source, token and payload are the packet's parts.
pub fn seal(
    keys: &Record,
    number: u64,
    acknowledged: Option<u64>,
    length: usize,
    parts: [&[u8]; 4],
    out: &mut [u8],
) -> Result<u64, Refusal> {
    let (any_acknowledged, acknowledged) = flagged(acknowledged);
    let [destination, source, token, payload] = parts;
    let mut report = [0; 1];
    // SAFETY: every pointer is a slice's, given with that slice's own length, and nothing but `out` and the report's one
    // word is written; both are borrowed for writing here alone.
    let number = unsafe {
        dw_seal(
            keys,
            number,
            any_acknowledged,
            acknowledged,
            length,
            destination.as_ptr(),
            destination.len(),
            source.as_ptr(),
            source.len(),
            token.as_ptr(),
            token.len(),
            payload.as_ptr(),
            payload.len(),
            out.as_mut_ptr(),
            out.len(),
            &mut report,
        )
    };
    answer(number, report[0])
}

/// Destination, source and payload are the packet's parts.
pub fn seal_long(
    keys: &Record,
    number: u64,
    acknowledged: Option<u64>,
    length: usize,
    parts: [&[u8]; 3],
    out: &mut [u8],
) -> Result<u64, Refusal> {
    let (any_acknowledged, acknowledged) = flagged(acknowledged);
    let [destination, source, payload] = parts;
    let mut report = [0; 1];
    // SAFETY: every pointer is a slice's, given with that slice's own length, and nothing but `out` and the report's one
    // word is written; both are borrowed for writing here alone.
    let number = unsafe {
        dw_seal_long(
            keys,
            number,
            any_acknowledged,
            acknowledged,
            length,
            destination.as_ptr(),
            destination.len(),
            source.as_ptr(),
            source.len(),
            payload.as_ptr(),
            payload.len(),
            out.as_mut_ptr(),
            out.len(),
            &mut report,
        )
    };
    answer(number, report[0])
}

pub fn open(keys: &Record, expected: &mut u64, datagram: &[u8], out: &mut [u8]) -> Result<[u64; 5], Refusal> {
    let mut report = [0; 5];
    // SAFETY: every pointer is a slice's, given with that slice's own length, and nothing but `expected`, `out` and the
    // report's five words is written; all three are borrowed for writing here alone.
    let number =
        unsafe { dw_open(keys, expected, datagram.as_ptr(), datagram.len(), out.as_mut_ptr(), out.len(), &mut report) };
    answer(number, report)
}

pub fn read_header(datagram: &[u8]) -> Result<[u64; 10], Refusal> {
    let mut report = [0; 10];
    // SAFETY: `datagram` is a slice, given with its own length; the report has the ten words that are written.
    let number = unsafe { dw_read_header(datagram.as_ptr(), datagram.len(), &mut report) };
    answer(number, report)
}

/// The ID of the Initial that is answered, destination, source and token are the packet's parts.
pub fn write_retry(version: u32, parts: [&[u8]; 4], low_bits: u64, out: &mut [u8]) -> Result<u64, Refusal> {
    let [original, destination, source, token] = parts;
    let mut report = [0; 1];
    // SAFETY: every pointer is a slice's, given with that slice's own length, and nothing but `out` and the report's one
    // word is written; both are borrowed for writing here alone.
    let number = unsafe {
        dw_write_retry(
            version,
            original.as_ptr(),
            original.len(),
            destination.as_ptr(),
            destination.len(),
            source.as_ptr(),
            source.len(),
            token.as_ptr(),
            token.len(),
            low_bits,
            out.as_mut_ptr(),
            out.len(),
            &mut report,
        )
    };
    answer(number, report[0])
}

pub fn check_retry(original: &[u8], datagram: &[u8]) -> Result<[u64; 7], Refusal> {
    let mut report = [0; 7];
    // SAFETY: both pointers are slices', given with their own lengths; the report has the seven words that are written.
    let number =
        unsafe { dw_check_retry(original.as_ptr(), original.len(), datagram.as_ptr(), datagram.len(), &mut report) };
    answer(number, report)
}

/// Overwrites a record with zeros, which the compiler may not leave out.
pub fn wipe(record: &mut Record) {
    for byte in record {
        // SAFETY: the pointer is a byte's own, borrowed for writing here alone.
        unsafe { ptr::write_volatile(byte, 0) };
    }
    compiler_fence(Ordering::SeqCst);
}
