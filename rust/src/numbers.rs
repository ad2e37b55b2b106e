//! Variable-length integers, and packet numbers short and full: RFC 9000 sections 16 and 17.1, appendix A.

use crate::ffi;
use crate::refusal::Refusal;
use crate::report::count;

/// A full packet number, from 0 to 2^62 − 1.
///
/// A full number is never taken where a short one is meant:
/// ```compile_fail,E0308
/// driftwicket::recover(0, driftwicket::FullPn(7), 1);
/// ```
#[derive(Clone, Copy, Debug, PartialEq, Eq, PartialOrd, Ord, Hash)]
pub struct FullPn(pub u64);

/// The last one to four bytes of a packet number, which are what a packet carries of it.
///
/// A short number is never taken where a full one is meant:
/// ```compile_fail,E0308
/// driftwicket::shorten(driftwicket::TruncatedPn(7), None, 1);
/// ```
#[derive(Clone, Copy, Debug, PartialEq, Eq, Hash)]
pub struct TruncatedPn(pub u64);

/// An integer read from its one, two, four or eight bytes.
#[derive(Clone, Copy, Debug, PartialEq, Eq, Hash)]
pub struct Integer {
    /// Its value, below 2^62.
    pub value: u64,
    /// How many bytes it takes.
    pub taken: usize,
}

/// Reads the integer at the start of some bytes (RFC 9000 section 16). What stands behind it isn't looked at.
///
/// # Errors
/// Refuses 3.
///
/// # Example
/// ```
/// use driftwicket::{read_integer, Integer, Refusal};
///
/// // RFC 9000 appendix A.1
/// assert_eq!(read_integer(&[0x7b, 0xbd]), Ok(Integer { value: 15_293, taken: 2 }));
/// assert_eq!(read_integer(&[0x40, 0x25]), Ok(Integer { value: 37, taken: 2 }));
/// assert_eq!(read_integer(&[0x25, 0xff]), Ok(Integer { value: 37, taken: 1 }));
/// assert_eq!(read_integer(&[0x7b]), Err(Refusal::NotWhole));
/// ```
pub fn read_integer(bytes: &[u8]) -> Result<Integer, Refusal> {
    let [value, taken] = ffi::read_integer(bytes)?;
    Ok(Integer { value, taken: count(taken) })
}

/// The smallest length, in bytes, in which a number can be sent while the receiver can still recover it (RFC 9000
/// section 17.1).
///
/// # Errors
/// Refuses 10 and 14, in this order.
///
/// # Example
/// ```
/// use driftwicket::{smallest_length, FullPn, Refusal};
///
/// // RFC 9000 appendix A.2
/// assert_eq!(smallest_length(FullPn(0xac5c02), Some(FullPn(0xabe8b3))), Ok(2));
/// assert_eq!(smallest_length(FullPn(0xace8fe), Some(FullPn(0xabe8b3))), Ok(3));
///
/// assert_eq!(smallest_length(FullPn(126), None), Ok(1));
/// assert_eq!(smallest_length(FullPn(127), None), Ok(2));
/// assert_eq!(smallest_length(FullPn(1 << 31), None), Err(Refusal::Gap));
/// ```
pub fn smallest_length(number: FullPn, acknowledged: Option<FullPn>) -> Result<usize, Refusal> {
    ffi::smallest_length(number.0, acknowledged.map(|pn| pn.0)).map(count)
}

/// The last bytes of a number, in a length that covers its distance from the greatest one acknowledged (RFC 9000
/// section 17.1).
///
/// # Errors
/// Refuses 10, 14 and 12, in this order.
///
/// # Example
/// ```
/// use driftwicket::{shorten, FullPn, Refusal, TruncatedPn};
///
/// // RFC 9000 appendix A.2
/// let acknowledged = Some(FullPn(0xabe8b3));
/// assert_eq!(shorten(FullPn(0xac5c02), acknowledged, 2), Ok(TruncatedPn(0x5c02)));
/// assert_eq!(shorten(FullPn(0xac5c02), acknowledged, 1), Err(Refusal::Length));
/// ```
pub fn shorten(number: FullPn, acknowledged: Option<FullPn>, length: usize) -> Result<TruncatedPn, Refusal> {
    ffi::shorten(number.0, acknowledged.map(|pn| pn.0), length).map(TruncatedPn)
}

/// The full number that a short one of so many bytes stands for, where `expected` is one above the greatest number
/// opened, or 0 before any (RFC 9000 appendix A.3).
///
/// # Errors
/// Refuses 10 (expected), 12 and 10 (recovered), in this order.
///
/// # Example
/// ```
/// use driftwicket::{recover, FullPn, Refusal, TruncatedPn};
///
/// // RFC 9000 appendix A.3
/// assert_eq!(recover(0xa82f30eb, TruncatedPn(0x9b32), 2), Ok(FullPn(0xa82f9b32)));
///
/// assert_eq!(recover(1_000, TruncatedPn(104), 1), Ok(FullPn(1_128)));
/// assert_eq!(recover(1_000, TruncatedPn(105), 1), Ok(FullPn(873)));
/// assert_eq!(recover(1_000, TruncatedPn(256), 1), Err(Refusal::Length));
/// assert_eq!(recover(1 << 62, TruncatedPn(0), 1), Err(Refusal::Range));
/// ```
pub fn recover(expected: u64, truncated: TruncatedPn, length: usize) -> Result<FullPn, Refusal> {
    ffi::recover(expected, truncated.0, length).map(FullPn)
}
