//! Variable-length integers (RFC 9000 section 16).

use crate::refusal::{ensure, Refusal};

/// The four forms: how many bytes each takes. The top two bits of the first byte are the form's place in this list.
pub const FORMS: [usize; 4] = [1, 2, 4, 8];

/// The first value that a form of so many bytes cannot hold.
pub fn limit(form: usize) -> u64 {
    1 << (8 * form - 2)
}

/// Reads the integer at the start: its value and the bytes it took. What stands behind isn't looked at.
pub fn read(bytes: &[u8]) -> Result<(u64, usize), Refusal> {
    let first = bytes.first().ok_or(Refusal::NotWhole)?;
    let form = FORMS[usize::from(first >> 6)];
    ensure(bytes.len() >= form, Refusal::NotWhole)?;
    let value = bytes[..form].iter().fold(0, |value, byte| value << 8 | u64::from(*byte));
    Ok((value % limit(form), form))
}

/// Writes a value in the form named.
pub fn write_in(form: usize, value: u64) -> Vec<u8> {
    assert!(value < limit(form), "{value} does not fit {form} bytes");
    let top_bits = FORMS.iter().position(|f| *f == form).expect("one of the four forms") as u64;
    let number = top_bits << (8 * form - 2) | value;
    number.to_be_bytes()[8 - form..].to_vec()
}

/// Writes a value in its smallest form.
pub fn write(value: u64) -> Vec<u8> {
    let form = FORMS.into_iter().find(|form| value < limit(*form)).expect("a value below 2^62");
    write_in(form, value)
}

#[cfg(test)]
mod tests {
    use super::*;
    use crate::hex;

    /// RFC 9000 appendix A.1.
    #[test]
    fn examples() {
        let lines = [
            ("c2197c5eff14e88c", 151_288_809_941_952_652, 8),
            ("9d7f3e7d", 494_878_333, 4),
            ("7bbd", 15_293, 2),
            ("25", 37, 1),
            ("4025", 37, 2),
        ];
        for (text, value, taken) in lines {
            let bytes = hex::bytes(text);
            assert_eq!(read(&bytes), Ok((value, taken)));
            assert_eq!(write_in(taken, value), bytes);
            // bytes behind aren't looked at, and a truncated integer isn't whole
            assert_eq!(read(&[&bytes[..], &[0xff; 9]].concat()), Ok((value, taken)));
            for length in 0..taken {
                assert_eq!(read(&bytes[..length]), Err(Refusal::NotWhole));
            }
        }
    }

    #[test]
    fn smallest_forms() {
        let lines = [
            (63, "3f"),
            (64, "4040"),
            (16_383, "7fff"),
            (16_384, "80004000"),
            ((1 << 30) - 1, "bfffffff"),
            (1 << 30, "c000000040000000"),
            ((1 << 62) - 1, "ffffffffffffffff"),
        ];
        for (value, text) in lines {
            assert_eq!(hex::text(&write(value)), text);
        }
    }
}
