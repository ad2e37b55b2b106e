//! Packet numbers, short and full (RFC 9000 section 17.1 and appendix A).

use crate::refusal::{ensure, Refusal};

/// Full numbers run from 0 to one below this.
pub const NUMBER_LIMIT: u64 = 1 << 62;

/// How many numbers a truncated number of so many bytes tells apart.
fn window(length: usize) -> u64 {
    1 << (8 * length)
}

/// docs/SCOPE.md, "Packet numbers": how far a number stands above what was acknowledged. Refused where no length
/// covers it: so many numbers may be in flight that four bytes cannot tell them apart.
fn gap(number: u64, acknowledged: Option<u64>) -> Result<u64, Refusal> {
    ensure(number < NUMBER_LIMIT, Refusal::NumberRange)?;
    let gap = match acknowledged {
        None => number + 1,
        Some(acknowledged) => {
            ensure(acknowledged < number, Refusal::Acknowledged)?;
            number - acknowledged
        }
    };
    ensure(covers(4, gap), Refusal::Acknowledged)?;
    Ok(gap)
}

/// RFC 9000 section 17.1: a length covers a gap when it can hold more than twice the gap.
fn covers(length: usize, gap: u64) -> bool {
    gap < window(length) / 2
}

/// The smallest length, from 1 to 4 bytes, that covers the gap.
pub fn smallest_length(number: u64, acknowledged: Option<u64>) -> Result<usize, Refusal> {
    let gap = gap(number, acknowledged)?;
    let length = (1..=4).find(|length| covers(*length, gap));
    Ok(length.expect("four bytes cover every gap that is answered"))
}

/// The number as it stands in a packet, in a length that the caller names.
pub fn shorten(number: u64, acknowledged: Option<u64>, length: usize) -> Result<u64, Refusal> {
    let smallest = smallest_length(number, acknowledged)?;
    ensure((1..=4).contains(&length) && smallest <= length, Refusal::NumberLength)?;
    Ok(number % window(length))
}

/// RFC 9000 appendix A.3, line by line and over whole numbers, so that no difference wraps.
pub fn recover(expected: u64, truncated: u64, length: usize) -> Result<u64, Refusal> {
    ensure(expected <= NUMBER_LIMIT, Refusal::NumberRange)?;
    ensure((1..=4).contains(&length) && truncated < window(length), Refusal::NumberLength)?;
    let (expected, truncated) = (i128::from(expected), i128::from(truncated));
    let window = i128::from(window(length));
    let half_window = window / 2;
    let mask = window - 1;
    let candidate = (expected & !mask) | truncated;
    let number = if candidate <= expected - half_window && candidate < (1 << 62) - window {
        candidate + window
    } else if candidate > expected + half_window && candidate >= window {
        candidate - window
    } else {
        candidate
    };
    let number = u64::try_from(number).expect("appendix A.3 never answers below 0");
    ensure(number < NUMBER_LIMIT, Refusal::NumberRange)?;
    Ok(number)
}

#[cfg(test)]
mod tests {
    use super::*;
    use Refusal::{Acknowledged, NumberLength, NumberRange};

    /// RFC 9000 appendix A.2, and docs/SCOPE.md, "Boundaries".
    #[test]
    fn lengths() {
        assert_eq!(smallest_length(0xac5c02, Some(0xabe8b3)), Ok(2));
        assert_eq!(smallest_length(0xace8fe, Some(0xabe8b3)), Ok(3));
        let lines = [
            (1, Ok(1)),
            (127, Ok(1)),
            (128, Ok(2)),
            (32_767, Ok(2)),
            (32_768, Ok(3)),
            ((1 << 23) - 1, Ok(3)),
            (1 << 23, Ok(4)),
            ((1 << 31) - 1, Ok(4)),
            (1 << 31, Err(Acknowledged)),
        ];
        for (gap, length) in lines {
            assert_eq!(smallest_length(1000 + gap, Some(1000)), length, "gap {gap}");
            assert_eq!(smallest_length(gap - 1, None), length, "gap {gap} above nothing");
        }
    }

    #[test]
    fn shortening() {
        assert_eq!(shorten(0xac5c02, Some(0xabe8b3), 2), Ok(0x5c02));
        assert_eq!(shorten(0xac5c02, Some(0xabe8b3), 4), Ok(0xac5c02));
        assert_eq!(shorten(0xac5c02, Some(0xabe8b3), 1), Err(NumberLength));
        for length in [0, 5, 256, 257, usize::MAX] {
            assert_eq!(shorten(0, None, length), Err(NumberLength));
        }
        // 10 stands before 14, and 14 before 12
        assert_eq!(shorten(1 << 62, Some(u64::MAX), 0), Err(NumberRange));
        assert_eq!(shorten(7, Some(7), 0), Err(Acknowledged));
        assert_eq!(shorten((1 << 62) - 1, None, 0), Err(Acknowledged));
        assert_eq!(shorten((1 << 62) - 1, Some((1 << 62) - 2), 1), Ok(255));
    }

    /// RFC 9000 appendix A.3, and docs/SCOPE.md, "Boundaries".
    #[test]
    fn recovering() {
        let top = 1 << 62;
        let lines = [
            (0xa82f30eb, 0x9b32, 2, Ok(0xa82f9b32)),
            (1_000, 104, 1, Ok(1_128)),
            (1_000, 105, 1, Ok(873)),
            (0, 255, 1, Ok(255)),
            (0, 0, 1, Ok(0)),
            (top, 0, 1, Err(NumberRange)),
            (top, 128, 1, Err(NumberRange)),
            (top, 129, 1, Ok(top - 127)),
            (top, 255, 1, Ok(top - 1)),
            (top - 1, 0, 1, Ok(top - 256)),
            (top - 1, 255, 1, Ok(top - 1)),
        ];
        for (expected, truncated, length, number) in lines {
            assert_eq!(recover(expected, truncated, length), number, "{expected} {truncated}");
        }
    }

    #[test]
    fn recovering_refused() {
        assert_eq!(recover((1 << 62) + 1, 256, 1), Err(NumberRange));
        for length in [0, 5, 257, usize::MAX] {
            assert_eq!(recover(1 << 62, 0, length), Err(NumberLength));
        }
        for length in 1..=4 {
            assert_eq!(recover(0, window(length), length), Err(NumberLength));
            assert!(recover(0, window(length) - 1, length).is_ok());
        }
    }

    /// Whatever stands within half a window of what is expected comes back from its shortening.
    #[test]
    fn recovery_undoes_shortening() {
        for expected in (0..600).chain(NUMBER_LIMIT - 600..=NUMBER_LIMIT) {
            let numbers = (expected + 1).saturating_sub(128)..=(expected + 128).min(NUMBER_LIMIT - 1);
            for number in numbers {
                assert_eq!(recover(expected, number % 256, 1), Ok(number));
            }
        }
    }
}
