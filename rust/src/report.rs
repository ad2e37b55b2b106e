//! What the words of a report mean.

use crate::level::Level;
use crate::version::Version;

/// A place or a length. None is above 1,500.
pub fn count(word: u64) -> usize {
    usize::try_from(word).expect("places and lengths are at most 1,500")
}

/// A version.
pub fn version(word: u64) -> Version {
    Version(u32::try_from(word).expect("a version has 32 bits"))
}

/// A level.
pub fn level(word: u64) -> Level {
    Level::named(word).expect("a level of this crate's version")
}

/// Destination, source and token, by their places and lengths.
pub fn parts(datagram: &[u8], words: [u64; 6]) -> [&[u8]; 3] {
    let [destination, destination_len, source, source_len, token, token_len] = words.map(count);
    [(destination, destination_len), (source, source_len), (token, token_len)].map(|(at, len)| &datagram[at..at + len])
}
