//! The library through this crate: the papers' packets, every level, every refusal, what stays untouched, and a receiver's
//! list; and that the repository's other texts show the same examples and words.

mod buffers;
mod levels;
mod papers;
mod readme;
mod receiver;
mod refusals;
mod words;

use driftwicket::{seal, FullPn, Initial, Keys, Level, Long, Side, Version, LIMIT};

/// The Destination Connection ID of the papers' examples.
const ID: [u8; 8] = [0x83, 0x94, 0xc8, 0xf0, 0x3e, 0x51, 0x57, 0x08];

/// What stands in a buffer before a call.
const SENTINEL: u8 = 0xb7;

/// The bytes of hexadecimal text, over any number of lines.
fn hex(text: &str) -> Vec<u8> {
    let digits: Vec<u8> = text.chars().filter_map(|c| c.to_digit(16)).map(|digit| digit as u8).collect();
    digits.chunks_exact(2).map(|pair| pair[0] << 4 | pair[1]).collect()
}

/// The client's keys of version 1.
fn client_keys() -> Keys {
    Keys::initial(Version::ONE, &ID, Side::Client).expect("a known version and a short ID")
}

/// A packet in which no two parts are alike.
fn initial(number: u64) -> Initial<'static> {
    Initial {
        number: FullPn(number),
        acknowledged: number.checked_sub(1).map(FullPn),
        number_length: 2,
        destination: b"destination",
        source: b"source",
        token: b"a token",
        payload: b"a payload of some bytes",
    }
}

/// The client's keys of version 1 and another level than Initial.
fn installed_keys(level: Level) -> Keys {
    Keys::install(Version::ONE, level, Side::Client, &[7; Keys::SECRET_LENGTH])
        .expect("a level that TLS has secrets for")
}

/// The same packet without its token.
fn long(number: u64) -> Long<'static> {
    let Initial { number, acknowledged, number_length, destination, source, payload, .. } = initial(number);
    Long { number, acknowledged, number_length, destination, source, payload }
}

/// A packet's bytes under the client's keys.
fn sealed(packet: &Initial) -> Vec<u8> {
    let mut out = [0; LIMIT];
    seal(&client_keys(), packet, &mut out).expect("a packet that can be sealed").to_vec()
}
