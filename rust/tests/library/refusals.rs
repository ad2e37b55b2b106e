//! Every refusal of every call, by its number.

use crate::{client_keys, initial, installed_keys, long, sealed, ID, SENTINEL};
use driftwicket::retry::{self, Retry};
use driftwicket::{open, read_header, read_integer, recover, seal, seal_long, shorten, smallest_length};
use driftwicket::{FullPn, Initial, Keys, Level, Long, NoRefusal, Refusal, Side, TruncatedPn, Version, LIMIT};
use std::error::Error;

const BEYOND: FullPn = FullPn(1 << 62);
const LONG: &[u8] = &[0; 21];

#[test]
fn numbers_and_words() {
    for (refusal, number) in Refusal::ALL.into_iter().zip(1..) {
        assert_eq!(refusal.number(), number);
        assert_eq!(Refusal::try_from(number), Ok(refusal));
        let words: Box<dyn Error> = refusal.into();
        assert_eq!(words.to_string(), format!("refusal {number}: {}", refusal.words()));
    }
    for number in [0, 15, u32::MAX] {
        assert_eq!(Refusal::try_from(number), Err(NoRefusal(number)));
    }
}

#[test]
fn of_numbers() {
    assert_eq!(read_integer(&[]), Err(Refusal::NotWhole));
    assert_eq!(smallest_length(BEYOND, None), Err(Refusal::Range));
    assert_eq!(smallest_length(FullPn(7), Some(FullPn(7))), Err(Refusal::Gap));
    assert_eq!(shorten(BEYOND, None, 0), Err(Refusal::Range));
    assert_eq!(shorten(FullPn(7), Some(FullPn(8)), 0), Err(Refusal::Gap));
    assert_eq!(shorten(FullPn(7), None, 0), Err(Refusal::Length));
    assert_eq!(recover((1 << 62) + 1, TruncatedPn(256), 1), Err(Refusal::Range));
    assert_eq!(recover(1 << 62, TruncatedPn(256), 1), Err(Refusal::Length));
    assert_eq!(recover(1 << 62, TruncatedPn(0), 1), Err(Refusal::Range));
}

#[test]
fn of_keys() {
    assert_eq!(Keys::initial(Version(2), LONG, Side::Client).unwrap_err(), Refusal::Version);
    assert_eq!(Keys::initial(Version::ONE, LONG, Side::Client).unwrap_err(), Refusal::LongId);
}

#[test]
fn of_installing_keys() {
    let install = |version, level, side| Keys::install(version, level, side, &[7; Keys::SECRET_LENGTH]);
    for version in [Version::ONE, Version::DRAFT_2] {
        assert_eq!(install(version, Level::Initial, Side::Client).unwrap_err(), Refusal::Type);
        assert_eq!(install(version, Level::Initial, Side::Server).unwrap_err(), Refusal::Type);
        assert_eq!(install(version, Level::ZeroRtt, Side::Server).unwrap_err(), Refusal::Type);
    }
    assert_eq!(install(Version(2), Level::Initial, Side::Client).unwrap_err(), Refusal::Version);
    assert_eq!(install(Version(2), Level::ZeroRtt, Side::Server).unwrap_err(), Refusal::Version);
}

#[test]
fn of_sealing() {
    let keys = client_keys();
    let (unknown, others) = (Keys::from_bytes([0; Keys::LENGTH]), installed_keys(Level::Handshake));
    let good = initial(7);
    let cases = [
        (&unknown, Initial { number: BEYOND, ..good }, Refusal::Version),
        (&others, Initial { number: BEYOND, ..good }, Refusal::Type),
        (&keys, Initial { number: BEYOND, number_length: 0, ..good }, Refusal::Range),
        (&keys, Initial { acknowledged: Some(FullPn(7)), number_length: 0, ..good }, Refusal::Gap),
        (&keys, Initial { number_length: 5, destination: LONG, ..good }, Refusal::Length),
        (&keys, Initial { destination: LONG, payload: b"", ..good }, Refusal::LongId),
        (&keys, Initial { source: LONG, payload: b"", ..good }, Refusal::LongId),
        (&keys, Initial { payload: b"1", token: &[0; 1_500], ..good }, Refusal::Short),
        (&keys, Initial { token: &[0; 1_500], ..good }, Refusal::Size),
        (&keys, good, Refusal::Room),
    ];
    for (keys, packet, refusal) in cases {
        let mut out = [SENTINEL; 40];
        assert_eq!(seal(keys, &packet, &mut out), Err(refusal));
        assert_eq!(out, [SENTINEL; 40]);
    }
}

#[test]
fn of_sealing_without_a_token() {
    let keys = installed_keys(Level::ZeroRtt);
    let (unknown, others) = (Keys::from_bytes([0; Keys::LENGTH]), client_keys());
    let good = long(7);
    let cases = [
        (&unknown, Long { number: BEYOND, ..good }, Refusal::Version),
        (&others, Long { number: BEYOND, ..good }, Refusal::Type),
        (&keys, Long { number: BEYOND, number_length: 0, ..good }, Refusal::Range),
        (&keys, Long { acknowledged: Some(FullPn(7)), number_length: 0, ..good }, Refusal::Gap),
        (&keys, Long { number_length: 5, destination: LONG, ..good }, Refusal::Length),
        (&keys, Long { destination: LONG, payload: b"", ..good }, Refusal::LongId),
        (&keys, Long { source: LONG, payload: b"", ..good }, Refusal::LongId),
        (&keys, Long { payload: b"1", ..good }, Refusal::Short),
        (&keys, Long { payload: &[0; 1_500], ..good }, Refusal::Size),
        (&keys, good, Refusal::Room),
    ];
    for (keys, packet, refusal) in cases {
        let mut out = [SENTINEL; 40];
        assert_eq!(seal_long(keys, &packet, &mut out), Err(refusal));
        assert_eq!(out, [SENTINEL; 40]);
    }
}

/// A good packet with some bits of one byte turned over.
fn with(at: usize, bits: u8) -> Vec<u8> {
    let mut datagram = sealed(&initial(7));
    datagram[at] ^= bits;
    datagram
}

/// What a header is refused for, with and without keys. The version stands at byte 1, the destination's length at 5,
/// the source's at 17 and Length at 32.
fn bad_headers() -> Vec<(Vec<u8>, Refusal)> {
    vec![
        (vec![], Refusal::Size),
        (vec![0xc0; LIMIT + 1], Refusal::Size),
        (with(0, 0x80), Refusal::Form),
        (with(0, 0x40), Refusal::Form),
        (vec![0xc0, 0, 0, 0], Refusal::NotWhole),
        (with(1, 1), Refusal::Version),
        // of the types, a Retry's
        (with(0, 0x30), Refusal::Type),
        (with(5, 0x40), Refusal::LongId),
        (with(17, 0x40), Refusal::LongId),
        (vec![0xc0, 0, 0, 0, 1, 0, 0, 0, 19], Refusal::Short),
        (with(32, 1), Refusal::NotWhole),
    ]
}

#[test]
fn of_reading_a_header() {
    for (datagram, refusal) in bad_headers() {
        assert_eq!(read_header(&datagram), Err(refusal));
    }
}

#[test]
fn of_opening() {
    let good = with(0, 0);
    let mut cases: Vec<(Vec<u8>, u64, Refusal)> =
        bad_headers().into_iter().map(|(datagram, refusal)| (datagram, 0, refusal)).collect();
    cases.push((vec![], (1 << 62) + 1, Refusal::Range));
    cases.push((with(0, 0x08), 0, Refusal::Reserved));
    cases.push((good.clone(), 1 << 62, Refusal::Range));
    cases.push((with(good.len() - 1, 1), 0, Refusal::Tag));
    for (datagram, expected, refusal) in cases {
        let (mut out, mut after) = ([SENTINEL; LIMIT], expected);
        assert_eq!(open(&client_keys(), &mut after, &datagram, &mut out), Err(refusal));
        assert_eq!((out, after), ([SENTINEL; LIMIT], expected));
    }
    assert_eq!(open(&client_keys(), &mut 0, &good, &mut []), Err(Refusal::Room));
    let others = Keys::initial(Version::DRAFT_2, &ID, Side::Client).unwrap();
    assert_eq!(open(&others, &mut 0, &good, &mut []), Err(Refusal::Version));
    assert_eq!(open(&installed_keys(Level::Handshake), &mut 0, &good, &mut []), Err(Refusal::Type));
    let unknown = Keys::from_bytes([0; Keys::LENGTH]);
    assert_eq!(open(&unknown, &mut 0, &[], &mut []), Err(Refusal::Version));
}

/// The reserved bits are judged before the tag, so that most packets of other senders don't get as far as that.
#[test]
fn of_opening_with_other_keys_three_in_four_are_9() {
    let datagram = with(0, 0);
    let mut reserved = 0;
    for id in 0..400_u32 {
        let others = Keys::initial(Version::ONE, &id.to_be_bytes(), Side::Client).unwrap();
        match open(&others, &mut 0, &datagram, &mut [0; LIMIT]) {
            Err(Refusal::Reserved) => reserved += 1,
            answer => assert_eq!(answer, Err(Refusal::Tag)),
        }
    }
    assert!((280..=320).contains(&reserved), "{reserved} of 400");
}

/// A Retry that can be written.
const RETRY: Retry =
    Retry { version: Version::ONE, original: &ID, destination: b"to", source: b"from", token: b"token", low_bits: 0 };

#[test]
fn of_writing_a_retry() {
    let cases = [
        (Retry { version: Version(0), original: LONG, ..RETRY }, Refusal::Version),
        (Retry { original: LONG, token: b"", ..RETRY }, Refusal::LongId),
        (Retry { destination: LONG, token: b"", ..RETRY }, Refusal::LongId),
        (Retry { source: LONG, token: b"", ..RETRY }, Refusal::LongId),
        (Retry { token: b"", ..RETRY }, Refusal::NoToken),
        (Retry { token: &[0; 1_500], ..RETRY }, Refusal::Size),
        (RETRY, Refusal::Room),
    ];
    for (packet, refusal) in cases {
        let mut out = [SENTINEL; 33];
        assert_eq!(retry::write(&packet, &mut out), Err(refusal));
        assert_eq!(out, [SENTINEL; 33]);
    }
}

#[test]
fn of_checking_a_retry() {
    let mut out = [0; 34];
    let good = retry::write(&RETRY, &mut out).unwrap().to_vec();
    let with = |at: usize, bits: u8| {
        let mut datagram = good.clone();
        datagram[at] ^= bits;
        datagram
    };
    let cases = [
        (vec![], Refusal::Size),
        (with(0, 0x80), Refusal::Form),
        (good[..4].to_vec(), Refusal::NotWhole),
        (with(1, 1), Refusal::Version),
        (with(0, 0x10), Refusal::Type),
        (with(5, 0x40), Refusal::LongId),
        (with(8, 0x40), Refusal::LongId),
        (good[..13 + 15].to_vec(), Refusal::NotWhole),
        (good[..13 + 16].to_vec(), Refusal::NoToken),
        (with(33, 1), Refusal::Tag),
    ];
    for (datagram, refusal) in cases {
        assert_eq!(retry::check(&ID, &datagram), Err(refusal));
    }
    assert_eq!(retry::check(LONG, &[]), Err(Refusal::LongId));
    assert!(retry::check(&ID, &good).is_ok());
}
