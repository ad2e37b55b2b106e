//! Every level in both versions, each with its own keys; and keys whose level is forged.

use crate::{initial, long, ID};
use driftwicket::{open, read_header, seal, seal_long, FullPn, Keys, Level, Receiver, Refusal, Side, Version, LIMIT};

const VERSIONS: [Version; 2] = [Version::ONE, Version::DRAFT_2];
const LEVELS: [Level; 3] = [Level::Initial, Level::ZeroRtt, Level::Handshake];

/// Where a key record has its level.
const LEVEL_AT: usize = 4;

/// The client's keys of a version and a level; no two levels share a secret.
fn keys(version: Version, level: Level) -> Keys {
    match level {
        Level::Initial => Keys::initial(version, &ID, Side::Client),
        _ => Keys::install(version, level, Side::Client, &[level as u8; Keys::SECRET_LENGTH]),
    }
    .expect("a known version, and a client")
}

/// A packet under some keys, in the form that their level has.
fn packet(keys: &Keys, number: u64) -> Vec<u8> {
    let mut out = [0; LIMIT];
    let sealed = match keys.level() {
        Some(Level::Initial) => seal(keys, &initial(number), &mut out),
        _ => seal_long(keys, &long(number), &mut out),
    };
    sealed.expect("a packet that can be sealed").to_vec()
}

/// A record with another level.
fn forged(keys: &Keys, level: u8) -> Keys {
    let mut record = *keys.as_bytes();
    record[LEVEL_AT] = level;
    Keys::from_bytes(record)
}

/// RFC 9000 section 17.2, and section 3.2 of the version 2 draft.
#[test]
fn types_by_version() {
    for (version, types) in [(Version::ONE, [0, 1, 2]), (Version::DRAFT_2, [1, 2, 3])] {
        for (level, packet_type) in LEVELS.into_iter().zip(types) {
            assert_eq!(packet(&keys(version, level), 9)[0] & 0xf0, 0xc0 | packet_type << 4);
        }
    }
}

#[test]
fn sealed_read_and_opened() {
    for (version, level) in VERSIONS.into_iter().flat_map(|version| LEVELS.map(|level| (version, level))) {
        let keys = keys(version, level);
        assert_eq!((keys.version(), keys.level()), (version, Some(level)));
        let datagram = packet(&keys, 9);

        let header = read_header(&datagram).unwrap();
        assert_eq!((header.version, header.level), (version, level));
        assert_eq!((header.destination, header.source), (initial(9).destination, initial(9).source));
        let (token, token_field) = if level == Level::Initial { (initial(9).token, 8) } else { (&b""[..], 0) };
        assert_eq!(header.token, token);
        assert_eq!(header.number_at, 24 + token_field + 2);
        assert_eq!(header.number_at + header.length, datagram.len());

        let (mut out, mut expected) = ([0; LIMIT], 0);
        let opened = open(&keys, &mut expected, &datagram, &mut out).unwrap();
        assert_eq!((opened.number, opened.payload), (FullPn(9), initial(9).payload));
        assert_eq!((opened.used, expected), (datagram.len(), 10));
    }
}

/// Under the same key, iv and hp, only the level decides; a byte that names none opens and seals nothing.
#[test]
fn forged_levels() {
    for (version, level) in VERSIONS.into_iter().flat_map(|version| LEVELS.map(|level| (version, level))) {
        let keys = keys(version, level);
        let datagram = packet(&keys, 9);
        for byte in 0..=255 {
            let keys = forged(&keys, byte);
            assert_eq!(keys.level(), LEVELS.into_iter().find(|level| *level as u8 == byte));
            let mut out = [0; LIMIT];
            assert_eq!(seal(&keys, &initial(9), &mut out).err(), (byte != 0).then_some(Refusal::Type));
            let without_token = byte == 1 || byte == 2;
            assert_eq!(seal_long(&keys, &long(9), &mut out).err(), (!without_token).then_some(Refusal::Type));
            let refusal = (byte != level as u8).then_some(Refusal::Type);
            assert_eq!(open(&keys, &mut 0, &datagram, &mut out).err(), refusal);
        }
    }
}

/// One datagram with a packet of each level: the header tells whose keys open it, and where the next packet stands.
#[test]
fn one_behind_the_other() {
    for version in VERSIONS {
        let keys = LEVELS.map(|level| keys(version, level));
        let datagram: Vec<u8> = keys.iter().flat_map(|keys| packet(keys, 9)).collect();
        let (mut rest, mut seen) = (&datagram[..], Vec::new());
        while !rest.is_empty() {
            let level = read_header(rest).unwrap().level;
            for keys in &keys {
                let mut out = [0; LIMIT];
                let answer = open(keys, &mut 0, rest, &mut out).map(|opened| opened.payload);
                let own = keys.level() == Some(level);
                assert_eq!(answer, if own { Ok(long(9).payload) } else { Err(Refusal::Type) });
            }
            seen.push(level);
            let header = read_header(rest).unwrap();
            rest = &rest[header.number_at + header.length..];
        }
        assert_eq!(seen, LEVELS);
    }
}

/// A receiver for each level: the same numbers come at all three, and what is for another changes nothing.
#[test]
fn each_with_its_own_numbers() {
    for version in VERSIONS {
        let mut receivers = LEVELS.map(|level| Receiver::new(keys(version, level)));
        for number in [2, 0, 5, 5, 3] {
            for level in LEVELS {
                let datagram = packet(&keys(version, level), number);
                for receiver in &mut receivers {
                    let (mut out, before) = ([0; LIMIT], receiver.expected());
                    let answer = receiver.open(&datagram, &mut out).map(|opened| opened.number);
                    if receiver.keys().level() == Some(level) {
                        assert_eq!(answer, Ok(FullPn(number)));
                        assert_eq!(receiver.expected(), before.max(number + 1));
                    } else {
                        assert_eq!((answer, receiver.expected()), (Err(Refusal::Type), before));
                    }
                }
            }
        }
        assert!(receivers.iter().all(|receiver| receiver.expected() == 6));
    }
}
